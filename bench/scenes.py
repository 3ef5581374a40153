"""Scenes that several scripts measure, as the bytes of their JSON."""
import json


def text_of(**lists):
    return json.dumps({"scene": {"version": 1, **lists}}, separators=(",", ":")).encode()


def bones(count):
    first = {"name": "b0", "loc": [0, 1_000_000, 0]}
    return [first, *({"name": f"b{i}", "parent": f"b{i - 1}", "loc": [0, 1_000_000, 0]} for i in range(1, count))]


def rigs(count):
    keys = lambda k: [{"frame": 1, "value": 0}, {"frame": 101, "value": 1_000_000 * (k + 1)}]
    stroke = [[1000 * i, 0, 0] for i in range(100)]
    ink = lambda k: {"name": "ink", "armature": f"rig{k}", "bone": "b15", "keys": [{"frame": 1, "drawing": 0}]}
    objects = []
    for k in range(count):
        carried = {"parent": f"rig{k - 1}"} if k else {}
        objects.append({"name": f"rig{k}", "kind": "armature", "data": f"arm{k}", "action": f"act{k}", **carried})
        rows = {"name": "rows", "kind": "array", "count": 4, "offset": [0, 1_000_000, 0]}
        objects.append({"name": f"line{k}", "kind": "pencil", "data": f"pen{k}", "parent": f"rig{k}", "modifiers": [rows]})
    return text_of(
        actions=[{"name": f"act{k}", "curves": [{"channel": "loc.x", "keys": keys(k)}]} for k in range(count)],
        armatures=[{"name": f"arm{k}", "bones": bones(16)} for k in range(count)],
        pencils=[{"name": f"pen{k}", "drawings": [{"strokes": [stroke]}], "layers": [ink(k)]} for k in range(count)],
        objects=objects,
    )
