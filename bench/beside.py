"""What the scripts share that measure proved code in a program of its own: `bench/numbers` and `bench/strokes` run plain formulas in turn
with it and compare what both print, and the others run it on scenes.

The proved side is a program over the repository's crates, built as `rt run` builds any. Its sources stand beside this
file with the ending .txt, since a .rt file may stand only in a crate. They are copied with the crates that they use into
a repository of their own in the machine's folder of temporary files, which stays, so that a later run proves only what
changed. The first run proves the program in some minutes.
"""
import os
import pathlib
import shutil
import subprocess
import sys
import tempfile
import zlib

BENCH = pathlib.Path(__file__).resolve().parent
TOP = BENCH.parent
RUNS = 25


def fail(text):
    sys.exit(f"{sys.argv[0]}: {text}")


def uses(top):
    """Each crate of a repository with the libraries that it uses."""
    lines = (line.partition("#")[0].partition(":") for line in (top / "crates.txt").read_text().splitlines())
    return {name.split()[0]: below.split() for name, _, below in lines if name.split()}


def at_or_below(crates, names):
    """The repository's own crates that the named ones stand on, and they themselves, the lowest first."""
    found = []
    for name in names:
        if name in crates:
            found += [it for it in [*at_or_below(crates, crates[name]), name] if it not in found]
    return list(dict.fromkeys(found))


def put(files, folder):
    """Makes a folder hold just these files, by their paths in it, and leaves those as they are that don't change."""
    kept = {folder / path for path in files}
    for path in sorted(folder.rglob("*"), reverse=True):
        if "out" not in path.relative_to(folder).parts and path.is_file() and path not in kept:
            path.unlink()
    for path, source in files.items():
        target = folder / path
        target.parent.mkdir(parents=True, exist_ok=True)
        if not target.exists() or target.read_bytes() != source.read_bytes():
            shutil.copyfile(source, target)


def crate_files(folder):
    parts = (folder / it for it in ("src", "specs", "proofs"))
    return {path.relative_to(folder): path for part in parts for path in part.rglob("*") if path.is_file()}


def program_files(name):
    """The files of a proved side, without their ending .txt, and the common modules that it declares."""
    own = BENCH / "proved" / name
    main = (own / "src" / "main.rt.txt").read_text()
    common = {
        path.relative_to(BENCH / "proved" / "common"): path
        for path in (BENCH / "proved" / "common").rglob("*.txt")
        if f"mod {path.name.partition('.')[0]};" in main
    }
    files = {path.relative_to(own): path for path in own.rglob("*.txt") if path.is_file()}
    return {path.with_suffix(""): source for path, source in {**common, **files}.items()}


def build_proved(name, libraries, top, kit=()):
    """Builds the proved side of a name over crates of a repository and of the kit, and returns the program."""
    suffix = f"{os.getuid()}-{zlib.crc32(str(top).encode()):08x}"
    folder = pathlib.Path(tempfile.gettempdir()) / f"rigplay-bench-{name}-{suffix}"
    program = f"rig_bench_{name}"
    crates = uses(top)
    own = at_or_below(crates, libraries)
    missing = [it for it in libraries if it not in own]
    if missing:
        fail(f"{top}/crates.txt has no crate {missing[0]}")
    for crate in own:
        put(crate_files(top / "crates" / crate), folder / "crates" / crate)
    put(program_files(name), folder / "crates" / program)
    lines = [f"{crate}: {' '.join(crates[crate])}" for crate in own]
    (folder / "crates.txt").write_text("\n".join([*lines, f"{program}: {' '.join([*libraries, *kit])}"]) + "\n")
    shutil.copyfile(top / "HANDLES", folder / "HANDLES")
    subprocess.run(["git", "init", "-q", folder], check=True)
    print(f"{sys.argv[0]}: building the proved side in {folder}", file=sys.stderr)
    said = folder / "said"
    with open(said, "w") as sink:
        words = ["rt", "run", "--", "1"]
        ran = subprocess.run(words, cwd=folder / "crates" / program, stdout=sink, stderr=subprocess.STDOUT)
    if ran.returncode != 0:
        fail(f"'rt run' ended with status {ran.returncode}: {said} has what it said")
    return folder / "crates" / program / "out" / program


def build_kernel():
    """Builds the program that `bench/kernel` and `bench/graph` share."""
    libraries = ["rig_io", "rig_fixed", "rig_scene", "rig_nodes", "rig_links", "rig_laws", "rig_curves", "rig_pose", "rig_strokes"]
    libraries += ["rig_modifiers", "rig_kernel", "rig_cut", "rig_edits", "rig_flush", "rig_scenejson", "rig_originals", "rig_workers"]
    return build_proved("kernel", [*libraries, "rig_graph"], repository(), ["serde_json"])


def parts_of(program, given, words):
    """What a run of a program on an input prints: for each part, by its name, the least nanoseconds a time, and what the last line of
    the part has last."""
    with tempfile.TemporaryFile() as source:
        source.write(given)
        source.seek(0)
        ran = subprocess.run([program, *words], stdin=source, stdout=subprocess.PIPE, text=True)
    lines = [line.split() for line in ran.stdout.splitlines()]
    if ran.returncode != 0 or not lines or any(len(line) != 4 for line in lines):
        fail(f"a run ended with status {ran.returncode} and said {ran.stdout}")
    best = {}
    for name, nanos, times, told in lines:
        best[name] = (min(int(nanos) / int(times), best.get(name, (float("inf"),))[0]), told)
    return best


def fastest_parts(program, inputs, words, runs):
    """The same for each input, the fastest of some runs over all inputs in turn."""
    best = [{} for _ in inputs]
    for _ in range(runs):
        for index, given in enumerate(inputs):
            for name, (nanos, told) in parts_of(program, given, words).items():
                best[index][name] = (min(nanos, best[index].get(name, (nanos,))[0]), told)
    return best


def build_plain(name, folder):
    """Builds the plain side of a name, and returns the program."""
    program = pathlib.Path(folder) / name
    subprocess.run(["rustc", "--edition=2024", "-O", "-o", program, BENCH / "plain" / f"{name}.rs"], check=True)
    return program


def run(program, rounds, settings):
    """The lines that a program prints: for each name the nanoseconds a call, and what must be equal on both sides. The
    settings are variables of its environment."""
    ran = subprocess.run([program, str(rounds)], stdout=subprocess.PIPE, text=True, env={**os.environ, **settings})
    if ran.returncode != 0:
        fail(f"{program} ended with status {ran.returncode}")
    lines = [line.split() for line in ran.stdout.splitlines()]
    return {name: (int(nanos) / int(calls), (calls, checksum)) for name, nanos, calls, checksum in lines}


def fastest_of_both(proved, plain, rounds, settings):
    """The nanoseconds a call of the proved side and of the plain one, by name: the fastest of some runs of both in turn,
    since what else the machine does only ever adds time."""
    best = {}
    for _ in range(RUNS):
        one, other = run(proved, rounds, settings), run(plain, rounds, settings)
        if {name: it[1] for name, it in one.items()} != {name: it[1] for name, it in other.items()}:
            wrong = [name for name in {**one, **other} if one.get(name, [0, 0])[1] != other.get(name, [0, 1])[1]]
            fail(f"the two sides differ in {' and '.join(wrong)}")
        for name in one:
            times = (one[name][0], other[name][0])
            best[name] = tuple(map(min, best.get(name, times), times))
    return best


def repository():
    """The repository that the script's argument gives, else its own."""
    top = pathlib.Path(sys.argv[1]).resolve() if len(sys.argv) > 1 else TOP
    if not (top / "crates.txt").is_file():
        fail(f"{top} has no crates.txt")
    return top


def measure(name, libraries, rounds, *many_settings):
    """Builds both sides of a name and runs them under each of some settings."""
    top = repository()
    proved = build_proved(name, libraries, top)
    with tempfile.TemporaryDirectory() as folder:
        plain = build_plain(name, folder)
        return [fastest_of_both(proved, plain, rounds, it) for it in many_settings]


def figure(name, value):
    print(f"{name}: {value:.2f}", flush=True)
