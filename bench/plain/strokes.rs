//! The plain side of `bench/strokes`: modifiers and a layer's strokes as their rules say them, over vectors that grow.
//! Prints a line a function: its name, the nanoseconds of all its calls, the points that they made, and a checksum.
#[allow(dead_code)]
mod formulas;

use formulas::*;
use std::hint::black_box;

type Strokes = Vec<Vec<V3>>;

/// The effects of each kind.
const EFFECTS: usize = 8;

/// Into how many strokes the 300 points are divided.
const STROKES: [usize; 3] = [1, 3, 20];

/// Strokes with each point changed.
fn changed(strokes: &Strokes, change: impl Fn(V3) -> V3) -> Strokes {
    let mut made = Vec::new();
    for stroke in strokes {
        let mut points = Vec::new();
        for point in stroke {
            points.push(change(*point));
        }
        made.push(points);
    }
    made
}

fn offset(strokes: &Strokes, loc: V3, scale: i64) -> Strokes {
    changed(strokes, |p| moved(scaled(scale, p), loc))
}

/// All strokes so far again, on the other side of the centre, for each axis in turn.
fn mirror(strokes: &Strokes, centre: V3) -> Strokes {
    let across = |c: i64, centre: i64| clamp(2 * centre as i128 - c as i128);
    let mut made = changed(strokes, |p| p);
    made.extend(changed(&made, |p| V3 { x: across(p.x, centre.x), ..p }));
    made.extend(changed(&made, |p| V3 { y: across(p.y, centre.y), ..p }));
    made.extend(changed(&made, |p| V3 { z: across(p.z, centre.z), ..p }));
    made
}

fn array(strokes: &Strokes, count: u32, offset: V3) -> Strokes {
    let mut made = changed(strokes, |p| p);
    for k in 1..count {
        let [x, y, z] = [offset.x, offset.y, offset.z].map(|c| clamp(k as i128 * c as i128));
        made.extend(changed(strokes, |p| moved(p, V3 { x, y, z })));
    }
    made
}

fn layer(strokes: &Strokes, offset: V3, deform: &Xform) -> Strokes {
    changed(strokes, |p| carry(deform, moved(p, offset)))
}

fn moved_layer(strokes: &Strokes, offset: V3) -> Strokes {
    changed(strokes, |p| moved(p, offset))
}

fn last(strokes: &Strokes) -> i64 {
    strokes.last().and_then(|stroke| stroke.last()).map_or(0, |p| p.x)
}

fn mix_all(sum: i64, strokes: &Strokes) -> i64 {
    strokes.iter().flatten().fold(sum, |sum, p| mix_location(sum, *p))
}

/// Prints a checksum of all the points that are made, and then times making them.
fn time_making(name: &str, rounds: u32, points: u32, make: impl Fn(usize) -> Strokes) {
    let all = (0..EFFECTS).fold(0, |sum, i| mix_all(sum, &make(i)));
    println!("all-{name} 0 1 {all}");
    timed(name, rounds, EFFECTS as u32 * points, |start| {
        (0..EFFECTS).fold(start, |sum, i| mix(sum, last(black_box(&make(black_box(i))))))
    });
}

/// Takes a large block and gives it back. From then on the C library keeps what is freed at the end of the heap, and
/// doesn't hand it to the system, whose new pages would cost more than what is measured, on both sides alike.
fn keep_the_heap() {
    drop(black_box(Vec::<u8>::with_capacity(30 << 20)));
}

fn main() {
    let rounds = rounds();
    keep_the_heap();
    for count in STROKES {
        let mut random = Random::new();
        let strokes: Strokes = (0..count).map(|_| (0..300 / count).map(|_| random.location()).collect()).collect();
        let locations: Vec<V3> = (0..EFFECTS).map(|_| random.location()).collect();
        let scales: Vec<i64> = (0..EFFECTS).map(|_| random.scale()).collect();
        let transforms: Vec<Xform> = (0..EFFECTS).map(|_| random.transform()).collect();
        time_making(&format!("offset/{count}"), rounds, 300, |i| offset(&strokes, locations[i], scales[i]));
        time_making(&format!("mirror/{count}"), rounds, 2_400, |i| mirror(&strokes, locations[i]));
        time_making(&format!("array/{count}"), rounds, 16_200, |i| array(&strokes, 54, locations[i]));
        time_making(&format!("layer/{count}"), rounds, 300, |i| moved_layer(&strokes, locations[i]));
        time_making(&format!("bound-layer/{count}"), rounds, 300, |i| layer(&strokes, locations[i], &transforms[i]));
        time_making(&format!("bound-layer-at-rest/{count}"), rounds, 300, |i| layer(&strokes, locations[i], black_box(&IDENTITY)));
    }
}
