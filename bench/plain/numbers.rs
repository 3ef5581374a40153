//! The plain side of `bench/numbers`: prints a line a function, its name, the nanoseconds of all its calls, their
//! number, and a checksum of their results.
#[allow(dead_code)]
mod formulas;

use formulas::*;
use std::hint::black_box;

#[derive(Clone, Copy)]
struct Key {
    frame: i32,
    value: i64,
    is_linear: bool,
}

/// The value of a curve at a frame: the keys around it are found by halves.
fn at(keys: &[Key], frame: i32) -> Option<i64> {
    let (mut low, mut high) = (0, keys.len());
    while low < high {
        let middle = low + (high - low) / 2;
        if keys[middle].frame <= frame {
            low = middle + 1;
        } else {
            high = middle;
        }
    }
    if low == 0 || low == keys.len() {
        return keys.get(low.saturating_sub(1)).map(|key| key.value);
    }
    let (left, right) = (keys[low - 1], keys[low]);
    if !left.is_linear {
        return Some(left.value);
    }
    let rise = (right.value - left.value) as i128 * (frame - left.frame) as i128;
    Some(left.value + rdiv(rise, (right.frame - left.frame) as i128) as i64)
}

/// Keys at frames that rise by 1 to 13, every other one linear.
fn keys_of(random: &mut Random, count: u16) -> Vec<Key> {
    (0..count)
        .map(|i| {
            let frame = 7 * i as i32 + (random.next() % 7) as i32;
            let value = random.coordinate();
            Key { frame, value, is_linear: i % 2 == 0 }
        })
        .collect()
}

/// Frames from a few before the first key to a few after the last one.
fn frames_of(random: &mut Random, count: u16, frames: u32) -> Vec<i32> {
    (0..frames).map(|_| (random.next() % (7 * count as u64 + 20)) as i32 - 10).collect()
}

fn time_curve(name: &str, rounds: u32, random: &mut Random, count: u16, frames: u32) {
    let keys = keys_of(random, count);
    let all = frames_of(random, count, frames);
    timed(name, rounds, frames, |start| {
        let keys = black_box(&keys);
        all.iter().fold(start, |sum, frame| mix(sum, at(keys, *frame).unwrap_or(0)))
    });
}

fn time_roots(name: &str, rounds: u32, random: &mut Random, more: u128) {
    let squares: Vec<u128> = (0..MANY).map(|_| (random.next() >> 22) as u128 * more * LIM as u128).collect();
    timed(name, rounds, MANY as u32, |start| squares.iter().fold(start, |sum, n| mix(sum, isqrt(*n) as i64)));
}

fn time_carry(name: &str, rounds: u32, transform: &Xform, locations: &[V3]) {
    timed(name, rounds, MANY as u32, |start| {
        let transform = black_box(transform);
        locations.iter().fold(start, |sum, location| mix_location(sum, carry(transform, *location)))
    });
}

fn main() {
    let rounds = rounds();
    let mut random = Random::new();
    let raws: Vec<[i64; 4]> = (0..MANY).map(|_| random.raw()).collect();
    let locations: Vec<V3> = (0..MANY).map(|_| random.location()).collect();
    let transforms: Vec<Xform> = (0..MANY).map(|_| random.transform()).collect();
    let parent = random.transform();
    timed("normal", rounds, MANY as u32, |start| raws.iter().fold(start, |sum, raw| mix_rotation(sum, normal(*raw))));
    time_roots("isqrt", rounds, &mut random, 1);
    time_roots("isqrt-of-a-product", rounds, &mut random, 999_999_999_989);
    time_carry("carry", rounds, &parent, &locations);
    time_carry("carry-by-the-identity", rounds, &IDENTITY, &locations);
    timed("compose", rounds, MANY as u32, |start| {
        let parent = black_box(&parent);
        transforms.iter().fold(start, |sum, child| mix_transform(sum, &compose(parent, child)))
    });
    time_curve("at-10", rounds, &mut random, 10, 512);
    time_curve("at-1000", rounds, &mut random, 1_000, 512);
    time_curve("at-60000", rounds, &mut random, 60_000, 512);
    time_curve("at-10-and-65536-frames", rounds / 128 + 1, &mut random, 10, 65_536);
    time_curve("at-1000-and-65536-frames", rounds / 128 + 1, &mut random, 1_000, 65_536);
}
