// The formulas of numbers as they are written, in 128 bits: what the proved code is compared with. Both sides make the
// same inputs by one generator, and mix their results into one checksum.
use std::hint::black_box;
use std::time::Instant;

pub const MANY: usize = 512;
pub const U: i128 = 1_000_000;
pub const LIM: i128 = 1_000_000_000_000;

#[derive(Clone, Copy)]
pub struct V3 {
    pub x: i64,
    pub y: i64,
    pub z: i64,
}

#[derive(Clone, Copy)]
pub struct Quat {
    pub w: i64,
    pub x: i64,
    pub y: i64,
    pub z: i64,
}

#[derive(Clone, Copy)]
pub struct Xform {
    pub loc: V3,
    pub rot: Quat,
    pub scale: i64,
}

/// The transform that changes nothing.
pub const IDENTITY: Xform = Xform {
    loc: V3 { x: 0, y: 0, z: 0 },
    rot: Quat { w: U as i64, x: 0, y: 0, z: 0 },
    scale: U as i64,
};

pub fn clamp(x: i128) -> i64 {
    x.clamp(-LIM, LIM) as i64
}

/// `a / b` rounded to the nearest, a half upward.
pub fn rdiv(a: i128, b: i128) -> i128 {
    (2 * a + b).div_euclid(2 * b)
}

/// The square root rounded down, a digit in base 4 after the other.
pub fn isqrt(n: u128) -> u128 {
    let mut rest = n;
    let mut root = 0u128;
    let mut bit = 1u128 << 126;
    while bit > n {
        bit >>= 2;
    }
    while bit != 0 {
        if rest >= root + bit {
            rest -= root + bit;
            root = (root >> 1) + bit;
        } else {
            root >>= 1;
        }
        bit >>= 2;
    }
    root
}

/// Four numbers brought to the length of one unit.
pub fn normalized(q: [i128; 4]) -> Quat {
    if q == [0; 4] {
        return Quat { w: U as i64, x: 0, y: 0, z: 0 };
    }
    let square: i128 = q.iter().map(|c| c * c).sum();
    let length = isqrt((square * LIM) as u128) as i128;
    let [w, x, y, z] = q.map(|c| rdiv(c * LIM, length) as i64);
    Quat { w, x, y, z }
}

pub fn normal(raw: [i64; 4]) -> Quat {
    normalized(raw.map(i128::from))
}

pub fn product(p: Quat, q: Quat) -> Quat {
    let [pw, px, py, pz] = [p.w, p.x, p.y, p.z].map(i128::from);
    let [qw, qx, qy, qz] = [q.w, q.x, q.y, q.z].map(i128::from);
    normalized([
        pw * qw - px * qx - py * qy - pz * qz,
        pw * qx + px * qw + py * qz - pz * qy,
        pw * qy - px * qz + py * qw + pz * qx,
        pw * qz + px * qy - py * qx + pz * qw,
    ])
}

pub fn cross(a: [i128; 3], b: [i128; 3]) -> [i128; 3] {
    [
        a[1] * b[2] - a[2] * b[1],
        a[2] * b[0] - a[0] * b[2],
        a[0] * b[1] - a[1] * b[0],
    ]
}

pub fn rotate(q: Quat, v: V3) -> V3 {
    let axis = [q.x, q.y, q.z].map(i128::from);
    let location = [v.x, v.y, v.z].map(i128::from);
    let once = cross(axis, location);
    let twice = cross(axis, once);
    let moved = |i: usize| clamp(location[i] + rdiv(2 * q.w as i128 * once[i] + 2 * twice[i], LIM));
    V3 { x: moved(0), y: moved(1), z: moved(2) }
}

pub fn scaled(scale: i64, v: V3) -> V3 {
    let one = |c: i64| clamp(rdiv(scale as i128 * c as i128, U));
    V3 { x: one(v.x), y: one(v.y), z: one(v.z) }
}

pub fn moved(a: V3, b: V3) -> V3 {
    let one = |a: i64, b: i64| clamp(a as i128 + b as i128);
    V3 { x: one(a.x, b.x), y: one(a.y, b.y), z: one(a.z, b.z) }
}

pub fn carry(x: &Xform, v: V3) -> V3 {
    moved(x.loc, rotate(x.rot, scaled(x.scale, v)))
}

pub fn compose(p: &Xform, c: &Xform) -> Xform {
    Xform {
        loc: carry(p, c.loc),
        rot: product(p.rot, c.rot),
        scale: clamp(rdiv(p.scale as i128 * c.scale as i128, U).max(1)),
    }
}

/// A xorshift generator.
pub struct Random {
    state: u64,
}

impl Random {
    pub fn new() -> Random {
        Random { state: 88_172_645_463_325_252 }
    }

    pub fn next(&mut self) -> u64 {
        let mut x = self.state;
        x ^= x << 13;
        x ^= x >> 7;
        x ^= x << 17;
        self.state = x;
        x
    }

    /// A number from `-limit` to `limit`.
    pub fn within(&mut self, limit: u32) -> i64 {
        let width = 2 * limit as i64 + 1;
        (self.next() >> 1) as i64 % width - limit as i64
    }

    /// A coordinate within 10 units.
    pub fn coordinate(&mut self) -> i64 {
        self.within(10_000_000)
    }

    pub fn location(&mut self) -> V3 {
        let [x, y, z] = [(); 3].map(|()| self.coordinate());
        V3 { x, y, z }
    }

    pub fn raw(&mut self) -> [i64; 4] {
        [(); 4].map(|()| self.within(1_000_000))
    }

    /// A scale from 0.9 to 1.1.
    pub fn scale(&mut self) -> i64 {
        900_000 + (self.next() % 200_001) as i64
    }

    pub fn transform(&mut self) -> Xform {
        let loc = self.location();
        let rot = normal(self.raw());
        let scale = self.scale();
        Xform { loc, rot, scale }
    }
}

pub fn mix(sum: i64, value: i64) -> i64 {
    sum.rotate_left(5).wrapping_add(value)
}

pub fn mix_location(sum: i64, v: V3) -> i64 {
    mix(mix(mix(sum, v.x), v.y), v.z)
}

pub fn mix_rotation(sum: i64, q: Quat) -> i64 {
    mix(mix(mix(mix(sum, q.w), q.x), q.y), q.z)
}

pub fn mix_transform(sum: i64, x: &Xform) -> i64 {
    mix(mix_rotation(mix_location(sum, x.loc), x.rot), x.scale)
}

/// The rounds that the program's argument gives.
pub fn rounds() -> u32 {
    std::env::args().nth(1).map_or(1, |word| word.parse().expect("a number of rounds"))
}

/// Runs a pass over so many inputs for so many rounds, and prints its line.
pub fn timed(name: &str, rounds: u32, inputs: u32, pass: impl Fn(i64) -> i64) {
    let start = Instant::now();
    let mut sum = 0;
    for _ in 0..rounds {
        sum = black_box(pass(black_box(sum)));
    }
    let nanos = start.elapsed().as_nanos();
    let calls = rounds as u64 * inputs as u64;
    println!("{name} {nanos} {calls} {sum}");
}

