//! The same answers in plain Rust, with the same early way out, and the measurement of both sides.
//! `plain KIND SIDE ROUNDS` examines 64 pairs a round and prints a sum and the nanoseconds a pair.

use std::hint::black_box;
use std::time::Instant;

#[derive(Clone, Copy)]
#[repr(C)]
struct Track {
    x: i64,
    y: i64,
    vx: i64,
    vy: i64,
    z: i64,
    vz: i64,
}

#[derive(Clone, Copy)]
#[repr(C)]
struct Limits {
    look: i64,
    h: i64,
    v_low: i64,
    v_high: i64,
    split: i64,
    now_h: i64,
    now_v_low: i64,
    now_v_high: i64,
    urgent: i64,
}

unsafe extern "C" {
    fn rattle_examine(
        first: *const Track, first_len: usize, second: *const Track, second_len: usize, limits: Limits, rounds: u64,
    ) -> i64;
}

struct Hit {
    first: i64,
    closest: i64,
    chs: u32,
    mhs: u16,
    cvs: u16,
    mvs: u16,
    current: bool,
    urgent: bool,
}

#[inline(always)]
fn examine(a: &Track, b: &Track, limits: &Limits) -> Option<Hit> {
    if stay_apart(a, b, limits) { None } else { examine_near(a, b, limits) }
}

#[inline(never)]
fn examine_near(a: &Track, b: &Track, limits: &Limits) -> Option<Hit> {
    let (dx, dy, dz) = (b.x - a.x, b.y - a.y, b.z - a.z);
    let (dvx, dvy, dvz) = (b.vx - a.vx, b.vy - a.vy, b.vz - a.vz);
    let growth = (dvx * dvx + dvy * dvy) as i128;
    let approach = dx * dvx + dy * dvy;
    let start = square(dx) + square(dy);
    let low = a.z <= limits.split && b.z <= limits.split;
    let now_v = if low { limits.now_v_low } else { limits.now_v_high };
    let is_near = dx.abs() < limits.now_h && dy.abs() < limits.now_h && start < square(limits.now_h);
    let current = is_near && dz.abs() < now_v && approach <= 0;
    let first = if current {
        0
    } else {
        let v = if low { limits.v_low } else { limits.v_high };
        let near = quadratic(growth, approach as i128, start - square(limits.h), limits.look)?;
        first_level(near, dz, dvz, v, limits.look)?
    };
    let closest = least_tick(growth as i64, approach, limits.look);
    let then = square(dx + dvx * closest) + square(dy + dvy * closest);
    Some(Hit {
        first,
        closest,
        chs: (isqrt(start as u128) as u64 / 256).min(0xff_ffff) as u32,
        mhs: (isqrt(then as u128) as u64 / 256).min(0xffff) as u16,
        cvs: (dz.unsigned_abs() / 30_720).min(0xffff) as u16,
        mvs: ((dz + dvz * closest).unsigned_abs() / 30_720).min(0xffff) as u16,
        current,
        urgent: current || first <= limits.urgent,
    })
}

fn stay_apart(a: &Track, b: &Track, limits: &Limits) -> bool {
    let h = limits.h.max(limits.now_h);
    beyond(b.x - a.x, b.vx - a.vx, h, limits.look)
        || beyond(b.y - a.y, b.vy - a.vy, h, limits.look)
        || beyond(b.z - a.z, b.vz - a.vz, greater_v(a, b, limits), limits.look)
}

fn greater_v(a: &Track, b: &Track, limits: &Limits) -> i64 {
    if a.z <= limits.split && b.z <= limits.split {
        limits.v_low.max(limits.now_v_low)
    } else {
        limits.v_high.max(limits.now_v_high)
    }
}

fn beyond(apart: i64, speed: i64, limit: i64, look: i64) -> bool {
    let end = apart + speed * look;
    apart.min(end) >= limit || apart.max(end) <= -limit
}

fn square(x: i64) -> i128 {
    x as i128 * x as i128
}

/// The first tick of a span at which the vertical distance is below the limit.
fn first_level((first, last): (i64, i64), dz: i64, dvz: i64, v: i64, look: i64) -> Option<i64> {
    let below = linear(-dvz as i128, (v - 1 - dz) as i128, look)?;
    let above = linear(dvz as i128, (v - 1 + dz) as i128, look)?;
    let from = first.max(below.0).max(above.0);
    (from <= last.min(below.1).min(above.1)).then_some(from)
}

fn linear(a: i128, b: i128, l: i64) -> Option<(i64, i64)> {
    let at_end = a * l as i128 + b;
    if b >= 0 {
        Some(if at_end >= 0 { (0, l) } else { (0, (b / -a) as i64) })
    } else if at_end >= 0 {
        Some((((-1 - b) / a) as i64 + 1, l))
    } else {
        None
    }
}

fn quadratic(a: i128, b: i128, c: i128, l: i64) -> Option<(i64, i64)> {
    if stays_above(a, b, c, l) {
        return None;
    }
    if a == 0 {
        return linear(-2 * b, -1 - c, l);
    }
    let square = b * b - a * c;
    if square <= 0 {
        return None;
    }
    let root = isqrt((square - 1) as u128) as i64;
    let b = b as i64;
    multiples_between(a as i64, -root - b, root - b, l)
}

fn stays_above(a: i128, b: i128, c: i128, l: i64) -> bool {
    if c < 0 {
        return false;
    }
    if b >= 0 {
        return true;
    }
    let slope = a * l as i128 + b;
    slope <= 0 && (slope + b) * l as i128 + c >= 0
}

fn multiples_between(step: i64, low: i64, high: i64, l: i64) -> Option<(i64, i64)> {
    if high < 0 || step * l < low {
        return None;
    }
    let first = if low <= 0 { 0 } else { (low - 1) / step + 1 };
    let last = if step * l <= high { l } else { high / step };
    (first <= last).then_some((first, last))
}

fn least_tick(a: i64, b: i64, l: i64) -> i64 {
    let (step, bound) = (2 * a, -2 * b - a);
    if bound <= 0 {
        0
    } else if step * l < bound {
        l
    } else {
        ((bound - 1) / step + 1).min(l)
    }
}

fn isqrt(n: u128) -> u128 {
    if n < 1 << 64 {
        return word_root(n as u64) as u128;
    }
    let half = (65 - n.leading_zeros()) / 2;
    let leading = (n >> (2 * half)) as u64;
    let high = word_root(leading);
    let low = ((leading - high * high + 1) << (half - 1)) / high;
    let most = ((high as u128 + 1) << half) - 1;
    let mut root = (((high as u128) << half) + low as u128).min(most);
    while n < root * root {
        root -= 1;
    }
    root
}

fn word_root(n: u64) -> u64 {
    let half = (65 - n.leading_zeros()) / 2;
    let mut root = ((1 << half) + (n >> half)) / 2;
    while n < root * root {
        root = (root + n / root) / 2;
    }
    root
}

fn sum_of(hit: Option<Hit>) -> i64 {
    let Some(hit) = hit else {
        return 1;
    };
    let flags = hit.current as i64 + hit.urgent as i64;
    let across = 5 * hit.chs as i64 + 7 * hit.mhs as i64;
    let up = 11 * hit.cvs as i64 + 13 * hit.mvs as i64;
    hit.first + 3 * hit.closest + across + up + flags
}

#[inline(never)]
fn plain_examine(first: &[Track], second: &[Track], limits: &Limits, rounds: u64) -> i64 {
    let mut sum = 0i64;
    for _ in 0..rounds {
        for (a, b) in first.iter().zip(second) {
            sum = sum.wrapping_add(sum_of(examine(a, b, limits)));
        }
    }
    sum
}

const METRE: i64 = 512;

const FLIGHT_LEVEL: i64 = 4 * 30_720;

/// Sixty-four pairs of a kind, at speeds of 200 to 250 m/s. The second track's place and speed are told from
/// the first's.
fn pairs_of(kind: &str) -> (Vec<Track>, Vec<Track>) {
    (0..64i64)
        .map(|k| {
            let sign = if k % 2 == 0 { 1 } else { -1 };
            let a = Track { x: 1_000 * k, y: -777 * k, vx: 800 + k, vy: 13 * k - 400, z: (250 + k) * FLIGHT_LEVEL, vz: 0 };
            let (x, y, vx, vy, z, vz) = match kind {
                // 80 to 143 km along x or y, and closing by at most 60 km over the look-ahead.
                "far" => (sign * (80_000 + 1_000 * k) * METRE, 9_000 * METRE, -sign * (900 + 16 * k), 5 * k, 0, 0),
                // 10 to 23 km and drawing apart.
                "parting" => (sign * (10_000 + 200 * k) * METRE, -40 * k * METRE, sign * (300 + 20 * k), 3 * k, 0, 0),
                // Within reach along each axis, never along both at a time: past each other at 21 km.
                "passing" => (sign * (30_000 + 100 * k) * METRE, 30 * k * METRE, -sign * (1_000 + 4 * k), 1_000, 0, 0),
                // Near until 3 s to 13 s ahead, and within the vertical limit from 47 s on alone.
                "crossing levels" => (sign * 8_000 * METRE, 3_000 * METRE, sign * (900 + 10 * k), 0, 16 * FLIGHT_LEVEL, -(60 + k)),
                // A conflict ahead: the limit is crossed after 30 to 80 s.
                "crossing" => (sign * (20_000 + 150 * k) * METRE, (1_000 + 60 * k) * METRE, -sign * (1_400 + 5 * k), 40, 0, 0),
                "crossing in descent" => (sign * (20_000 + 150 * k) * METRE, (1_000 + 60 * k) * METRE, -sign * (1_400 + 5 * k), 40, 11 * FLIGHT_LEVEL, -(100 + k)),
                "current" => (sign * (1_000 + 40 * k) * METRE, (500 + 20 * k) * METRE, -sign * (100 + k), -50, 2 * FLIGHT_LEVEL, 0),
                _ => panic!("no such kind"),
            };
            let b = Track { x: a.x + x, y: a.y + y, vx: a.vx + vx, vy: a.vy + vy, z: a.z + z, vz };
            (a, b)
        })
        .unzip()
}

const SITE: Limits = Limits {
    look: 15_360,
    h: 4_741_120,
    v_low: 983_040,
    v_high: 1_228_800,
    split: 35_635_200,
    now_h: 2_370_560,
    now_v_low: 614_400,
    now_v_high: 737_280,
    urgent: 2_560,
};

fn main() {
    let words: Vec<String> = std::env::args().collect();
    let (kind, side) = (words[1].as_str(), words[2].as_str());
    let rounds: u64 = words[3].parse().unwrap();
    let (first, second) = black_box(pairs_of(kind));
    let limits = black_box(SITE);
    if side == "hits" {
        let hits = first.iter().zip(&second).filter_map(|(a, b)| examine(a, b, &limits)).count();
        println!("{hits} of {} pairs", first.len());
        return;
    }
    let start = Instant::now();
    let sum = match side {
        "plain" => plain_examine(&first, &second, &limits, rounds),
        "rattle" => unsafe {
            rattle_examine(first.as_ptr(), first.len(), second.as_ptr(), second.len(), limits, rounds)
        },
        _ => panic!("no such side"),
    };
    let nanoseconds = start.elapsed().as_nanos() as f64 / (64 * rounds.max(1)) as f64;
    println!("{sum} {nanoseconds:.2}");
}
