//! The same functions in plain Rust, and the measurement of both sides.
//! `plain KIND SIDE ROUNDS` makes 16 calls a round and prints a sum and the nanoseconds a call.

use std::hint::black_box;
use std::time::Instant;

#[derive(Clone, Copy)]
enum Ticks {
    Empty,
    Span { first: i64, last: i64 },
}

#[derive(Clone, Copy)]
#[repr(C)]
struct Row {
    a: i64,
    b: i64,
    c: i64,
}

unsafe extern "C" {
    fn rattle_quadratic(rows: *const Row, len: usize, l: i64, rounds: u64) -> i64;
    fn rattle_isqrt(high: *const u64, len: usize, low: u64, rounds: u64) -> u64;
    fn rattle_std_isqrt(high: *const u64, len: usize, low: u64, rounds: u64) -> u64;
}

fn span(first: i64, last: i64) -> Ticks {
    if first <= last { Ticks::Span { first, last } } else { Ticks::Empty }
}

fn linear(a: i128, b: i128, l: i64) -> Ticks {
    let at_end = a * l as i128 + b;
    if b >= 0 {
        if at_end >= 0 { span(0, l) } else { span(0, (b / -a) as i64) }
    } else if at_end >= 0 {
        span(((-1 - b) / a) as i64 + 1, l)
    } else {
        Ticks::Empty
    }
}

fn quadratic(a: i128, b: i128, c: i128, l: i64) -> Ticks {
    if stays_above(a, b, c, l) {
        return Ticks::Empty;
    }
    if a == 0 {
        return linear(-2 * b, -1 - c, l);
    }
    let square = b * b - a * c;
    if square <= 0 {
        return Ticks::Empty;
    }
    let root = isqrt((square - 1) as u128) as i64;
    let b = b as i64;
    multiples_between(a as i64, -root - b, root - b, l)
}

fn stays_above(a: i128, b: i128, c: i128, l: i64) -> bool {
    if c < 0 {
        return false;
    }
    if b >= 0 {
        return true;
    }
    let slope = a * l as i128 + b;
    slope <= 0 && (slope + b) * l as i128 + c >= 0
}

fn multiples_between(step: i64, low: i64, high: i64, l: i64) -> Ticks {
    if high < 0 || step * l < low {
        return Ticks::Empty;
    }
    let first = if low <= 0 { 0 } else if step * l < low { l } else { (low - 1) / step + 1 };
    let last = if step * l <= high { l } else { high / step };
    span(first, last)
}

fn isqrt(n: u128) -> u128 {
    if n < 1 << 64 {
        return word_root(n as u64) as u128;
    }
    let half = (65 - n.leading_zeros()) / 2;
    let leading = (n >> (2 * half)) as u64;
    let high = word_root(leading);
    let low = ((leading - high * high + 1) << (half - 1)) / high;
    let most = ((high as u128 + 1) << half) - 1;
    let mut root = (((high as u128) << half) + low as u128).min(most);
    while n < root * root {
        root -= 1;
    }
    root
}

fn word_root(n: u64) -> u64 {
    let half = (65 - n.leading_zeros()) / 2;
    let mut root = ((1 << half) + (n >> half)) / 2;
    while n < root * root {
        root = (root + n / root) / 2;
    }
    root
}

fn first_of(ticks: Ticks) -> i64 {
    match ticks {
        Ticks::Empty => -1,
        Ticks::Span { first, last } => first.wrapping_add(last),
    }
}

#[inline(never)]
fn plain_quadratic(rows: &[Row], l: i64, rounds: u64) -> i64 {
    let mut sum = 0i64;
    for _ in 0..rounds {
        for row in rows {
            let found = quadratic(row.a as i128, row.b as i128, row.c as i128, l);
            sum = sum.wrapping_add(first_of(found));
        }
    }
    sum
}

#[inline(never)]
fn plain_isqrt(high: &[u64], low: u64, rounds: u64, root: impl Fn(u128) -> u128) -> u64 {
    let mut sum = 0u64;
    for _ in 0..rounds {
        for word in high {
            sum = sum.wrapping_add(root((*word as u128) << 64 | low as u128) as u64);
        }
    }
    sum
}

const LOOK_AHEAD: i64 = 15360;

/// Sixteen rows of a kind, in half-metres and ticks: the relative speed is 14142 units a tick.
fn rows_of(kind: &str) -> Vec<Row> {
    let a = 200_000_000i64;
    (0..16i64)
        .map(|k| {
            let nearest = 5000 + 37 * k;
            match kind {
                "parting" => Row { a, b: a * nearest, c: a * nearest * nearest / 2 },
                "closing" => Row { a, b: -3 * a * LOOK_AHEAD, c: 6 * a * LOOK_AHEAD * LOOK_AHEAD },
                "crossing" => Row { a, b: -a * nearest, c: a * nearest * nearest - a * 500_000 },
                "touching" => Row { a, b: -a * nearest, c: a * nearest * nearest - 1 },
                _ => panic!("no such kind"),
            }
        })
        .collect()
}

/// Sixteen numbers of so many bits.
fn words_of(bits: u32) -> Vec<u64> {
    (0..16u64).map(|k| (1u64 << (bits - 65)).wrapping_mul(3) / 2 + k * 7919 % (1 << (bits - 65))).collect()
}

fn main() {
    let words: Vec<String> = std::env::args().collect();
    let (kind, side) = (words[1].as_str(), words[2].as_str());
    let rounds: u64 = words[3].parse().unwrap();
    let start;
    let sum;
    if let Some(bits) = kind.strip_prefix("root") {
        let high = black_box(words_of(bits.parse().unwrap()));
        let low = black_box(0x1234_5678_9abc_def0u64);
        start = Instant::now();
        sum = match side {
            "plain" => plain_isqrt(&high, low, rounds, isqrt),
            "plain-std" => plain_isqrt(&high, low, rounds, |n| n.isqrt()),
            "rattle" => unsafe { rattle_isqrt(high.as_ptr(), high.len(), low, rounds) },
            "rattle-std" => unsafe { rattle_std_isqrt(high.as_ptr(), high.len(), low, rounds) },
            _ => panic!("no such side"),
        } as i64;
    } else {
        let rows = black_box(rows_of(kind));
        let l = black_box(LOOK_AHEAD);
        start = Instant::now();
        sum = match side {
            "plain" => plain_quadratic(&rows, l, rounds),
            "rattle" => unsafe { rattle_quadratic(rows.as_ptr(), rows.len(), l, rounds) },
            _ => panic!("no such side"),
        };
    }
    let nanoseconds = start.elapsed().as_nanos() as f64 / (16 * rounds.max(1)) as f64;
    println!("{sum} {nanoseconds:.1}");
}
