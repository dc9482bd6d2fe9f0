//! The yardstick of the bench: what the proved program does, on the same words, in plain Rust with the
//! standard library alone. It was written from the definitions and shares no code with the crates.
//!
//! Exit statuses: 0 done, 2 other words than `replay --site SITE FEED...` with one feed to eight, 4 a file that can't
//! be opened or read, 5 a write that failed, 7 done, and part of a feed was refused or cut off.

use std::cmp::Reverse;
use std::collections::{BTreeMap, HashMap};
use std::io::Write;
use std::process::ExitCode;

use Form::{Compound, Explicit, Extended, Fixed, Spare};
use Subfield::{Fixed as F, Repeat as R};

const MOST_FEEDS: usize = 8;

/// What follows so many octets is no part of a feed.
const FEED_LIMIT: usize = 1 << 40;

/// The source of the messages.
const SAC: u8 = 25;
const SIC: u8 = 100;

/// Times in ticks of 1/128 s: a day, when the first cycle begins, how long each is, how old a row may be at its end,
/// the look-ahead for pairs and that for volumes, and how far ahead a conflict is urgent.
const DAY: i64 = 24 * 3_600 * 128;
const START: i64 = 4_608_000;
const PERIOD: i64 = 4 * 128;
const TIMEOUT: i64 = 16 * 128;
const LOOK: i64 = 120 * 128;
const LOOK_AHEAD: i64 = 60 * 128;
const URGENT: i64 = 20 * 128;

/// Lengths are in 1/512 m and heights in 1/30,720 of 25 ft, so that a speed of 0.25 m/s and a rate of
/// 6.25 ft/min are one unit a tick.
const HALF_METRE: i64 = 256;
const METRE: i64 = 2 * HALF_METRE;
const FEET_25: i64 = 30_720;

/// The limits of linear prediction and those of current proximity.
const LIMIT_H: i64 = 9_260 * 512;
const LIMIT_V_LOW: i64 = 800 / 25 * FEET_25;
const LIMIT_V_HIGH: i64 = 1_000 / 25 * FEET_25;
const NOW_H: i64 = 4_630 * 512;
const NOW_V_LOW: i64 = 500 / 25 * FEET_25;
const NOW_V_HIGH: i64 = 600 / 25 * FEET_25;
const SPLIT: i64 = 29_000 / 25 * FEET_25;

/// A pair beyond a limit of linear prediction is beyond that of current proximity too.
const _: () = assert!(NOW_H <= LIMIT_H && NOW_V_LOW <= LIMIT_V_LOW && NOW_V_HIGH <= LIMIT_V_HIGH);

/// How many hits in so many cycles begin an alert where none is urgent, and for how many cycles it is held after a hit.
struct Confirm {
    hits: u32,
    cycles: u32,
    held: u32,
}

/// The QNH correction in 25 ft, and the Mode 3/A codes that are left out.
const QNH: i16 = 0;
const CODES: [u16; 1] = [0o7000];

/// The octets of a block at most.
const BLOCK_ROOM: usize = 1_400;

/// How an item is laid out.
enum Form {
    Spare,
    /// So many octets.
    Fixed(usize),
    /// Parts of so many octets, each of which asks by bit 1 of its last octet for another, but for the last.
    Extended(usize),
    /// A length, which counts itself, and the rest.
    Explicit,
    /// Presence octets, and the subfields that they name.
    Compound(&'static [Subfield]),
}

/// How a subfield of a compound item is laid out.
enum Subfield {
    /// So many octets.
    Fixed(usize),
    /// A count, and so many groups of this many octets.
    Repeat(usize),
}

/// The items of category 062 by field reference number, seven to an octet of the FSPEC.
#[rustfmt::skip]
static ITEMS: [Form; 35] = [
    // 010, spare, 015, 070, 105, 100, 185
    Fixed(2), Spare, Fixed(1), Fixed(3), Fixed(8), Fixed(6), Fixed(4),
    // 210, 060, 245, 380, 040, 080, 290
    Fixed(2), Fixed(2), Fixed(7), Compound(&ITEM_380), Fixed(2), Extended(1), Compound(&ITEM_290),
    // 200, 295, 136, 130, 135, 220, 390
    Fixed(1), Compound(&ITEM_295), Fixed(2), Fixed(2), Fixed(2), Fixed(2), Compound(&ITEM_390),
    // 270, 300, 110, 120, 510, 500, 340
    Extended(1), Fixed(1), Compound(&ITEM_110), Fixed(2), Extended(3), Compound(&ITEM_500),
    Compound(&ITEM_340),
    // five spare ones, RE, SP
    Spare, Spare, Spare, Spare, Spare, Explicit, Explicit,
];

/// The subfields of the compound items, seven to a presence octet.
#[rustfmt::skip]
static ITEM_380: [Subfield; 28] = [
    F(3), F(6), F(2), F(2), F(2), F(2), F(2),
    F(1), R(15), F(2), F(2), F(7), F(2), F(2),
    F(2), F(2), F(2), F(2), F(1), F(8), F(1),
    F(6), F(2), F(1), R(8), F(2), F(2), F(2),
];
static ITEM_290: [Subfield; 10] = [F(1), F(1), F(1), F(1), F(2), F(1), F(1), F(1), F(1), F(1)];
static ITEM_295: [Subfield; 31] = [const { F(1) }; 31];
#[rustfmt::skip]
static ITEM_390: [Subfield; 18] = [
    F(2), F(7), F(4), F(1), F(4), F(1), F(4),
    F(4), F(3), F(2), F(2), R(4), F(6), F(1),
    F(7), F(7), F(2), F(7),
];
static ITEM_110: [Subfield; 7] = [F(1), F(4), F(6), F(2), F(2), F(1), F(1)];
static ITEM_500: [Subfield; 8] = [F(4), F(2), F(4), F(1), F(1), F(2), F(2), F(1)];
static ITEM_340: [Subfield; 6] = [F(2), F(4), F(2), F(2), F(2), F(1)];

/// SAC, SIC and the two octets of the track number, so that keys stand in the order of their numbers.
type Key = u32;

/// What is read of a record's items.
#[derive(Default)]
struct Record {
    source: Option<[u8; 2]>,
    number: Option<[u8; 2]>,
    time: Option<i64>,
    position: Option<(i32, i32)>,
    velocity: (i16, i16),
    rate: i16,
    flight_level: Option<i16>,
    barometric: Option<i16>,
    is_corrected: bool,
    code: Option<u16>,
    tentative: bool,
    simulated: bool,
    ended: bool,
}

/// What the table keeps of a usable record.
#[derive(Clone, Copy)]
struct Track {
    at: i64,
    feed: u8,
    /// It has a level, and nothing but its age can leave it out.
    is_eligible: bool,
    level: i16,
    altitude: i16,
    rate: i16,
    x: i32,
    y: i32,
    vx: i16,
    vy: i16,
}

/// The track of the greatest rank of each key.
type Table = HashMap<Key, Track>;

/// A usable record of a feed: which cycle it was told in, and of which track.
struct Told {
    cycle: i64,
    key: Key,
    track: Track,
}

/// The records of a feed, read one after the other.
struct Records<'a> {
    /// What follows the present block, and what is left of its body.
    rest: &'a [u8],
    body: &'a [u8],
    is_refused: bool,
}

/// The usable records of a feed that are still to be put into the table. One is read ahead.
struct Cursor<'a> {
    records: Records<'a>,
    feed: u8,
    latest: i64,
    next: Option<Told>,
}

/// A track at the end of the cycle.
struct Mover {
    key: Key,
    x: i64,
    y: i64,
    vx: i64,
    vy: i64,
    z: i64,
    altitude: i64,
    vz: i64,
}

/// Which net warns, in the order of their alerts.
#[derive(Clone, Copy, PartialEq, Eq, PartialOrd, Ord)]
enum Net {
    Stca,
    Msaw,
    Apw,
    Apm,
}

/// Whom an alert is of: a net, a track, and the second track or the number of the volume or the funnel.
type Subject = (Net, Key, Key, u16);

/// An airspace volume: its levels, its points, and how far they lie along each axis.
struct Volume {
    floor: i64,
    ceiling: i64,
    points: Vec<(i64, i64)>,
    x: (i64, i64),
    y: (i64, i64),
}

/// A terrain: its lower left corner, the side of its cells, their heights in 25 ft in rows from the lowest up, and the
/// greatest of them.
struct Terrain {
    x0: i64,
    y0: i64,
    side: i64,
    columns: i64,
    rows: i64,
    heights: Vec<i16>,
    highest: i64,
}

/// An approach funnel: the threshold, the landing direction and its length rounded down, and the figures of the site file.
struct Funnel {
    x: i64,
    y: i64,
    dx: i64,
    dy: i64,
    length: i64,
    elevation: i64,
    reach: i64,
    ceiling: i64,
    capture: (i64, i64),
    sides: (i64, i64),
    low: (i64, i64),
    high: (i64, i64),
}

/// What the site file and the terrain file say besides the constants.
struct Scene {
    volumes: Vec<Volume>,
    funnels: Vec<Funnel>,
    terrain: Option<Terrain>,
}

/// Ticks from the one to the other.
type Ticks = (i64, i64);

/// Where the second track of a pair is and how it moves, as seen from the first. No axis alone keeps the pair apart,
/// so along each the two are never farther than the limit and the way of the whole look-ahead, and squared
/// distances are below 2^62.
struct Apart {
    dx: i64,
    dy: i64,
    dz: i64,
    dvx: i64,
    dvy: i64,
    dvz: i64,
}

/// The figures of a pair besides its first tick.
struct PairFigures {
    closest: i64,
    chs: i64,
    mhs: i64,
    cvs: i64,
    mvs: i64,
    is_current: bool,
}

struct Hit {
    subject: Subject,
    first: i64,
    is_urgent: bool,
    /// The deviations of a hit by a funnel.
    deviations: u8,
    pair: Option<PairFigures>,
}

/// What is remembered of a subject: its hits, the newest cycle in the lowest bit, and its alert.
#[derive(Default)]
struct Alert {
    hits: u32,
    is_on: bool,
    number: u16,
}

/// The subjects that were hit in the newest cycles, and the number of the next alert.
#[derive(Default)]
struct Book {
    alerts: BTreeMap<Subject, Alert>,
    next_number: u16,
}

/// The messages of a cycle in blocks, and where the last block begins.
#[derive(Default)]
struct Blocks {
    bytes: Vec<u8>,
    last: usize,
}

/// How an alert stands, as its message tells it.
#[derive(Clone, Copy)]
enum Status {
    First = 2,
    Continuing = 4,
    Ended = 6,
}

fn word(octets: &[u8]) -> u16 {
    u16::from_be_bytes([octets[0], octets[1]])
}

fn signed_24(octets: &[u8]) -> i32 {
    i32::from_be_bytes([octets[0], octets[1], octets[2], 0]) >> 8
}

/// What one to five presence octets name, from 0, as a set of bits, and how many octets they are.
fn presence(octets: &[u8]) -> Option<(u64, usize)> {
    let last = octets.iter().take(5).position(|octet| octet & 1 == 0)?;
    let add = |set, octet: &u8| set << 7 | u64::from(octet.reverse_bits() & 0x7F);
    Some((octets[..=last].iter().rev().fold(0, add), last + 1))
}

/// The members of a set of bits, in rising order.
fn members(mut set: u64) -> impl Iterator<Item = usize> {
    std::iter::from_fn(move || {
        let lowest = set.trailing_zeros();
        set &= set.wrapping_sub(1);
        (lowest < u64::BITS).then_some(lowest as usize)
    })
}

/// How many octets the item at the front has, also where fewer are there; None where it can't be told, or
/// where the item is spelled wrongly.
fn item_length(form: &Form, octets: &[u8]) -> Option<usize> {
    match *form {
        Spare => None,
        Fixed(size) => Some(size),
        Extended(size) => {
            let last = octets.chunks_exact(size).position(|part| part[size - 1] & 1 == 0)?;
            Some((last + 1) * size)
        }
        Explicit => octets.first().map(|length| usize::from(*length)).filter(|length| *length > 0),
        Compound(subfields) => {
            let (named, mut length) = presence(octets)?;
            for number in members(named) {
                length += match *subfields.get(number)? {
                    F(size) => size,
                    R(size) => 1 + usize::from(*octets.get(length)?) * size,
                };
            }
            Some(length)
        }
    }
}

/// The record at the front and the octets behind it.
fn read_record(octets: &[u8]) -> Option<(Record, &[u8])> {
    let (named, length) = presence(octets)?;
    let (mut record, mut rest) = (Record::default(), &octets[length..]);
    for number in members(named) {
        let (item, behind) = rest.split_at_checked(item_length(&ITEMS[number], rest)?)?;
        record.take(number + 1, item);
        rest = behind;
    }
    Some((record, rest))
}

impl Record {
    fn take(&mut self, frn: usize, item: &[u8]) {
        match frn {
            1 => self.source = Some([item[0], item[1]]),
            4 => self.time = Some(i64::from(u32::from_be_bytes([0, item[0], item[1], item[2]])) % DAY),
            6 => self.position = Some((signed_24(&item[..3]), signed_24(&item[3..]))),
            7 => self.velocity = (word(&item[..2]) as i16, word(&item[2..]) as i16),
            9 => self.code = Some(word(item) & 0xFFF),
            12 => self.number = Some([item[0], item[1]]),
            13 => {
                let extension = item.get(1).copied().unwrap_or(0);
                self.tentative = item[0] & 0x02 != 0;
                self.simulated = extension & 0x80 != 0;
                self.ended = extension & 0x40 != 0;
            }
            17 => self.flight_level = Some(word(item) as i16),
            19 => {
                let correction = if item[0] & 0x80 != 0 { QNH } else { 0 };
                self.barometric = Some(((word(item) << 1) as i16 >> 1) - correction);
                self.is_corrected = item[0] & 0x80 != 0;
            }
            20 => self.rate = word(item) as i16,
            _ => {}
        }
    }

    /// The key and the time of day of a usable record.
    fn usable(&self) -> Option<(Key, i64)> {
        let ([sac, sic], [high, low]) = (self.source?, self.number?);
        let placed = self.position.is_some() || self.ended;
        Some((Key::from_be_bytes([sac, sic, high, low]), self.time?)).filter(|_| placed)
    }

    fn track(&self, at: i64, feed: u8) -> Track {
        let level = self.flight_level.or(self.barometric);
        let left_out = self.code.is_some_and(|code| CODES.contains(&code));
        let ((x, y), (vx, vy)) = (self.position.unwrap_or_default(), self.velocity);
        Track {
            at,
            feed,
            is_eligible: level.is_some() && !(self.ended || self.tentative || self.simulated || left_out),
            level: level.unwrap_or_default(),
            altitude: self.barometric.filter(|_| self.is_corrected).or(level).unwrap_or_default() + QNH,
            rate: self.rate,
            x,
            y,
            vx,
            vy,
        }
    }
}

impl Track {
    /// The greater rank counts, and of two that are equal the one that was put later.
    fn rank(&self) -> (i64, Reverse<u8>) {
        (self.at, Reverse(self.feed))
    }

    /// The track moved on to the end of the cycle, where it is a row that the net looks at.
    fn mover(&self, key: Key, time: i64) -> Option<Mover> {
        if !self.is_eligible {
            return None;
        }
        let age = time - self.at;
        let (vx, vy, vz) = (i64::from(self.vx), i64::from(self.vy), i64::from(self.rate));
        Some(Mover {
            key,
            x: i64::from(self.x) * HALF_METRE + vx * age,
            y: i64::from(self.y) * HALF_METRE + vy * age,
            vx,
            vy,
            z: i64::from(self.level) * FEET_25 + vz * age,
            altitude: i64::from(self.altitude) * FEET_25 + vz * age,
            vz,
        })
    }
}

impl<'a> Records<'a> {
    fn new(feed: &'a [u8]) -> Self {
        Self { rest: feed, body: &[], is_refused: false }
    }

    /// Goes on to the next block of category 62 that isn't empty.
    fn next_block(&mut self) -> Option<()> {
        while self.body.is_empty() {
            let [category, high, low, ..] = *self.rest else { return None };
            let length = usize::from(u16::from_be_bytes([high, low]));
            if length < 3 || length > self.rest.len() {
                return None;
            }
            let (block, rest) = self.rest.split_at(length);
            self.rest = rest;
            if category == 62 {
                self.body = &block[3..];
            }
        }
        Some(())
    }

    /// Once all were read: nothing was refused, and the feed ends with its last block.
    fn is_clean(&self) -> bool {
        !self.is_refused && self.rest.is_empty()
    }
}

impl Iterator for Records<'_> {
    type Item = Record;

    fn next(&mut self) -> Option<Record> {
        loop {
            self.next_block()?;
            if let Some((record, rest)) = read_record(self.body) {
                self.body = rest;
                return Some(record);
            }
            self.is_refused = true;
            self.body = &[];
        }
    }
}

impl<'a> Cursor<'a> {
    fn new(feed: u8, octets: &'a [u8]) -> Self {
        let records = Records::new(&octets[..octets.len().min(FEED_LIMIT)]);
        let mut cursor = Self { records, feed, latest: START, next: None };
        cursor.next = cursor.read();
        cursor
    }

    /// The next usable record, with the time of day taken within twelve hours of the latest so far.
    fn read(&mut self) -> Option<Told> {
        loop {
            let record = self.records.next()?;
            let Some((key, time)) = record.usable() else { continue };
            let earliest = self.latest - DAY / 2;
            let at = earliest + (time - earliest).rem_euclid(DAY);
            self.latest = self.latest.max(at);
            let cycle = (self.latest - START) / PERIOD;
            return Some(Told { cycle, key, track: record.track(at, self.feed) });
        }
    }

    /// The next record, if it was told by the end of a cycle.
    fn next_due(&mut self, cycle: i64) -> Option<Told> {
        self.next.as_ref().filter(|told| told.cycle <= cycle)?;
        let following = self.read();
        std::mem::replace(&mut self.next, following)
    }
}

/// Puts the records that were told by the end of a cycle into the table. Feeds are put in their order.
fn put_due(table: &mut Table, cursors: &mut [Cursor], cycle: i64) {
    for cursor in cursors {
        while let Some(Told { key, track, .. }) = cursor.next_due(cycle) {
            let kept = table.entry(key).or_insert(track);
            if track.rank() >= kept.rank() {
                *kept = track;
            }
        }
    }
}

/// The rows that the net looks at, in key order, at the end of a cycle. Tracks that have timed out are forgotten.
fn movers(table: &mut Table, time: i64) -> Vec<Mover> {
    table.retain(|_, track| time - track.at <= TIMEOUT);
    let mut movers = table.iter().filter_map(|(key, track)| track.mover(*key, time)).collect::<Vec<_>>();
    movers.sort_unstable_by_key(|mover| mover.key);
    movers
}

/// Beyond a limit, and on the same side of it, from tick 0 to the end of the look-ahead.
fn stays_beyond(apart: i64, speed: i64, limit: i64) -> bool {
    let end = apart + speed * LOOK;
    apart.min(end) >= limit || apart.max(end) <= -limit
}

/// The vertical limits of linear prediction and of current proximity.
fn vertical_limits(a: &Mover, b: &Mover) -> (i64, i64) {
    if a.z <= SPLIT && b.z <= SPLIT { (LIMIT_V_LOW, NOW_V_LOW) } else { (LIMIT_V_HIGH, NOW_V_HIGH) }
}

/// One axis alone keeps the two from a conflict.
fn stay_apart(a: &Mover, b: &Mover) -> bool {
    stays_beyond(b.x - a.x, b.vx - a.vx, LIMIT_H)
        || stays_beyond(b.y - a.y, b.vy - a.vy, LIMIT_H)
        || stays_beyond(b.z - a.z, b.vz - a.vz, vertical_limits(a, b).0)
}

impl Apart {
    fn new(a: &Mover, b: &Mover) -> Self {
        Self {
            dx: b.x - a.x,
            dy: b.y - a.y,
            dz: b.z - a.z,
            dvx: b.vx - a.vx,
            dvy: b.vy - a.vy,
            dvz: b.vz - a.vz,
        }
    }

    fn squared_distance(&self, tick: i64) -> i64 {
        let (dx, dy) = (self.dx + self.dvx * tick, self.dy + self.dvy * tick);
        dx * dx + dy * dy
    }

    fn height(&self, tick: i64) -> i64 {
        (self.dz + self.dvz * tick).abs()
    }

    /// Below 0 where they close in at tick 0, above 0 where they draw apart.
    fn approach(&self) -> i64 {
        self.dx * self.dvx + self.dy * self.dvy
    }

    /// The tick of the look-ahead at which the two are closest, the earlier of two that tie: the first from which
    /// the next one is no closer.
    fn closest_tick(&self) -> i64 {
        let growth = self.dvx * self.dvx + self.dvy * self.dvy;
        let lead = -2 * self.approach() - growth;
        if lead <= 0 { 0 } else { ((lead - 1) / (2 * growth) + 1).min(LOOK) }
    }

    /// The first tick within the horizontal limit. The distance only falls until the closest tick.
    fn first_near(&self, closest: i64) -> Option<i64> {
        let is_near = |tick| self.squared_distance(tick) < LIMIT_H * LIMIT_H;
        if !is_near(closest) {
            return None;
        }
        let (mut before, mut near) = (-1, closest);
        while near - before > 1 {
            let middle = (before + near) / 2;
            if is_near(middle) { near = middle } else { before = middle }
        }
        Some(near)
    }

    /// The first tick from which on the two aren't beyond the vertical limit on the side of tick 0.
    fn first_level(&self, limit: i64) -> Option<i64> {
        let above = self.dz.abs() - limit;
        let closing = -self.dvz * self.dz.signum();
        if above < 0 { Some(0) } else { (closing > 0).then(|| above / closing + 1) }
    }

    /// The first tick of linear prediction. The ticks within each limit are a span, so it can only be the
    /// later of the two first ones.
    fn first_conflict(&self, limit_v: i64, closest: i64) -> Option<i64> {
        let first = self.first_level(limit_v)?.max(self.first_near(closest)?);
        let is_conflict = first <= LOOK
            && self.squared_distance(first) < LIMIT_H * LIMIT_H
            && self.height(first) < limit_v;
        is_conflict.then_some(first)
    }

    /// Now within both limits, and not drawing apart.
    fn is_current(&self, limit_v: i64) -> bool {
        self.squared_distance(0) < NOW_H * NOW_H && self.height(0) < limit_v && self.approach() <= 0
    }
}

/// The hit of a pair that no axis alone keeps apart. It isn't inlined into the loop over all pairs, most of which
/// are far.
#[inline(never)]
fn examine(a: &Mover, b: &Mover) -> Option<Hit> {
    let apart = Apart::new(a, b);
    let (limit_v, now_v) = vertical_limits(a, b);
    let closest = apart.closest_tick();
    let is_current = apart.is_current(now_v);
    let first = if is_current { 0 } else { apart.first_conflict(limit_v, closest)? };
    let horizontal = |tick| apart.squared_distance(tick).isqrt() / HALF_METRE;
    let vertical = |tick| apart.height(tick) / FEET_25;
    let figures = PairFigures {
        closest,
        chs: horizontal(0).min(0xFF_FFFF),
        mhs: horizontal(closest).min(0xFFFF),
        cvs: vertical(0).min(0xFFFF),
        mvs: vertical(closest).min(0xFFFF),
        is_current,
    };
    let is_urgent = is_current || first <= URGENT;
    Some(Hit { subject: (Net::Stca, a.key, b.key, 0), first, is_urgent, deviations: 0, pair: Some(figures) })
}

/// The ticks of the look-ahead at which a line isn't below 0.
fn ticks_from_zero(slope: i128, start: i128) -> Option<Ticks> {
    let look = i128::from(LOOK_AHEAD);
    let end = start + slope * look;
    match (start >= 0, end >= 0) {
        (true, true) => Some((0, LOOK_AHEAD)),
        (true, false) => Some((0, (start / -slope) as i64)),
        (false, true) => Some((((-start - 1) / slope + 1) as i64, LOOK_AHEAD)),
        (false, false) => None,
    }
}

fn both(a: Option<Ticks>, b: Option<Ticks>) -> Option<Ticks> {
    let ((a_first, a_last), (b_first, b_last)) = (a?, b?);
    let met = (a_first.max(b_first), a_last.min(b_last));
    (met.0 <= met.1).then_some(met)
}

impl Volume {
    fn new(floor: i64, ceiling: i64, points: Vec<(i64, i64)>) -> Self {
        let ends = |numbers: &[i64]| (numbers.iter().copied().min().unwrap(), numbers.iter().copied().max().unwrap());
        let x = ends(&points.iter().map(|point| point.0).collect::<Vec<_>>());
        let y = ends(&points.iter().map(|point| point.1).collect::<Vec<_>>());
        Self { floor, ceiling, points, x, y }
    }

    /// Along an axis the track stays on one side of all points.
    fn is_passed_by(&self, mover: &Mover) -> bool {
        let beside = |place: i64, speed: i64, (low, high): (i64, i64)| {
            let end = place + speed * LOOK_AHEAD;
            place.max(end) < low || place.min(end) > high
        };
        beside(mover.x, mover.vx, self.x) || beside(mover.y, mover.vy, self.y)
    }

    /// The ticks at which an edge counts: it spans the height of the place, lower end included, and is right of it.
    fn ticks_of(mover: &Mover, from: (i64, i64), to: (i64, i64)) -> Option<Ticks> {
        let ((x1, y1), (x2, y2)) = if from.1 < to.1 { (from, to) } else { (to, from) };
        if y1 == y2 {
            return None;
        }
        let wide = |number: i64| i128::from(number);
        let spans = both(
            ticks_from_zero(wide(mover.vy), wide(mover.y - y1)),
            ticks_from_zero(wide(-mover.vy), wide(y2 - 1 - mover.y)),
        );
        let (width, height) = (wide(x2 - x1), wide(y2 - y1));
        let left = wide(mover.y - y1) * width - wide(mover.x - x1) * height - 1;
        both(spans, ticks_from_zero(wide(mover.vy) * width - wide(mover.vx) * height, left))
    }

    /// The first tick at which the track is inside. The number of edges that count changes where one begins to
    /// count, and behind the last tick at which it does.
    fn first_inside(&self, mover: &Mover) -> Option<i64> {
        let above = ticks_from_zero(i128::from(mover.vz), i128::from(mover.z - self.floor));
        let below = ticks_from_zero(i128::from(-mover.vz), i128::from(self.ceiling - mover.z));
        let (first, last) = both(above, below)?;
        let mut turns = Vec::with_capacity(2 * self.points.len());
        let ends = self.points.iter().cycle().skip(1);
        for (from, to) in self.points.iter().zip(ends) {
            if let Some((first, last)) = Self::ticks_of(mover, *from, *to) {
                turns.extend([first, last + 1]);
            }
        }
        turns.sort_unstable();
        let by = |tick| turns.partition_point(|turn| *turn <= tick);
        let mut tick = first;
        while by(tick) % 2 == 0 {
            tick = *turns.get(by(tick))?;
        }
        (tick <= last).then_some(tick)
    }
}

impl Terrain {
    /// The height of the cell over which the track is at a tick, if it has one.
    fn height(&self, mover: &Mover, tick: i64) -> Option<i64> {
        let (x, y) = (mover.x + mover.vx * tick - self.x0, mover.y + mover.vy * tick - self.y0);
        let (column, row) = (x.div_euclid(self.side), y.div_euclid(self.side));
        if !(0..self.columns).contains(&column) || !(0..self.rows).contains(&row) {
            return None;
        }
        Some(self.heights[(row * self.columns + column) as usize]).filter(|height| *height != i16::MIN).map(i64::from)
    }

    /// The first tick after this one at which a place along an axis is in another cell, or past the terrain's ends.
    fn next_cell(&self, place: i64, speed: i64, tick: i64, count: i64) -> i64 {
        let now = place + speed * tick;
        let (low, high) = match now.div_euclid(self.side) {
            before if before < 0 => (i64::MIN / 2, 0),
            behind if behind >= count => (count * self.side, i64::MAX / 2),
            cell => (cell * self.side, (cell + 1) * self.side),
        };
        match speed {
            0 => i64::MAX,
            1.. => tick + (high - now - 1) / speed + 1,
            _ => tick + (now - low) / -speed + 1,
        }
    }

    /// The first tick at which the track is below a cell's height.
    fn first_below(&self, mover: &Mover) -> Option<i64> {
        if mover.altitude.min(mover.altitude + mover.vz * LOOK_AHEAD) >= self.highest * FEET_25 {
            return None;
        }
        let mut tick = 0;
        while tick <= LOOK_AHEAD {
            let next = self.next_cell(mover.x - self.x0, mover.vx, tick, self.columns)
                .min(self.next_cell(mover.y - self.y0, mover.vy, tick, self.rows));
            if let Some(height) = self.height(mover, tick) {
                let above = mover.altitude + mover.vz * tick - height * FEET_25;
                let first = match mover.vz {
                    _ if above < 0 => tick,
                    ..=-1 => tick + above / -mover.vz + 1,
                    _ => i64::MAX,
                };
                if first < next && first <= LOOK_AHEAD {
                    return Some(first);
                }
            }
            tick = next;
        }
        None
    }
}

impl Funnel {
    /// How far the track is before the threshold along the landing direction, and how far right of the centre line, at a
    /// tick: both times the direction's length.
    fn place(&self, mover: &Mover, tick: i64) -> (i128, i128) {
        let (x, y) = (mover.x + mover.vx * tick - self.x, mover.y + mover.vy * tick - self.y);
        (i128::from(-(x * self.dx + y * self.dy)), i128::from(x * self.dy - y * self.dx))
    }

    fn is_captured(&self, mover: &Mover) -> bool {
        let (before, right) = self.place(mover, 0);
        let length = i128::from(self.length);
        let (half, side) = (i128::from(self.capture.0), i128::from(self.capture.1));
        mover.vx * self.dx + mover.vy * self.dy > 0
            && 0 < before
            && before <= 512 * i128::from(self.reach) * length
            && 10_000 * right.abs() <= 5_120_000 * length * half + side * before
            && mover.altitude <= self.ceiling
    }

    /// The deviations at a tick, by which each is more than 0 where it holds. All four are lines over ticks.
    fn deviations(&self, mover: &Mover, tick: i64) -> [i128; 4] {
        let (before, right) = self.place(mover, tick);
        let length = i128::from(self.length);
        let altitude = i128::from(5 * (mover.altitude + mover.vz * tick));
        let above = |base: i64| 2_500 * length * (altitude - 6_144 * i128::from(self.elevation + base));
        let width = 5_120_000 * length * i128::from(self.sides.0) + i128::from(self.sides.1) * before;
        [
            3 * i128::from(self.low.1) * before - above(self.low.0),
            above(self.high.0) - 3 * i128::from(self.high.1) * before,
            -10_000 * right - width,
            10_000 * right - width,
        ]
    }

    /// The first tick with a deviation before the threshold, and which they are.
    fn hit(&self, mover: &Mover) -> Option<(i64, u8)> {
        if !self.is_captured(mover) {
            return None;
        }
        let (start, next) = (self.deviations(mover, 0), self.deviations(mover, 1));
        let (before, then) = (self.place(mover, 0).0, self.place(mover, 1).0);
        let ahead = ticks_from_zero(then - before, before - 1);
        let firsts = (0..4).filter_map(|i| both(ahead, ticks_from_zero(next[i] - start[i], start[i] - 1)));
        let first = firsts.map(|ticks| ticks.0).min()?;
        let flags = self.deviations(mover, first).into_iter().zip([0x04, 0x08, 0x10, 0x20]);
        Some((first, flags.filter(|(by, _)| *by > 0).map(|(_, flag)| flag).sum()))
    }
}

fn single(net: Net, key: Key, object: u16, first: i64, deviations: u8) -> Hit {
    Hit { subject: (net, key, 0, object), first, is_urgent: first <= URGENT, deviations, pair: None }
}

/// The hits of all pairs, then those of all tracks by the terrain, by all volumes and by all funnels, in key order.
fn hits(movers: &[Mover], scene: &Scene) -> Vec<Hit> {
    let mut hits = Vec::new();
    for (i, a) in movers.iter().enumerate() {
        let near = movers[i + 1..].iter().filter(|b| !stay_apart(a, b));
        hits.extend(near.filter_map(|b| examine(a, b)));
    }
    if let Some(terrain) = &scene.terrain {
        for mover in movers {
            let first = terrain.first_below(mover);
            hits.extend(first.map(|first| single(Net::Msaw, mover.key, 0, first, 0)));
        }
    }
    for mover in movers {
        for (volume, number) in scene.volumes.iter().zip(0..).filter(|(volume, _)| !volume.is_passed_by(mover)) {
            let first = volume.first_inside(mover);
            hits.extend(first.map(|first| single(Net::Apw, mover.key, number, first, 0)));
        }
    }
    for mover in movers {
        for (funnel, number) in scene.funnels.iter().zip(0..) {
            let hit = funnel.hit(mover);
            hits.extend(hit.map(|(first, deviations)| single(Net::Apm, mover.key, number, first, deviations)));
        }
    }
    hits
}

impl Net {
    fn confirm(self) -> Confirm {
        match self {
            Net::Stca | Net::Msaw | Net::Apm => Confirm { hits: 2, cycles: 3, held: 2 },
            Net::Apw => Confirm { hits: 1, cycles: 1, held: 1 },
        }
    }

    fn message_type(self) -> u8 {
        match self {
            Net::Stca => 7,
            Net::Msaw => 4,
            Net::Apw => 5,
            Net::Apm => 8,
        }
    }
}

impl Book {
    /// The blocks of what the next cycle, with these hits in key order, tells of alerts.
    fn cycle(&mut self, hits: &[Hit], time: i64) -> Blocks {
        for hit in hits {
            self.alerts.entry(hit.subject).or_default();
        }
        let (mut hits, mut blocks) = (hits.iter().peekable(), Blocks::default());
        self.alerts.retain(|subject, alert| {
            let hit = hits.next_if(|hit| hit.subject == *subject);
            if let Some(status) = alert.update(subject.0.confirm(), hit, &mut self.next_number) {
                blocks.push(&message(status, alert.number, *subject, hit, time));
            }
            alert.hits != 0
        });
        blocks
    }
}

impl Alert {
    /// Takes the hit of the newest cycle, and tells how the alert stands, if it is on or was.
    fn update(&mut self, confirm: Confirm, hit: Option<&Hit>, next_number: &mut u16) -> Option<Status> {
        // The newest cycles, one bit each: those in which hits are counted, and those in which a hit holds an alert.
        let counted = (1 << confirm.cycles) - 1;
        let holding = (1 << (confirm.held + 1)) - 1;
        self.hits = (self.hits << 1 | u32::from(hit.is_some())) & (counted | holding);
        let begins = hit.is_some_and(|hit| hit.is_urgent || (self.hits & counted).count_ones() >= confirm.hits);
        let was_on = self.is_on;
        self.is_on = begins || was_on && self.hits & holding != 0;
        match (was_on, self.is_on) {
            (false, false) => None,
            (false, true) => {
                self.number = *next_number;
                *next_number = next_number.wrapping_add(1);
                Some(Status::First)
            }
            (true, true) => Some(Status::Continuing),
            (true, false) => Some(Status::Ended),
        }
    }
}

fn message(status: Status, number: u16, subject: Subject, hit: Option<&Hit>, time: i64) -> Vec<u8> {
    let (net, key, other, object) = subject;
    let [sac, sic, first @ ..] = key.to_be_bytes();
    let [second_sac, second_sic, second @ ..] = other.to_be_bytes();
    let named = [0xDD, if hit.is_some() { 0x91 } else { 0x81 }, if net == Net::Stca { 0x42 } else { 0x02 }];
    let mut bytes = Vec::from(named);
    bytes.extend([SAC, SIC, net.message_type()]);
    bytes.extend(&((time % DAY) as u32).to_be_bytes()[1..]);
    bytes.extend(number.to_be_bytes());
    bytes.push(status as u8);
    bytes.extend(first);
    if let Some(hit) = hit {
        bytes.push(if hit.pair.is_some() { 0xFC } else { 0x80 });
        bytes.extend(&(hit.first as u32).to_be_bytes()[1..]);
        if let Some(pair) = &hit.pair {
            for figure in [pair.closest, pair.chs] {
                bytes.extend(&(figure as u32).to_be_bytes()[1..]);
            }
            for figure in [pair.mhs, pair.cvs, pair.mvs] {
                bytes.extend((figure as u16).to_be_bytes());
            }
        }
    }
    if net == Net::Stca {
        bytes.extend(second);
    }
    let is_current = hit.is_some_and(|hit| hit.pair.as_ref().is_some_and(|pair| pair.is_current));
    let flags = hit.map_or(0, |hit| u8::from(hit.is_urgent) | u8::from(is_current) << 1 | hit.deviations);
    let [high, low] = if net == Net::Stca { [second_sac, second_sic] } else { object.to_be_bytes() };
    bytes.extend([7, net.message_type(), sac, sic, high, low, flags]);
    bytes
}

impl Blocks {
    /// Puts a message into the last block, or into a new one where that has no room for it.
    fn push(&mut self, message: &[u8]) {
        if self.bytes.is_empty() || self.bytes.len() - self.last + message.len() > BLOCK_ROOM {
            self.last = self.bytes.len();
            self.bytes.extend([4, 0, 0]);
        }
        self.bytes.extend(message);
        let length = (self.bytes.len() - self.last) as u16;
        self.bytes[self.last + 1..self.last + 3].copy_from_slice(&length.to_be_bytes());
    }
}

/// The whole numbers of a line.
fn numbers(line: &str) -> Vec<i64> {
    let parts = line.split(|letter: char| !(letter == '-' || letter.is_ascii_digit()));
    parts.filter_map(|part| part.parse().ok()).collect()
}

/// The tables of this name, and the numbers of each line of one by its key.
fn tables<'a>(site: &'a str, name: &str) -> Vec<HashMap<&'a str, Vec<i64>>> {
    let mut found = Vec::new();
    let mut is_within = false;
    for line in site.lines() {
        if line.starts_with('[') {
            is_within = line == format!("[[{name}]]");
            if is_within {
                found.push(HashMap::new());
            }
        } else if let (true, Some((key, value)), Some(table)) = (is_within, line.split_once(" = "), found.last_mut()) {
            table.insert(key, numbers(value));
        }
    }
    found
}

impl Scene {
    /// What a site file says whose tables have each value in a line of its own.
    fn read(site: &str) -> Option<Self> {
        let height = |feet: i64| feet / 25 * FEET_25;
        let volumes = tables(site, "volume").into_iter().map(|table| {
            let points = table["points"].chunks_exact(2).map(|point| (point[0] * METRE, point[1] * METRE)).collect();
            Volume::new(height(table["floor"][0]), height(table["ceiling"][0]), points)
        });
        let funnels = tables(site, "funnel").into_iter().map(|table| {
            let of = |key: &str| table[key][0];
            Funnel {
                x: of("x") * METRE,
                y: of("y") * METRE,
                dx: of("dx"),
                dy: of("dy"),
                length: (of("dx").pow(2) + of("dy").pow(2)).isqrt(),
                elevation: of("elevation"),
                reach: of("reach"),
                ceiling: height(of("ceiling")),
                capture: (of("capture_half"), of("capture_side")),
                sides: (of("half"), of("side")),
                low: (of("low_base"), of("low_rise")),
                high: (of("high_base"), of("high_rise")),
            }
        });
        let name = site.lines().find_map(|line| line.strip_prefix("terrain = "));
        let terrain = match name {
            Some(name) => Some(Terrain::read(&std::fs::read(name.trim_matches('"')).ok()?)),
            None => None,
        };
        Some(Scene { volumes: volumes.collect(), funnels: funnels.collect(), terrain })
    }
}

impl Terrain {
    /// The terrain of a file that is one.
    fn read(octets: &[u8]) -> Self {
        let long = |at: usize| i64::from(i32::from_be_bytes(octets[at..at + 4].try_into().unwrap()));
        let heights: Vec<_> = octets[20..].chunks_exact(2).map(|value| word(value) as i16).collect();
        Self {
            x0: long(4) * METRE,
            y0: long(8) * METRE,
            side: long(12) * METRE,
            columns: i64::from(word(&octets[16..])),
            rows: i64::from(word(&octets[18..])),
            highest: heights.iter().copied().max().map_or(0, i64::from),
            heights,
        }
    }
}

/// Ok with the status of a run whose work is done, else the status that ends it.
fn replay(words: &[String]) -> Result<u8, u8> {
    // The site's values are constants above, those of examples/site-a.toml, but for its volumes, its funnels and its terrain.
    let [command, option, site, names @ ..] = words else { return Err(2) };
    if command != "replay" || option != "--site" || names.is_empty() || names.len() > MOST_FEEDS {
        return Err(2);
    }
    let scene = Scene::read(&std::fs::read_to_string(site).map_err(|_| 4)?).ok_or(4)?;
    let feeds = names.iter().map(std::fs::read).collect::<Result<Vec<_>, _>>().map_err(|_| 4)?;
    let mut cursors = (0..).zip(&feeds).map(|(feed, octets)| Cursor::new(feed, octets)).collect::<Vec<_>>();
    let (mut table, mut book) = (Table::new(), Book::default());
    let mut out = std::io::stdout().lock();
    for cycle in 0.. {
        if cursors.iter().all(|cursor| cursor.next.is_none()) {
            break;
        }
        let time = START + (cycle + 1) * PERIOD;
        put_due(&mut table, &mut cursors, cycle);
        let hits = hits(&movers(&mut table, time), &scene);
        let blocks = book.cycle(&hits, time);
        out.write_all(&blocks.bytes).and_then(|()| out.flush()).map_err(|_| 5)?;
    }
    let is_clean = cursors.iter().all(|cursor| cursor.records.is_clean());
    Ok(if is_clean { 0 } else { 7 })
}

fn main() -> ExitCode {
    let words = std::env::args().skip(1).collect::<Vec<_>>();
    let (Ok(status) | Err(status)) = replay(&words);
    ExitCode::from(status)
}
