//! Random calls, biased to those that meet others.
use crate::model::Window;
use crate::perform::{Call, EVERY_ENTRY};
use std::time::{SystemTime, UNIX_EPOCH};
use Call::*;

/// SplitMix64.
pub struct Random(pub u64);

impl Random {
    pub fn next(&mut self) -> u64 {
        self.0 = self.0.wrapping_add(0x9e37_79b9_7f4a_7c15);
        let z = (self.0 ^ self.0 >> 30).wrapping_mul(0xbf58_476d_1ce4_e5b9);
        let z = (z ^ z >> 27).wrapping_mul(0x94d0_49bb_1331_11eb);
        z ^ z >> 31
    }

    pub fn below(&mut self, n: usize) -> usize {
        (self.next() % n as u64) as usize
    }

    pub fn one_in(&mut self, n: usize) -> bool {
        self.below(n) == 0
    }

    pub fn pick<T: Copy>(&mut self, from: &[T]) -> T {
        from[self.below(from.len())]
    }
}

/// A number that the environment sets, or its default.
pub fn setting(name: &str, default: u64) -> u64 {
    std::env::var(name).map_or(default, |v| v.parse().expect("a number"))
}

const SEED: &str = "WINDOW_TEST_SEED";

/// What the environment sets; `vary` is the clock's nanoseconds. It is printed, so that a run can be repeated.
pub fn seed() -> u64 {
    let seed = match std::env::var(SEED).as_deref() {
        Ok("vary") => SystemTime::now().duration_since(UNIX_EPOCH).expect("a time after 1970").as_nanos() as u64,
        _ => setting(SEED, 20_260_417),
    };
    println!("seed {seed}");
    seed
}

/// What a list of calls is like: its entries, how many changes it keeps live, and how often each call comes, in the
/// order of perform::NAMES.
pub struct Kind {
    pub entries: u32,
    pub live: usize,
    pub often: [usize; 15],
}

/// Of everything something.
pub const MIXED: [usize; 15] = [1, 12, 16, 8, 34, 8, 24, 20, 14, 12, 8, 5, 2, 2, 3];
/// Few changes end, so that much stands side by side.
pub const DENSE: [usize; 15] = [1, 60, 80, 6, 260, 30, 120, 220, 60, 60, 8, 5, 10, 10, 10];
pub const WRITES: [usize; 15] = [0, 2, 4, 1, 20, 4, 80, 6, 12, 4, 1, 1, 2, 2, 4];
pub const PERMITS: [usize; 15] = [0, 2, 4, 1, 30, 4, 12, 80, 14, 4, 1, 1, 2, 2, 2];
pub const TIES: [usize; 15] = [0, 2, 4, 6, 8, 2, 8, 4, 4, 90, 2, 1, 4, 2, 2];
/// Several write to an entry side by side, and some are withdrawn.
pub const SHARED: [usize; 15] = [0, 8, 12, 2, 30, 2, 90, 20, 8, 4, 4, 8, 1, 1, 4];
/// Most locks have to wait.
pub const LINES: [usize; 15] = [0, 8, 12, 4, 90, 2, 6, 8, 8, 2, 3, 3, 1, 1, 1];

/// The next call of a list of this kind, on a window w.
pub fn call(r: &mut Random, kind: &Kind, w: &Window) -> Call {
    let mut often = kind.often;
    let live = w.changes.iter().filter(|c| c.0 < 4).count();
    if live < kind.live {
        often[1] *= 4;
    } else {
        often[1] = 1;
    }
    let mut at = r.below(often.iter().sum());
    let name = often.iter().position(|n| match at.checked_sub(*n) {
        Some(rest) => {
            at = rest;
            false
        }
        None => true,
    });
    named(r, kind, w, name.unwrap())
}

/// A call by its place in perform::NAMES.
pub fn named(r: &mut Random, kind: &Kind, w: &Window, name: usize) -> Call {
    match name {
        0 => Open(number_of_entries(r, kind)),
        1 => Initiate(if r.one_in(2) { 0 } else { change(r, w, 2..=2) }),
        2 => Begin(change(r, w, 1..=1)),
        3 => Complete(change(r, w, 2..=2)),
        4 => lock(r, w),
        5 => {
            let (e, c) = held(r, w, 1);
            Read(c, e)
        }
        6 => {
            let (e, c) = held(r, w, 2);
            Write(c, e, value(r))
        }
        7 => permit(r, w),
        8 => delegate(r, w),
        9 => {
            let leader = change(r, w, 1..=3);
            Depend(choice(r, 3), leader, other(r, w, leader))
        }
        10 => Commit(if r.one_in(3) { change(r, w, 1..=5) } else { change(r, w, 3..=3) }),
        11 => Abort(change(r, w, 1..=5)),
        12 => Status(change(r, w, 1..=5)),
        13 => Parent(change(r, w, 1..=5)),
        14 => Value(entry(r, w)),
        _ => unreachable!("{name}"),
    }
}

fn number_of_entries(r: &mut Random, kind: &Kind) -> u32 {
    if r.one_in(4) {
        kind.entries
    } else {
        r.pick(&[0, 257, 258, 512, 65_535, 65_536, 65_537, 1 << 24, 1 << 31, u32::MAX])
    }
}

/// Numbers that are one too many, huge, or as a byte or two bytes the number n.
fn strange(r: &mut Random, most: u32, n: u32) -> u32 {
    r.pick(&[
        0,
        most,
        most + 1,
        254,
        255,
        256,
        257,
        65_534,
        65_535,
        65_536,
        n + 256,
        n + 65_536,
        n + (1 << 24),
        n + (1 << 31),
        u32::MAX - 1,
        u32::MAX,
    ])
}

const STRANGE: usize = 20;

/// A change with one of these statuses, where there is one.
fn change(r: &mut Random, w: &Window, suits: std::ops::RangeInclusive<u8>) -> u32 {
    let given = w.changes.len() as u32;
    if given == 0 || r.one_in(STRANGE) {
        let n = 1 + r.below(given.max(1) as usize) as u32;
        return strange(r, given, n);
    }
    let suited: Vec<u32> = (1..=given).filter(|c| suits.contains(&w.changes[*c as usize - 1].0)).collect();
    if suited.is_empty() || r.one_in(16) {
        return 1 + r.below(given as usize) as u32;
    }
    match r.below(4) {
        0 => suited[0],
        1 => suited[suited.len() - 1],
        _ => r.pick(&suited),
    }
}

/// A live change, rarely the same.
fn other(r: &mut Random, w: &Window, c: u32) -> u32 {
    if r.one_in(STRANGE) {
        return c;
    }
    (0..4).map(|_| change(r, w, 1..=3)).find(|d| *d != c).unwrap_or(1)
}

fn entry(r: &mut Random, w: &Window) -> u32 {
    let entries = w.entries.max(1);
    let any = r.below(entries) as u32;
    if r.one_in(STRANGE) {
        return strange(r, entries as u32 - 1, any);
    }
    match r.below(8) {
        0..=2 => 0,
        3..=5 => entries as u32 - 1,
        _ => any,
    }
}

/// A number from 1 to most.
fn choice(r: &mut Random, most: u32) -> u32 {
    let any = 1 + r.below(most as usize) as u32;
    if r.one_in(STRANGE) {
        return strange(r, most, any);
    }
    any
}

fn value(r: &mut Random) -> u32 {
    let any = r.next() as u32;
    r.pick(&[0, 1, 7, 255, 256, 65_536, u32::MAX, any, any, any])
}

/// An entry and a change that holds at least this mode there, where there is one.
fn held(r: &mut Random, w: &Window, mode: u8) -> (u32, u32) {
    let running = |c: u8| w.changes[c as usize - 1].0 == 2;
    let locks: Vec<_> = w.locks.iter().filter(|l| l.2 >= mode && running(l.1)).collect();
    if locks.is_empty() || r.one_in(5) {
        return (entry(r, w), change(r, w, 2..=2));
    }
    let (e, c, _) = r.pick(&locks);
    (*e as u32, *c as u32)
}

/// A lock that is permitted, one on an entry that is locked already, one that waits asked for again, or any.
fn lock(r: &mut Random, w: &Window) -> Call {
    let (c, mode) = (change(r, w, 2..=2), choice(r, 2));
    match r.below(7) {
        0 | 1 if !w.permits.is_empty() => {
            let p = &w.permits[r.below(w.permits.len())];
            let c = if p.taker == 0 || r.one_in(STRANGE) { c } else { p.taker as u32 };
            let mode = if p.operations == 3 || r.one_in(STRANGE) { mode } else { p.operations as u32 };
            Lock(c, p.entry as u32, mode)
        }
        2 if !w.locks.is_empty() => Lock(c, r.pick(&w.locks).0 as u32, mode),
        3 | 4 | 5 if !w.line.is_empty() => {
            let p = &w.line[if r.one_in(2) { 0 } else { r.below(w.line.len()) }];
            let mode = if r.one_in(4) { mode } else { p.mode as u32 };
            Lock(p.change as u32, p.entry as u32, mode)
        }
        _ => Lock(c, entry(r, w), mode),
    }
}

fn permit(r: &mut Random, w: &Window) -> Call {
    let (e, giver) = if r.one_in(3) { (entry(r, w), change(r, w, 1..=3)) } else { held(r, w, 1) };
    let taker = if r.one_in(6) { 0 } else { other(r, w, giver) };
    Permit(giver, taker, e, choice(r, 3))
}

fn delegate(r: &mut Random, w: &Window) -> Call {
    let (e, from) = match r.below(4) {
        0 => (entry(r, w), change(r, w, 1..=3)),
        1 if !w.permits.is_empty() => {
            let p = &w.permits[r.below(w.permits.len())];
            (p.entry as u32, p.giver as u32)
        }
        _ => held(r, w, 1),
    };
    Delegate(from, other(r, w, from), if r.one_in(3) { EVERY_ENTRY } else { e })
}

/// A place of the window and a byte to put there: mostly a used place, or the next.
pub fn damage(r: &mut Random, w: &Window, m: &[u8]) -> (usize, u8) {
    use crate::model::{CHANGES, LINE, LOCKS, LOG, PERMITS, SIZE, TIES, VALUES};
    let spans = [
        (0, 14),
        (0, VALUES),
        (VALUES, 4 * w.entries + 4),
        (CHANGES, 4 * w.changes.len() + 8),
        (LINE, 4 * w.line.len() + 4),
        (LOCKS, 64 * w.entries + 64),
        (PERMITS, 4 * w.permits.len() + 4),
        (TIES, 4 * w.ties.len() + 4),
        (LOG, 6 * w.log.len() + 6),
        (0, SIZE),
    ];
    let (from, length) = r.pick(&spans);
    let at = (from + r.below(length)).min(SIZE - 1);
    let byte = match r.below(4) {
        0 | 1 => m[at] ^ 1 << r.below(8),
        2 => r.below(6) as u8,
        _ => r.next() as u8,
    };
    (at, byte)
}
