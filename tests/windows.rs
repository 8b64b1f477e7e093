//! Sound windows for the tests and the benchmark.
use crate::model::{Permit, Record, Tie, Waiter, Window};

fn permit(entry: u8, giver: u8, taker: u8, operations: u8) -> Permit {
    Permit { entry, giver, taker, operations }
}

fn tie(kind: u8, leader: u8, follower: u8) -> Tie {
    Tie { kind, leader, follower }
}

fn record(owner: u8, entry: u8, before: u32) -> Record {
    Record { owner, entry, before }
}

fn waiter(change: u8, entry: u8, mode: u8) -> Waiter {
    Waiter { change, entry, mode }
}

/// Freshly opened.
pub fn fresh(entries: usize) -> Window {
    Window { entries, values: vec![0; entries], ..Window::default() }
}

/// Running changes 1, 2, ..., each with the one before as its parent.
fn with_changes(entries: usize, given: u8) -> Window {
    Window { changes: (0..given).map(|parent| (2, parent)).collect(), ..fresh(entries) }
}

/// 6 entries, 10 live changes and 2 ended ones, a few locks, permits, ties and log records.
pub fn typical() -> Window {
    let mut w = with_changes(6, 12);
    w.changes[3].0 = 4;
    w.changes[8].0 = 5;
    w.changes[11].0 = 3;
    w.changes[10].0 = 1;
    w.values = vec![100, 0, 50, u32::MAX, 7, 1];
    w.locks = vec![(0, 1, 2), (0, 2, 1), (1, 3, 2), (1, 12, 2), (2, 5, 1), (2, 6, 1), (3, 7, 2), (5, 10, 2), (5, 1, 1)];
    w.permits = vec![permit(0, 1, 2, 1), permit(1, 3, 0, 2), permit(4, 8, 2, 3), permit(5, 10, 1, 3)];
    w.ties = vec![tie(1, 1, 2), tie(1, 3, 5), tie(2, 2, 3), tie(2, 7, 1), tie(3, 3, 12), tie(3, 6, 7)];
    w.log = vec![record(1, 0, 0), record(3, 1, 1), record(12, 1, 2), record(7, 3, 5), record(1, 0, 90), record(10, 5, 0)];
    w
}

/// Locks that clash in every way that a permit allows.
pub fn contested() -> Window {
    let mut w = with_changes(2, 5);
    w.locks = vec![(0, 1, 2), (0, 2, 2), (0, 3, 1), (1, 4, 2), (1, 5, 1), (1, 1, 1)];
    w.permits = vec![permit(0, 1, 0, 3), permit(0, 3, 2, 2), permit(1, 1, 4, 2), permit(1, 4, 5, 1)];
    w
}

/// Entry 1 has five writers, four readers and 49 permits. 18 of those are needed: 20, 21 and 48 permit anybody, and each
/// other clashing pair has one by name, this way or that. The rest are from changes that hold nothing there.
/// Entry 2 has a writer, a reader and the one permit that they need.
pub fn crowded() -> Window {
    let mut w = with_changes(3, 60);
    w.locks = [20, 21, 22, 45, 46].map(|c| (1, c, 2)).to_vec();
    w.locks.extend([23, 24, 47, 48].map(|c| (1, c, 1)));
    w.locks.extend([(2, 5, 2), (2, 6, 1)]);
    let anybody = [(20, 0, 3), (21, 0, 1), (48, 0, 2)];
    let writers = [(21, 22, 2), (45, 21, 2), (21, 46, 3), (45, 22, 3), (22, 46, 2), (46, 45, 2)];
    let into = [(24, 22, 2), (24, 45, 2), (47, 45, 2), (23, 46, 2)];
    let out = [(22, 23, 1), (22, 47, 3), (45, 23, 1), (46, 24, 1), (46, 47, 3)];
    let others = (4..=19).map(|c| (c, 60 - c, c % 3 + 1)).chain((30..=44).map(|c| (c, c - 29, 3)));
    let here = anybody.into_iter().chain(writers).chain(into).chain(out).chain(others);
    w.permits = here.map(|(giver, taker, operations)| permit(1, giver, taker, operations)).collect();
    w.permits.extend([permit(0, 2, 3, 1), permit(2, 5, 6, 1)]);
    w.permits.sort();
    w
}

/// Ties of every kind between four groups.
pub fn tied() -> Window {
    let mut w = with_changes(1, 8);
    w.ties = vec![tie(1, 1, 3), tie(1, 2, 6), tie(1, 4, 5), tie(2, 3, 5), tie(2, 6, 7), tie(3, 1, 2), tie(3, 3, 4), tie(3, 5, 6), tie(3, 7, 8)];
    w
}

/// Three changes in the lines of two entries.
pub fn waiting() -> Window {
    let mut w = with_changes(3, 6);
    w.changes[5].0 = 3;
    w.locks = vec![(0, 1, 2), (2, 6, 1)];
    w.line = vec![waiter(2, 0, 1), waiter(4, 2, 2), waiter(3, 0, 2)];
    w
}

/// One entry that every change reads and stands in line to write.
pub fn all_lines() -> Window {
    let mut w = with_changes(1, 255);
    w.locks = (1..=255u8).map(|c| (0, c, 1)).collect();
    w.line = (1..=255u8).map(|c| waiter(c, 0, 2)).collect();
    w
}

/// Full tables (but for five ties, and nobody in line), as ordinary use would fill them: one writer and a few readers of
/// each entry.
pub fn full() -> Window {
    let mut w = with_changes(256, 255);
    for e in 0..=255u8 {
        let writer = e % 200 + 1;
        w.locks.push((e, writer, 2));
        for i in 1..=4u8 {
            w.locks.push((e, writer + i, 1));
            w.permits.push(permit(e, writer, writer + i, 1));
        }
    }
    w.log = (0..2_048usize).map(|i| record((i / 8 % 200 + 1) as u8, (i / 8) as u8, i as u32)).collect();
    w.ties = (1..=254u8).map(|c| tie(1, c, c + 1)).chain((1..=253u8).map(|c| tie(2, c, c + 2))).collect();
    w
}

/// Every change reads every entry.
pub fn all_locks() -> Window {
    let mut w = with_changes(256, 255);
    w.locks = (0..=255u8).flat_map(|e| (1..=255u8).map(move |c| (e, c, 1))).collect();
    w
}

/// One entry with a reader, 254 writers and as many permits as there may be.
pub fn all_permits() -> Window {
    let mut w = with_changes(1, 255);
    w.locks = (2..=255u8).map(|c| (0, c, 2)).chain([(0, 1, 1)]).collect();
    w.permits = (2..=255u8).flat_map(|c| [permit(0, c, 0, 2), permit(0, c, 1, 1)]).collect();
    let more = (2..=255u8).flat_map(|g| (2..=255u8).filter(move |t| *t != g).map(move |t| permit(0, g, t, 3)));
    let room = 1_024 - w.permits.len();
    w.permits.extend(more.take(room));
    w.permits.sort();
    w
}

/// A wait and a fall tie from each change to the one below it.
pub fn all_ties() -> Window {
    let mut w = with_changes(1, 255);
    w.ties = (2..=255u8).map(|c| tie(1, c, c - 1)).chain((2..=255u8).map(|c| tie(2, c, c - 1))).collect();
    w
}
