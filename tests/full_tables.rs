//! Lists of calls that fill a table, with the answers that the rules give, worked out by hand.
use crate::perform::{Call, EVERY_ENTRY};
use crate::tries::{after, running, runs, Line, Try};
use Call::*;

/// Lists that fill a table, and what comes next.
pub fn full_tables() -> Vec<Try> {
    vec![
        ("2,048 log records", full_log()),
        ("all 2,048 log records struck by one withdrawal", struck_log()),
        ("255 changes", full_changes()),
        ("1,024 permits", full_permits()),
        ("512 ties", full_ties()),
    ]
}

fn full_log() -> Vec<Line> {
    let mut lines = runs(2, 3, &[(Lock(1, 0, 2), 0, 0), (Lock(2, 1, 2), 0, 0), (Write(2, 1, 100), 0, 0)]);
    lines.extend((1..=2_047).map(|i| (Write(1, 0, i), 0, 0)));
    after(
        lines,
        &[
            (Value(0), 0, 2_047),
            (Write(1, 0, 5_000), 11, 0),
            (Write(2, 1, 5_000), 11, 0),
            (Write(3, 1, 5_000), 8, 0),
            (Value(0), 0, 2_047),
            (Delegate(1, 3, EVERY_ENTRY), 0, 0),
            (Complete(2), 0, 0),
            (Commit(2), 0, 1),
            (Write(3, 0, 6_000), 0, 0),
            (Write(3, 0, 7_000), 11, 0),
            (Value(0), 0, 6_000),
            (Abort(3), 0, 1),
            (Value(0), 0, 0),
            (Value(1), 0, 100),
            (Lock(1, 0, 2), 0, 0),
            (Write(1, 0, 7), 0, 0),
        ],
    )
}

/// 1 writes first and 2 all the rest: when 1 is withdrawn the log is empty, and 2 can fill it.
fn struck_log() -> Vec<Line> {
    let locks = [(Lock(1, 0, 2), 0, 0), (Permit(1, 2, 0, 2), 0, 0), (Lock(2, 0, 2), 0, 0), (Write(1, 0, 9), 0, 0)];
    let mut lines = runs(1, 2, &locks);
    lines.extend((1..=2_047).map(|i| (Write(2, 0, i), 0, 0)));
    lines.extend([(Write(2, 0, 5_000), 11, 0), (Abort(1), 0, 1), (Value(0), 0, 0)]);
    lines.extend((1..=2_048).map(|i| (Write(2, 0, i), 0, 0)));
    after(lines, &[(Write(2, 0, 5_000), 11, 0), (Value(0), 0, 2_048), (Abort(2), 0, 1), (Value(0), 0, 0)])
}

fn full_changes() -> Vec<Line> {
    let more = [
        (Initiate(0), 11, 0),
        (Initiate(1), 11, 0),
        (Initiate(255), 7, 0),
        (Initiate(256), 3, 0),
        (Begin(255), 0, 0),
        (Initiate(255), 11, 0),
        (Lock(255, 255, 2), 0, 0),
        (Write(255, 255, u32::MAX), 0, 0),
        (Parent(255), 0, 1),
        (Abort(255), 0, 1),
        (Value(255), 0, 0),
        (Initiate(0), 11, 0),
    ];
    let lines = (2..=255).fold(running(256, 1), |l, c| after(l, &[(Initiate(1), 0, c)]));
    after(lines, &more)
}

fn full_permits() -> Vec<Line> {
    let mut lines = running(256, 6);
    lines.extend((0..256).rev().flat_map(|e| [5, 2, 4, 3].map(|taker| (Permit(1, taker, e, 1), 0, 0))));
    after(
        lines,
        &[
            (Permit(1, 6, 0, 1), 11, 0),
            (Permit(1, 0, 255, 1), 11, 0),
            (Permit(2, 1, 0, 1), 11, 0),
            (Lock(1, 0, 2), 0, 0),
            (Lock(2, 0, 1), 0, 0),
            (Lock(3, 0, 2), 20, 1),
            (Permit(1, 3, 0, 2), 0, 0),
            (Lock(3, 0, 2), 20, 2),
            (Permit(2, 3, 0, 2), 11, 0),
            (Permit(1, 5, 255, 3), 0, 0),
            // The 256 permits from 1 to 2 are dropped, 1's write lock meets 2's read lock.
            (Delegate(1, 2, EVERY_ENTRY), 0, 0),
            (Write(2, 0, 3), 0, 0),
            (Lock(3, 0, 2), 0, 0),
            (Permit(1, 6, 0, 1), 0, 0),
            (Delegate(2, 6, 1), 0, 0),
            // The permits that 3 has received go with it.
            (Abort(3), 0, 1),
            (Permit(6, 0, 0, 1), 0, 0),
        ],
    )
}

fn full_ties() -> Vec<Line> {
    let mut lines = running(1, 255);
    lines.extend((1..=254).rev().flat_map(|c| [2, 1].map(|kind| (Depend(kind, c, c + 1), 0, 0))));
    lines.extend((1..=4).map(|c| (Depend(1, c, c + 2), 0, 0)));
    after(
        lines,
        &[
            (Depend(1, 5, 7), 11, 0),
            (Depend(2, 1, 255), 11, 0),
            (Depend(1, 4, 6), 0, 0),
            (Depend(2, 254, 255), 0, 0),
            (Depend(1, 7, 5), 9, 0),
            (Depend(3, 1, 255), 9, 0),
            (Depend(3, 255, 254), 9, 0),
            (Complete(1), 0, 0),
            // 1's two ties to 2 and one to 3 go: room for three.
            (Commit(1), 0, 1),
            (Depend(1, 5, 7), 0, 0),
            (Depend(1, 6, 8), 0, 0),
            (Depend(1, 7, 9), 0, 0),
            (Depend(1, 8, 10), 11, 0),
            (Abort(100), 0, 156),
            (Status(99), 0, 2),
            (Status(255), 0, 5),
            (Commit(99), 20, 98),
            (Depend(3, 98, 99), 9, 0),
            (Depend(1, 8, 10), 0, 0),
        ],
    )
}
