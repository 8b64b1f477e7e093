//! Lists about lines, worked out by hand.
use crate::perform::{Call, EVERY_ENTRY};
use crate::tries::{runs, Line, Try};
use Call::*;

/// The sentences of docs/RULES.md about lines, and the readings of them in docs/DECISIONS.md.
pub fn lines() -> Vec<Try> {
    vec![
        ("who came first is served first", first_served()),
        ("a repeated call keeps its place and takes the newer mode", place_kept()),
        ("a covered mode leaves the line", covered_leaves()),
        ("an upgrade waits behind the first in line", upgrade_waits()),
        ("in another entry's line", another_line()),
        ("each entry has its own line", own_lines()),
        ("everybody in line", everybody()),
        ("who stops running leaves the line", stopped_leaves()),
        ("a delegate leaves lines alone", delegate_leaves_lines()),
        ("an idle first in line holds back, a permit does not pass it", idle_first()),
        ("a blocked lock names who is in the way", named()),
    ]
}

fn first_served() -> Vec<Line> {
    runs(
        1,
        4,
        &[
            (Lock(1, 0, 2), 0, 0),
            (Lock(2, 0, 2), 20, 1),
            (Lock(3, 0, 1), 20, 1),
            (Lock(4, 0, 1), 20, 1),
            (Abort(1), 0, 1),
            (Lock(4, 0, 1), 20, 2),
            (Lock(3, 0, 1), 20, 2),
            (Lock(2, 0, 2), 0, 0),
            (Lock(3, 0, 1), 20, 2),
            (Complete(2), 0, 0),
            (Commit(2), 0, 1),
            (Lock(4, 0, 1), 20, 3),
            (Lock(3, 0, 1), 0, 0),
            (Lock(4, 0, 1), 0, 0),
        ],
    )
}

/// 2 stays before 3, whatever mode it asks for.
fn place_kept() -> Vec<Line> {
    runs(
        1,
        3,
        &[
            (Lock(1, 0, 1), 0, 0),
            (Lock(2, 0, 2), 20, 1),
            (Lock(3, 0, 2), 20, 1),
            (Lock(2, 0, 2), 20, 1),
            (Lock(3, 0, 1), 20, 2),
            (Lock(2, 0, 1), 0, 0),
            (Lock(3, 0, 1), 0, 0),
            (Lock(3, 0, 2), 20, 1),
            (Lock(2, 0, 2), 20, 1),
            (Abort(1), 0, 1),
            (Lock(2, 0, 2), 20, 3),
            (Complete(2), 0, 0),
            (Commit(2), 0, 1),
            (Lock(3, 0, 2), 0, 0),
        ],
    )
}

/// 2 holds read and waits to write: asking for read is covered, and takes it out of the line, so that 3 is first.
fn covered_leaves() -> Vec<Line> {
    runs(
        1,
        3,
        &[
            (Lock(1, 0, 1), 0, 0),
            (Lock(2, 0, 1), 0, 0),
            (Lock(2, 0, 2), 20, 1),
            (Lock(3, 0, 1), 20, 2),
            (Lock(2, 0, 1), 0, 0),
            (Lock(3, 0, 1), 0, 0),
            (Lock(2, 0, 2), 20, 1),
        ],
    )
}

/// Nobody's lock clashes with 1's, but 2 is first in line.
fn upgrade_waits() -> Vec<Line> {
    runs(
        1,
        2,
        &[
            (Lock(1, 0, 1), 0, 0),
            (Lock(2, 0, 2), 20, 1),
            (Lock(1, 0, 2), 20, 2),
            (Lock(1, 0, 1), 0, 0),
            (Lock(1, 0, 2), 20, 2),
            (Permit(1, 2, 0, 2), 0, 0),
            (Lock(2, 0, 2), 0, 0),
            (Lock(1, 0, 2), 20, 2),
            (Permit(2, 1, 0, 2), 0, 0),
            (Lock(1, 0, 2), 0, 0),
        ],
    )
}

/// 12 comes after 7 and before the lock's own rule, also for a mode that is held; other calls do not ask.
fn another_line() -> Vec<Line> {
    runs(
        3,
        3,
        &[
            (Lock(1, 0, 2), 0, 0),
            (Lock(2, 1, 2), 0, 0),
            (Lock(2, 0, 1), 20, 1),
            (Lock(2, 1, 1), 12, 0),
            (Lock(2, 1, 2), 12, 0),
            (Lock(2, 2, 1), 12, 0),
            (Lock(2, 3, 1), 4, 0),
            (Lock(2, 2, 3), 5, 0),
            (Read(2, 1), 0, 0),
            (Write(2, 1, 5), 0, 0),
            (Lock(2, 0, 2), 20, 1),
            (Lock(3, 2, 2), 0, 0),
            (Abort(1), 0, 1),
            (Lock(2, 0, 1), 0, 0),
            (Lock(2, 2, 1), 20, 3),
            (Lock(2, 0, 1), 12, 0),
            (Complete(2), 0, 0),
            (Lock(2, 0, 1), 7, 0),
        ],
    )
}

/// 3 waits on entry 0 since before 4 and 5 wait on entry 1, and does not hold them back.
fn own_lines() -> Vec<Line> {
    runs(
        2,
        5,
        &[
            (Lock(1, 0, 2), 0, 0),
            (Lock(2, 1, 2), 0, 0),
            (Lock(3, 0, 2), 20, 1),
            (Lock(4, 1, 1), 20, 2),
            (Lock(5, 1, 1), 20, 2),
            (Abort(2), 0, 1),
            (Lock(5, 1, 1), 20, 4),
            (Lock(4, 1, 1), 0, 0),
            (Lock(5, 1, 1), 0, 0),
            (Lock(4, 0, 1), 20, 1),
            (Abort(1), 0, 1),
            (Lock(4, 0, 1), 20, 3),
            (Lock(3, 0, 2), 0, 0),
        ],
    )
}

/// 2 to 255 wait behind 1 and are served in the order in which they came, from the highest down.
fn everybody() -> Vec<Line> {
    let mut lines = vec![(Lock(1, 0, 2), 0, 0)];
    lines.extend((2..=255).rev().map(|c| (Lock(c, 0, 2), 20, 1)));
    lines.push((Abort(1), 0, 1));
    for c in (2..=255).rev() {
        let (answer, first) = if c == 2 { (0, 0) } else { (20, c) };
        lines.extend([(Lock(2, 0, 2), answer, first), (Lock(c, 0, 2), 0, 0), (Abort(c), 0, 1)]);
    }
    runs(1, 255, &lines)
}

/// Completed, and ended through others.
fn stopped_leaves() -> Vec<Line> {
    runs(
        1,
        5,
        &[
            (Lock(1, 0, 1), 0, 0),
            (Lock(2, 0, 2), 20, 1),
            (Lock(3, 0, 2), 20, 1),
            (Lock(4, 0, 2), 20, 1),
            (Lock(5, 0, 1), 20, 2),
            (Complete(2), 0, 0),
            (Lock(5, 0, 1), 20, 3),
            (Depend(3, 1, 4), 0, 0),
            (Depend(2, 1, 3), 0, 0),
            (Abort(1), 0, 3),
            (Lock(5, 0, 2), 0, 0),
        ],
    )
}

/// The giver keeps its place, and a receiver that now holds what it waits for too.
fn delegate_leaves_lines() -> Vec<Line> {
    runs(
        2,
        4,
        &[
            (Lock(1, 0, 2), 0, 0),
            (Lock(2, 0, 2), 20, 1),
            (Lock(3, 0, 1), 20, 1),
            (Delegate(1, 2, 0), 0, 0),
            (Lock(3, 0, 1), 20, 2),
            (Delegate(2, 4, EVERY_ENTRY), 0, 0),
            (Lock(2, 1, 1), 12, 0),
            (Lock(3, 0, 1), 20, 4),
            (Delegate(4, 2, 0), 0, 0),
            (Lock(2, 0, 2), 0, 0),
            (Lock(2, 1, 1), 0, 0),
            (Permit(2, 0, 0, 1), 0, 0),
            (Lock(3, 0, 1), 0, 0),
        ],
    )
}

fn idle_first() -> Vec<Line> {
    runs(
        1,
        3,
        &[
            (Lock(1, 0, 2), 0, 0),
            (Permit(1, 3, 0, 3), 0, 0),
            (Lock(2, 0, 1), 20, 1),
            (Lock(3, 0, 1), 20, 2),
            (Lock(3, 0, 2), 20, 2),
            (Permit(1, 2, 0, 1), 0, 0),
            (Lock(3, 0, 2), 20, 2),
            (Lock(2, 0, 1), 0, 0),
            (Lock(3, 0, 1), 0, 0),
        ],
    )
}

/// The lowest holder that clashes and has not permitted, running or not; where there is none, the first in line. Never
/// the caller; and a refused delegate names nobody.
fn named() -> Vec<Line> {
    runs(
        2,
        6,
        &[
            (Lock(4, 0, 1), 0, 0),
            (Lock(2, 0, 1), 0, 0),
            (Lock(5, 0, 1), 0, 0),
            (Lock(3, 0, 2), 20, 2),
            (Permit(2, 3, 0, 2), 0, 0),
            (Lock(3, 0, 2), 20, 4),
            // On another entry, for another mode, the other way: 4 has not permitted.
            (Permit(4, 3, 1, 2), 0, 0),
            (Permit(4, 3, 0, 1), 0, 0),
            (Permit(3, 4, 0, 3), 0, 0),
            (Lock(3, 0, 2), 20, 4),
            (Permit(4, 0, 0, 2), 0, 0),
            (Lock(3, 0, 2), 20, 5),
            (Complete(5), 0, 0),
            (Lock(3, 0, 2), 20, 5),
            // 2 reads itself, and 3 is first in line: 5 is named.
            (Lock(2, 0, 2), 20, 5),
            (Permit(5, 0, 0, 2), 0, 0),
            (Lock(2, 0, 2), 20, 3),
            (Lock(6, 0, 1), 20, 3),
            (Lock(3, 0, 2), 0, 0),
            // 2 is first in line: 3, who writes, is named.
            (Lock(6, 0, 1), 20, 3),
            // 1 would write where 2 reads.
            (Delegate(3, 1, 0), 10, 0),
            (Permit(1, 2, 0, 1), 0, 0),
            (Delegate(3, 1, 0), 0, 0),
            (Lock(6, 0, 1), 20, 1),
        ],
    )
}
