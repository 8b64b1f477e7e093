//! Lists of calls with the answers that the rules give, worked out by hand.
use crate::perform::{Call, EVERY_ENTRY};
use Call::*;

/// A call, its answer and its second number.
pub type Line = (Call, u32, u32);

/// A name and its lines.
pub type Try = (&'static str, Vec<Line>);

/// Entries, and changes 1, 2, ... that run.
pub fn running(entries: u32, changes: u32) -> Vec<Line> {
    let mut lines = vec![(Open(entries), 0, 0)];
    lines.extend((1..=changes).map(|c| (Initiate(0), 0, c)));
    lines.extend((1..=changes).map(|c| (Begin(c), 0, 0)));
    lines
}

/// The same with more calls behind.
pub fn after(mut lines: Vec<Line>, more: &[Line]) -> Vec<Line> {
    lines.extend_from_slice(more);
    lines
}

pub fn runs(entries: u32, changes: u32, more: &[Line]) -> Vec<Line> {
    after(running(entries, changes), more)
}

/// "Calls to try".
pub fn calls_to_try() -> Vec<Try> {
    vec![
        ("the whole case", whole_case()),
        ("open 0", vec![(Open(0), 2, 0)]),
        ("open 256", vec![(Open(256), 0, 0), (Value(255), 0, 0), (Value(256), 4, 0)]),
        ("open 257", vec![(Open(257), 2, 0)]),
        ("255 initiates", initiates()),
        ("two writes undone", undone()),
        ("a permit to read", permit_to_read()),
        ("a wait tie and its reverse", wait_and_reverse()),
        ("a fall follower waits", runs(1, 2, &[(Complete(2), 0, 0), (Depend(2, 1, 2), 0, 0), (Commit(2), 20, 1)])),
        ("all delegated", all_delegated()),
        ("two writers", two_writers()),
        ("a delegate past a permit", delegate_past_permit()),
    ]
}

fn whole_case() -> Vec<Line> {
    vec![
        (Open(2), 0, 0),
        (Initiate(0), 0, 1),
        (Initiate(0), 0, 2),
        (Begin(1), 0, 0),
        (Lock(1, 0, 2), 0, 0),
        (Write(1, 0, 7), 0, 0),
        (Depend(3, 1, 2), 0, 0),
        (Abort(2), 0, 2),
        (Value(0), 0, 0),
    ]
}

fn initiates() -> Vec<Line> {
    after((1..=255).fold(running(1, 0), |l, c| after(l, &[(Initiate(0), 0, c)])), &[(Initiate(0), 11, 0)])
}

fn undone() -> Vec<Line> {
    runs(
        1,
        2,
        &[
            (Lock(1, 0, 2), 0, 0),
            (Write(1, 0, 7), 0, 0),
            (Write(1, 0, 9), 0, 0),
            (Abort(1), 0, 1),
            (Value(0), 0, 0),
        ],
    )
}

fn permit_to_read() -> Vec<Line> {
    runs(
        2,
        2,
        &[
            (Lock(1, 1, 2), 0, 0),
            (Lock(2, 1, 1), 20, 1),
            (Permit(1, 2, 1, 1), 0, 0),
            (Lock(2, 1, 1), 0, 0),
            (Lock(2, 1, 2), 20, 1),
        ],
    )
}

fn wait_and_reverse() -> Vec<Line> {
    runs(
        1,
        2,
        &[(Depend(1, 1, 2), 0, 0), (Depend(1, 2, 1), 9, 0), (Depend(3, 1, 2), 9, 0), (Depend(3, 2, 1), 9, 0)],
    )
}

fn all_delegated() -> Vec<Line> {
    runs(
        1,
        2,
        &[
            (Lock(1, 0, 2), 0, 0),
            (Write(1, 0, 7), 0, 0),
            (Delegate(1, 2, EVERY_ENTRY), 0, 0),
            (Abort(1), 0, 1),
            (Value(0), 0, 7),
            (Abort(2), 0, 1),
            (Value(0), 0, 0),
        ],
    )
}

/// Changes that run; 1 writes 7 to the only entry and permits 2 to write, 2 locks and writes 9; more calls behind.
pub fn both_write(changes: u32, more: &[Line]) -> Vec<Line> {
    let writes = [
        (Lock(1, 0, 2), 0, 0),
        (Write(1, 0, 7), 0, 0),
        (Permit(1, 2, 0, 2), 0, 0),
        (Lock(2, 0, 2), 0, 0),
        (Write(2, 0, 9), 0, 0),
    ];
    after(runs(1, changes, &writes), more)
}

fn two_writers() -> Vec<Line> {
    both_write(2, &[(Abort(1), 0, 1), (Value(0), 0, 0), (Abort(2), 0, 1), (Value(0), 0, 0)])
}

fn delegate_past_permit() -> Vec<Line> {
    runs(
        1,
        2,
        &[
            (Lock(1, 0, 2), 0, 0),
            (Permit(1, 2, 0, 1), 0, 0),
            (Lock(2, 0, 1), 0, 0),
            (Initiate(0), 0, 3),
            (Delegate(2, 3, 0), 10, 0),
            (Delegate(2, 3, EVERY_ENTRY), 10, 0),
        ],
    )
}

/// "Errors that pass for the real thing".
pub fn errors() -> Vec<Try> {
    vec![
        ("undoing oldest first, or from the second record", undo_in_order()),
        ("moving locks in a delegate but leaving log ownership", log_ownership()),
        ("taking only direct partners as the group: commit", whole_group_commits()),
        ("taking only direct partners as the group: abort", whole_group_aborts()),
        ("reading a permit from giver to taker as one the other way", permit_one_way()),
        ("letting a fall follower commit while its leader is merely completed", leader_first()),
    ]
}

fn undo_in_order() -> Vec<Line> {
    runs(
        2,
        2,
        &[
            (Lock(1, 0, 2), 0, 0),
            (Write(1, 0, 7), 0, 0),
            (Write(1, 0, 9), 0, 0),
            (Write(1, 0, 11), 0, 0),
            (Value(0), 0, 11),
            (Abort(1), 0, 1),
            (Value(0), 0, 0),
            (Lock(2, 1, 2), 0, 0),
            (Write(2, 1, 5), 0, 0),
            (Abort(2), 0, 1),
            (Value(1), 0, 0),
        ],
    )
}

fn log_ownership() -> Vec<Line> {
    runs(
        1,
        2,
        &[
            (Lock(1, 0, 2), 0, 0),
            (Write(1, 0, 7), 0, 0),
            (Delegate(1, 2, 0), 0, 0),
            (Write(1, 0, 8), 8, 0),
            (Write(2, 0, 9), 0, 0),
            (Complete(1), 0, 0),
            (Commit(1), 0, 1),
            (Value(0), 0, 9),
            (Abort(2), 0, 1),
            (Value(0), 0, 0),
        ],
    )
}

fn whole_group_commits() -> Vec<Line> {
    runs(
        1,
        4,
        &[
            (Depend(3, 1, 2), 0, 0),
            (Depend(3, 3, 2), 0, 0),
            (Depend(3, 3, 4), 0, 0),
            (Complete(1), 0, 0),
            (Complete(2), 0, 0),
            (Complete(3), 0, 0),
            (Commit(1), 20, 4),
            (Complete(4), 0, 0),
            (Commit(1), 0, 4),
            (Status(1), 0, 4),
            (Status(2), 0, 4),
            (Status(3), 0, 4),
            (Status(4), 0, 4),
        ],
    )
}

fn whole_group_aborts() -> Vec<Line> {
    runs(
        1,
        3,
        &[
            (Depend(3, 1, 2), 0, 0),
            (Depend(3, 2, 3), 0, 0),
            (Abort(3), 0, 3),
            (Status(1), 0, 5),
            (Status(2), 0, 5),
        ],
    )
}

fn permit_one_way() -> Vec<Line> {
    runs(
        1,
        2,
        &[
            (Lock(1, 0, 2), 0, 0),
            (Permit(2, 1, 0, 3), 0, 0),
            (Lock(2, 0, 1), 20, 1),
            (Lock(2, 0, 2), 20, 1),
            (Permit(1, 2, 0, 3), 0, 0),
            (Lock(2, 0, 2), 0, 0),
        ],
    )
}

fn leader_first() -> Vec<Line> {
    runs(
        1,
        2,
        &[
            (Depend(2, 1, 2), 0, 0),
            (Complete(1), 0, 0),
            (Complete(2), 0, 0),
            (Commit(2), 20, 1),
            (Commit(1), 0, 1),
            (Commit(2), 0, 1),
        ],
    )
}
