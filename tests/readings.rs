//! More lists of calls with the answers that the rules give, worked out by hand.
use crate::perform::{Call, EVERY_ENTRY};
use crate::tries::{runs, Line, Try};
use Call::*;

/// Sentences of the rules that the lists of tries.rs leave out, and the readings of them in docs/DECISIONS.md.
pub fn readings() -> Vec<Try> {
    vec![
        ("the checking order", checking_order()),
        ("ended once", ended_once()),
        ("operations 2 do not contain reading", write_without_reading()),
        ("a second permit unites", united_permits()),
        ("anybody, each clashing holder asked", each_holder_asked()),
        ("a reader who wants to write asks the other readers", reader_to_writer()),
        ("a hand-over of permits and of the greater lock", greater_lock()),
        ("to initiated and completed changes", to_any_live_change()),
        ("equal values are logged too", equal_values()),
        ("what an end releases", released()),
        ("an open anew", open_anew()),
    ]
}

fn checking_order() -> Vec<Line> {
    runs(
        2,
        3,
        &[
            (Complete(3), 0, 0),
            (Commit(3), 0, 1),
            (Lock(0, 2, 3), 3, 0),
            (Lock(4, 2, 3), 3, 0),
            (Lock(3, 2, 3), 4, 0),
            (Lock(3, 1, 3), 5, 0),
            (Lock(3, 1, 0), 5, 0),
            (Lock(3, 1, 2), 7, 0),
            (Read(4, 2), 3, 0),
            (Read(3, 2), 4, 0),
            (Read(3, 1), 7, 0),
            (Read(1, 1), 8, 0),
            (Read(1, EVERY_ENTRY), 4, 0),
            (Write(3, 1, 0), 7, 0),
            (Write(1, 1, 0), 8, 0),
            (Permit(0, 0, 2, 4), 3, 0),
            (Permit(3, 4, 2, 4), 3, 0),
            (Permit(3, 3, 2, 4), 4, 0),
            (Permit(3, 3, EVERY_ENTRY, 4), 4, 0),
            (Permit(3, 3, 1, 4), 5, 0),
            (Permit(3, 3, 1, 0), 5, 0),
            (Permit(3, 3, 1, 3), 6, 0),
            (Permit(3, 1, 1, 3), 7, 0),
            (Permit(1, 3, 1, 3), 7, 0),
            (Permit(3, 0, 1, 3), 7, 0),
            (Delegate(0, 0, 2), 3, 0),
            (Delegate(1, 0, 2), 3, 0),
            (Delegate(3, 3, 2), 4, 0),
            (Delegate(3, 3, 65_534), 4, 0),
            (Delegate(3, 3, 65_536), 4, 0),
            (Delegate(3, 3, EVERY_ENTRY), 6, 0),
            (Delegate(3, 1, EVERY_ENTRY), 7, 0),
            (Delegate(1, 3, 1), 7, 0),
            (Depend(0, 1, 0), 3, 0),
            (Depend(0, 4, 1), 3, 0),
            (Depend(0, 3, 3), 5, 0),
            (Depend(4, 3, 3), 5, 0),
            (Depend(1, 3, 3), 6, 0),
            (Depend(1, 3, 1), 7, 0),
            (Depend(1, 1, 3), 7, 0),
            (Begin(0), 3, 0),
            (Begin(1), 7, 0),
            (Complete(3), 7, 0),
            (Initiate(4), 3, 0),
            (Initiate(3), 7, 0),
            (Initiate(1), 0, 4),
            (Initiate(4), 7, 0),
            (Parent(4), 0, 1),
            (Parent(5), 3, 0),
            (Status(0), 3, 0),
            (Status(4), 0, 1),
            (Value(2), 4, 0),
            (Value(EVERY_ENTRY), 4, 0),
            (Commit(u32::MAX), 3, 0),
            (Abort(257), 3, 0),
        ],
    )
}

fn ended_once() -> Vec<Line> {
    runs(
        1,
        2,
        &[
            (Complete(1), 0, 0),
            (Commit(1), 0, 1),
            (Commit(1), 0, 0),
            (Abort(1), 21, 0),
            (Abort(2), 0, 1),
            (Abort(2), 0, 0),
            (Commit(2), 21, 0),
            (Status(1), 0, 4),
            (Status(2), 0, 5),
        ],
    )
}

fn write_without_reading() -> Vec<Line> {
    runs(
        1,
        2,
        &[
            (Lock(1, 0, 2), 0, 0),
            (Permit(1, 2, 0, 2), 0, 0),
            (Lock(2, 0, 1), 20, 1),
            (Lock(2, 0, 2), 0, 0),
            (Lock(2, 0, 1), 0, 0),
        ],
    )
}

fn united_permits() -> Vec<Line> {
    runs(
        1,
        2,
        &[
            (Lock(1, 0, 2), 0, 0),
            (Permit(1, 2, 0, 2), 0, 0),
            (Permit(1, 2, 0, 1), 0, 0),
            (Lock(2, 0, 1), 0, 0),
            (Lock(2, 0, 2), 0, 0),
        ],
    )
}

fn each_holder_asked() -> Vec<Line> {
    runs(
        2,
        4,
        &[
            (Lock(1, 0, 1), 0, 0),
            (Lock(2, 0, 1), 0, 0),
            (Permit(1, 0, 0, 2), 0, 0),
            (Lock(3, 0, 2), 20, 2),
            (Permit(2, 3, 1, 2), 0, 0),
            (Lock(3, 0, 2), 20, 2),
            (Permit(2, 3, 0, 2), 0, 0),
            (Lock(3, 0, 2), 0, 0),
            (Lock(1, 0, 2), 20, 2),
            (Lock(1, 0, 1), 0, 0),
            (Lock(4, 0, 1), 20, 3),
            (Read(3, 0), 0, 0),
            (Read(4, 0), 8, 0),
            (Write(2, 0, 1), 8, 0),
        ],
    )
}

fn reader_to_writer() -> Vec<Line> {
    runs(
        1,
        3,
        &[
            (Lock(1, 0, 1), 0, 0),
            (Lock(2, 0, 1), 0, 0),
            (Lock(1, 0, 2), 20, 2),
            (Permit(2, 1, 0, 1), 0, 0),
            (Lock(1, 0, 2), 20, 2),
            (Permit(2, 0, 0, 2), 0, 0),
            (Lock(1, 0, 2), 0, 0),
            (Write(1, 0, 3), 0, 0),
            (Read(2, 0), 0, 3),
            (Lock(3, 0, 1), 20, 1),
        ],
    )
}

fn greater_lock() -> Vec<Line> {
    runs(
        2,
        4,
        &[
            (Lock(1, 0, 2), 0, 0),
            (Permit(1, 2, 0, 1), 0, 0),
            (Permit(1, 3, 0, 1), 0, 0),
            (Permit(1, 0, 1, 2), 0, 0),
            (Permit(2, 1, 0, 3), 0, 0),
            (Permit(2, 3, 0, 2), 0, 0),
            (Lock(2, 0, 1), 0, 0),
            (Lock(3, 0, 1), 0, 0),
            (Delegate(1, 2, 0), 0, 0),
            (Write(1, 0, 5), 8, 0),
            (Write(2, 0, 5), 0, 0),
            (Lock(3, 0, 2), 0, 0),
            (Lock(1, 0, 2), 20, 3),
            (Permit(3, 1, 0, 2), 0, 0),
            (Lock(1, 0, 2), 0, 0),
            (Delegate(4, 3, EVERY_ENTRY), 0, 0),
        ],
    )
}

fn to_any_live_change() -> Vec<Line> {
    vec![
        (Open(1), 0, 0),
        (Initiate(0), 0, 1),
        (Initiate(0), 0, 2),
        (Begin(1), 0, 0),
        (Lock(1, 0, 2), 0, 0),
        (Write(1, 0, 4), 0, 0),
        (Delegate(1, 2, 0), 0, 0),
        (Lock(1, 0, 1), 20, 2),
        (Complete(1), 0, 0),
        (Delegate(2, 1, EVERY_ENTRY), 0, 0),
        (Abort(2), 0, 1),
        (Value(0), 0, 4),
        (Abort(1), 0, 1),
        (Value(0), 0, 0),
    ]
}

fn released() -> Vec<Line> {
    runs(
        1,
        3,
        &[
            (Lock(1, 0, 2), 0, 0),
            (Write(1, 0, 6), 0, 0),
            (Permit(2, 1, 0, 3), 0, 0),
            (Permit(1, 0, 0, 3), 0, 0),
            (Depend(1, 1, 2), 0, 0),
            (Complete(1), 0, 0),
            (Commit(1), 0, 1),
            (Value(0), 0, 6),
            (Lock(2, 0, 2), 0, 0),
            (Lock(3, 0, 1), 20, 2),
            (Read(2, 0), 0, 6),
            (Write(2, 0, 6), 0, 0),
            (Abort(2), 0, 1),
            (Value(0), 0, 6),
        ],
    )
}

fn equal_values() -> Vec<Line> {
    runs(
        1,
        2,
        &[
            (Lock(1, 0, 2), 0, 0),
            (Permit(1, 2, 0, 2), 0, 0),
            (Lock(2, 0, 2), 0, 0),
            (Write(1, 0, 0), 0, 0),
            (Write(2, 0, 5), 0, 0),
            (Abort(1), 0, 1),
            (Value(0), 0, 0),
        ],
    )
}

fn open_anew() -> Vec<Line> {
    runs(
        2,
        2,
        &[
            (Lock(1, 1, 2), 0, 0),
            (Write(1, 1, 9), 0, 0),
            (Open(300), 2, 0),
            (Value(1), 0, 9),
            (Open(2), 0, 0),
            (Value(1), 0, 0),
            (Status(1), 3, 0),
            (Initiate(0), 0, 1),
        ],
    )
}
