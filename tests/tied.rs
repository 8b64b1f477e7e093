//! Lists of calls about ties, with the answers that the rules give, worked out by hand.
use crate::perform::Call;
use crate::tries::{after, running, runs, Line, Try};
use Call::*;

/// Which ties stand, who falls with whom, what holds up a commit.
pub fn tied() -> Vec<Try> {
    vec![
        ("ties that stand, that are two, and paths through groups", standing_ties()),
        ("fall ties go one way", falls_one_way()),
        ("a fall goes on through groups and followers", falls_go_on()),
        ("a fall that turns at every step", falls_turn()),
        ("the lowest of those not completed and those who lead", lowest_in_the_way()),
        ("three walks against the order of the numbers", three_walks()),
    ]
}

fn standing_ties() -> Vec<Line> {
    runs(
        1,
        5,
        &[
            (Depend(3, 2, 1), 0, 0),
            (Depend(3, 1, 2), 0, 0),
            (Depend(1, 2, 3), 0, 0),
            (Depend(2, 2, 3), 0, 0),
            (Depend(1, 1, 2), 9, 0),
            (Depend(2, 3, 1), 9, 0),
            (Depend(3, 3, 1), 9, 0),
            (Depend(3, 3, 4), 0, 0),
            (Depend(1, 4, 5), 0, 0),
            (Depend(1, 5, 1), 9, 0),
            (Depend(3, 5, 2), 9, 0),
            (Depend(1, 1, 5), 0, 0),
            (Abort(3), 0, 2),
            (Depend(1, 5, 1), 9, 0),
            (Status(5), 0, 2),
            (Abort(1), 0, 2),
            (Status(4), 0, 5),
        ],
    )
}

fn falls_one_way() -> Vec<Line> {
    runs(
        3,
        4,
        &[
            (Depend(2, 1, 2), 0, 0),
            (Depend(2, 2, 3), 0, 0),
            (Depend(1, 2, 4), 0, 0),
            (Lock(1, 0, 2), 0, 0),
            (Lock(2, 1, 2), 0, 0),
            (Lock(3, 2, 2), 0, 0),
            (Write(3, 2, 3), 0, 0),
            (Write(1, 0, 1), 0, 0),
            (Write(2, 1, 2), 0, 0),
            (Abort(2), 0, 2),
            (Value(0), 0, 1),
            (Value(1), 0, 0),
            (Value(2), 0, 0),
            (Complete(4), 0, 0),
            (Commit(4), 0, 1),
            (Lock(1, 2, 2), 0, 0),
        ],
    )
}

fn falls_go_on() -> Vec<Line> {
    runs(
        1,
        5,
        &[
            (Depend(2, 4, 3), 0, 0),
            (Depend(3, 3, 1), 0, 0),
            (Depend(2, 1, 2), 0, 0),
            (Abort(4), 0, 4),
            (Status(5), 0, 2),
        ],
    )
}

/// 21, 1, 22, 2, ..., 40, 20: each falls with the one before it, and 41 is of 20's group.
fn falls_turn() -> Vec<Line> {
    let chain: Vec<u32> = (1..=20).flat_map(|c| [20 + c, c]).collect();
    let mut lines = running(1, 41);
    lines.extend(chain.windows(2).map(|pair| (Depend(2, pair[0], pair[1]), 0, 0)));
    after(
        lines,
        &[
            (Depend(3, 41, 20), 0, 0),
            (Depend(2, 41, 21), 9, 0),
            (Abort(1), 0, 40),
            (Status(21), 0, 2),
            (Status(41), 0, 5),
        ],
    )
}

fn lowest_in_the_way() -> Vec<Line> {
    runs(
        1,
        5,
        &[
            (Depend(1, 2, 5), 0, 0),
            (Depend(3, 3, 5), 0, 0),
            (Depend(2, 1, 3), 0, 0),
            (Commit(5), 20, 1),
            (Abort(1), 0, 3),
            (Complete(4), 0, 0),
            (Commit(2), 20, 2),
            (Commit(4), 0, 1),
        ],
    )
}

fn three_walks() -> Vec<Line> {
    runs(
        1,
        4,
        &[
            (Depend(1, 3, 2), 0, 0),
            (Depend(2, 2, 1), 0, 0),
            (Depend(3, 4, 3), 0, 0),
            (Complete(1), 0, 0),
            (Complete(2), 0, 0),
            (Complete(3), 0, 0),
            (Complete(4), 0, 0),
            (Commit(1), 20, 2),
            (Commit(2), 20, 3),
            (Commit(3), 0, 2),
            (Commit(4), 0, 0),
            (Commit(1), 20, 2),
            (Commit(2), 0, 1),
            (Commit(3), 0, 0),
            (Commit(4), 0, 0),
            (Commit(1), 0, 1),
        ],
    )
}
