//! Lists of calls about withdrawals, with the answers that the rules give, worked out by hand.
use crate::perform::Call;
use crate::tries::{after, both_write, running, runs, Line, Try};
use Call::*;

/// What a withdrawal puts back and strikes, where several changes wrote to an entry.
pub fn withdrawals() -> Vec<Try> {
    vec![
        ("later records are struck, whoever owns them", later_struck()),
        ("a record between two of the set's is struck", between()),
        ("who gave the permit is struck too", giver_struck()),
        ("earlier records stay", earlier_stays()),
        ("the oldest record on that entry, not of the log", oldest_there()),
        ("who wrote nothing takes nothing back", nothing_written()),
        ("the partner of a withdrawn change goes on", partner_goes_on()),
        ("the partner keeps its place in line", place_kept()),
        ("a write that was struck stays so when its change commits", struck_then_committed()),
        ("the oldest record of the whole set", whole_set()),
        ("records handed over go with their new owner", handed_over()),
        ("a commit drops its own records alone", commit_strikes_none()),
        ("each entry by itself, the first and the last among them", each_entry()),
    ]
}

fn later_struck() -> Vec<Line> {
    runs(
        2,
        3,
        &[
            (Lock(1, 0, 2), 0, 0),
            (Permit(1, 0, 0, 2), 0, 0),
            (Lock(2, 0, 2), 0, 0),
            (Permit(2, 3, 0, 2), 0, 0),
            (Lock(3, 0, 2), 0, 0),
            (Lock(3, 1, 2), 0, 0),
            (Write(3, 0, 1), 0, 0),
            (Write(1, 0, 2), 0, 0),
            (Write(2, 0, 3), 0, 0),
            (Write(3, 1, 4), 0, 0),
            (Write(3, 0, 5), 0, 0),
            // The second to the fourth write to entry 0 are struck, the first and that to entry 1 stay.
            (Abort(1), 0, 1),
            (Value(0), 0, 1),
            (Value(1), 0, 4),
            (Abort(2), 0, 1),
            (Value(0), 0, 1),
            (Abort(3), 0, 1),
            (Value(0), 0, 0),
            (Value(1), 0, 0),
        ],
    )
}

fn between() -> Vec<Line> {
    both_write(
        2,
        &[
            (Write(1, 0, 11), 0, 0),
            (Abort(1), 0, 1),
            (Value(0), 0, 0),
            (Abort(2), 0, 1),
            (Value(0), 0, 0),
        ],
    )
}

fn giver_struck() -> Vec<Line> {
    runs(
        1,
        2,
        &[
            (Lock(2, 0, 2), 0, 0),
            (Permit(2, 1, 0, 2), 0, 0),
            (Lock(1, 0, 2), 0, 0),
            (Write(1, 0, 7), 0, 0),
            (Write(2, 0, 9), 0, 0),
            (Abort(1), 0, 1),
            (Value(0), 0, 0),
            (Abort(2), 0, 1),
            (Value(0), 0, 0),
        ],
    )
}

fn earlier_stays() -> Vec<Line> {
    both_write(
        2,
        &[
            (Write(2, 0, 11), 0, 0),
            (Abort(2), 0, 1),
            (Value(0), 0, 7),
            (Write(1, 0, 8), 0, 0),
            (Abort(1), 0, 1),
            (Value(0), 0, 0),
        ],
    )
}

/// 1 writes to entry 0 before 2 writes to entry 1, and to entry 1 after that.
fn oldest_there() -> Vec<Line> {
    runs(
        2,
        2,
        &[
            (Lock(1, 0, 2), 0, 0),
            (Lock(1, 1, 2), 0, 0),
            (Permit(1, 2, 1, 2), 0, 0),
            (Lock(2, 1, 2), 0, 0),
            (Write(1, 0, 7), 0, 0),
            (Write(2, 1, 8), 0, 0),
            (Write(1, 1, 9), 0, 0),
            (Abort(1), 0, 1),
            (Value(0), 0, 0),
            (Value(1), 0, 8),
            (Abort(2), 0, 1),
            (Value(1), 0, 0),
        ],
    )
}

fn nothing_written() -> Vec<Line> {
    runs(
        1,
        2,
        &[
            (Lock(1, 0, 2), 0, 0),
            (Permit(1, 2, 0, 2), 0, 0),
            (Lock(2, 0, 2), 0, 0),
            (Write(2, 0, 9), 0, 0),
            (Abort(1), 0, 1),
            (Value(0), 0, 9),
            (Abort(2), 0, 1),
            (Value(0), 0, 0),
        ],
    )
}

fn partner_goes_on() -> Vec<Line> {
    both_write(
        3,
        &[
            (Abort(1), 0, 1),
            (Status(2), 0, 2),
            (Read(2, 0), 0, 0),
            (Lock(3, 0, 1), 20, 2),
            (Write(2, 0, 8), 0, 0),
            (Write(2, 0, 6), 0, 0),
            (Value(0), 0, 6),
            (Abort(2), 0, 1),
            (Value(0), 0, 0),
            (Lock(3, 0, 1), 0, 0),
        ],
    )
}

/// 2 waits for entry 1, which 3 holds, when 1 is withdrawn.
fn place_kept() -> Vec<Line> {
    runs(
        2,
        3,
        &[
            (Lock(1, 0, 2), 0, 0),
            (Write(1, 0, 7), 0, 0),
            (Permit(1, 2, 0, 2), 0, 0),
            (Lock(2, 0, 2), 0, 0),
            (Write(2, 0, 9), 0, 0),
            (Lock(3, 1, 2), 0, 0),
            (Lock(2, 1, 1), 20, 3),
            (Abort(1), 0, 1),
            (Value(0), 0, 0),
            (Lock(2, 0, 1), 12, 0),
            (Abort(3), 0, 1),
            (Lock(2, 1, 1), 0, 0),
        ],
    )
}

fn struck_then_committed() -> Vec<Line> {
    both_write(
        2,
        &[
            (Complete(2), 0, 0),
            (Abort(1), 0, 1),
            (Value(0), 0, 0),
            (Commit(2), 0, 1),
            (Value(0), 0, 0),
        ],
    )
}

/// The abort of 1 ends 3, of its group, and 4, which falls with 3. The oldest record of the three is 4's.
fn whole_set() -> Vec<Line> {
    runs(
        2,
        4,
        &[
            (Lock(1, 1, 2), 0, 0),
            (Permit(1, 0, 1, 2), 0, 0),
            (Lock(2, 1, 2), 0, 0),
            (Permit(2, 0, 1, 2), 0, 0),
            (Lock(3, 1, 2), 0, 0),
            (Permit(3, 0, 1, 2), 0, 0),
            (Lock(4, 1, 2), 0, 0),
            (Depend(3, 1, 3), 0, 0),
            (Depend(2, 3, 4), 0, 0),
            (Write(2, 1, 5), 0, 0),
            (Write(4, 1, 6), 0, 0),
            (Write(2, 1, 7), 0, 0),
            (Write(1, 1, 8), 0, 0),
            (Write(3, 1, 9), 0, 0),
            (Abort(1), 0, 3),
            (Value(1), 0, 5),
            (Write(2, 1, 10), 0, 0),
            (Abort(2), 0, 1),
            (Value(1), 0, 0),
        ],
    )
}

fn handed_over() -> Vec<Line> {
    runs(
        1,
        3,
        &[
            (Lock(1, 0, 2), 0, 0),
            (Write(1, 0, 7), 0, 0),
            (Permit(1, 0, 0, 2), 0, 0),
            (Lock(2, 0, 2), 0, 0),
            (Write(2, 0, 9), 0, 0),
            (Delegate(2, 3, 0), 0, 0),
            (Write(1, 0, 11), 0, 0),
            (Abort(2), 0, 1),
            (Value(0), 0, 11),
            (Abort(3), 0, 1),
            (Value(0), 0, 7),
            (Abort(1), 0, 1),
            (Value(0), 0, 0),
        ],
    )
}

fn commit_strikes_none() -> Vec<Line> {
    both_write(
        2,
        &[
            (Write(1, 0, 11), 0, 0),
            (Complete(1), 0, 0),
            (Commit(1), 0, 1),
            (Value(0), 0, 11),
            // The value before of 2's record is the 7 of a change that is committed.
            (Abort(2), 0, 1),
            (Value(0), 0, 7),
        ],
    )
}

/// 1 and then 2 write to some entries, 2 alone to their neighbours.
fn each_entry() -> Vec<Line> {
    let both = [0, 63, 64, 127, 128, 191, 192, 255];
    let alone = [1, 62, 65, 254];
    let values = |entries: &[u32], value: u32| entries.iter().map(|e| (Value(*e), 0, value)).collect::<Vec<_>>();
    let mut lines = running(256, 2);
    for e in both {
        let locks = [(Lock(1, e, 2), 0, 0), (Permit(1, 2, e, 2), 0, 0), (Lock(2, e, 2), 0, 0)];
        lines = after(after(lines, &locks), &[(Write(1, e, e + 1), 0, 0), (Write(2, e, e + 1_000), 0, 0)]);
    }
    for e in alone {
        lines.extend([(Lock(2, e, 2), 0, 0), (Write(2, e, 5), 0, 0)]);
    }
    lines.push((Abort(1), 0, 1));
    lines = after(after(lines, &values(&both, 0)), &values(&alone, 5));
    lines.push((Abort(2), 0, 1));
    after(after(lines, &values(&both, 0)), &values(&alone, 0))
}
