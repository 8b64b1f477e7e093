//! The windows, and for each call arguments with which it does its work there.
use crate::model::{Permit, Window};
use crate::perform::Call::{self, *};
use crate::perform::{EVERY_ENTRY, NAMES};
use crate::{busy, windows};

/// What a row measures.
#[derive(Clone, Copy)]
pub enum Kind {
    /// The soundness check alone.
    Check,
    /// A call that is answered 0.
    Done(Call),
    /// A lock that is answered 20.
    Blocked(Call),
    /// A call that is refused.
    Refused(Call),
}

pub struct Case {
    pub kind: Kind,
    pub window: Window,
}

impl Case {
    pub fn name(&self) -> &'static str {
        match self.kind {
            Kind::Check => "the check alone",
            Kind::Done(call) => NAMES[call.fields().0],
            Kind::Blocked(_) => "lock, blocked",
            Kind::Refused(_) => "read, refused",
        }
    }
}

/// A window with its cases: the check, the calls in the order of NAMES, a blocked lock, a refused read.
pub struct Set {
    pub name: &'static str,
    pub holds: &'static str,
    pub cases: Vec<Case>,
}

/// A call and the window that it is made on, where that differs from the set's.
type Made = (Call, Option<Window>);

fn set(name: &'static str, holds: &'static str, base: &Window, calls: [Made; 15], blocked: Made, refused: Made) -> Set {
    let case = |kind: Kind, window: Option<Window>| Case { kind, window: window.unwrap_or(base.clone()) };
    let mut cases = vec![case(Kind::Check, None)];
    cases.extend(calls.map(|(call, window)| case(Kind::Done(call), window)));
    cases.push(case(Kind::Blocked(blocked.0), blocked.1));
    cases.push(case(Kind::Refused(refused.0), refused.1));
    Set { name, holds, cases }
}

fn but(w: &Window, change: impl Fn(&mut Window)) -> Option<Window> {
    let mut varied = w.clone();
    change(&mut varied);
    Some(varied)
}

/// With another status of a change.
fn status(w: &Window, c: usize, status: u8) -> Option<Window> {
    but(w, |w| w.changes[c - 1].0 = status)
}

/// As if the highest change had not been given.
fn one_fewer(w: &Window) -> Option<Window> {
    let c = w.changes.len() as u8;
    but(w, |w| {
        w.changes.pop();
        w.locks.retain(|l| l.1 != c);
        w.permits.retain(|p| p.giver != c && p.taker != c);
        w.ties.retain(|t| t.leader != c && t.follower != c);
        w.line.retain(|p| p.change != c);
    })
}

fn typical() -> Set {
    let w = windows::typical();
    let completed = but(&w, |w| (w.changes[5].0, w.changes[6].0) = (3, 3));
    let calls = [
        (Open(6), None),
        (Initiate(1), None),
        (Begin(11), None),
        (Complete(1), None),
        (Lock(1, 5, 2), None),
        (Read(1, 0), None),
        (Write(1, 0, 9), None),
        (Permit(1, 5, 0, 3), None),
        (Delegate(10, 11, EVERY_ENTRY), None),
        (Depend(1, 6, 5), None),
        (Commit(6), completed),
        (Abort(6), None),
        (Status(1), None),
        (Parent(2), None),
        (Value(0), None),
    ];
    let holds = "6 entries, 10 live changes, 9 locks, 4 permits, 6 ties, 6 log records";
    set("typical", holds, &w, calls, (Lock(5, 0, 2), None), (Read(1, 4), None))
}

fn busy_set() -> Set {
    let w = busy::busy();
    let calls = [
        (Open(256), None),
        (Initiate(4), None),
        (Begin(16), None),
        (Complete(4), None),
        (Lock(4, 14, 1), None),
        (Read(42, 14), None),
        (Write(42, 14, 9), None),
        (Permit(42, 4, 14, 1), None),
        (Delegate(33, 160, EVERY_ENTRY), None),
        (Depend(1, 4, 160), None),
        (Commit(1), None),
        (Abort(15), None),
        (Status(4), None),
        (Parent(9), None),
        (Value(14), None),
    ];
    let holds = "256 entries, 100 live changes, 500 locks, 300 permits, 100 ties, 1,000 log records";
    set("busy", holds, &w, calls, (Lock(4, 14, 2), None), (Read(4, 14), None))
}

/// The last entry's readers are permitted as anybody, and by three permits less.
fn any_reader(w: &mut Window) {
    w.permits.truncate(1_020);
    w.permits.push(Permit { entry: 255, giver: 56, taker: 0, operations: 1 });
}

fn full() -> Set {
    let w = windows::full();
    let calls = [
        (Open(256), None),
        (Initiate(1), one_fewer(&w)),
        (Begin(255), status(&w, 255, 1)),
        (Complete(1), None),
        (Lock(255, 255, 1), but(&w, any_reader)),
        (Read(1, 0), None),
        (Write(1, 0, 9), but(&w, |w| drop(w.log.pop()))),
        (Permit(1, 255, 0, 3), but(&w, any_reader)),
        (Delegate(1, 255, EVERY_ENTRY), None),
        (Depend(1, 1, 255), None),
        (Commit(1), status(&w, 1, 3)),
        (Abort(1), None),
        (Status(255), None),
        (Parent(255), None),
        (Value(255), None),
    ];
    let holds = "every table full but for the line and five ties: one writer and four readers of each entry";
    set("full", holds, &w, calls, (Lock(255, 255, 2), None), (Read(255, 0), None))
}

/// The last entry has a single writer.
fn last_written(w: &mut Window) {
    w.locks.retain(|l| l.0 != 255);
    w.locks.push((255, 255, 2));
}

fn all_locks() -> Set {
    let w = windows::all_locks();
    let free = but(&w, |w| w.locks.retain(|l| (l.0, l.1) != (255, 255)));
    let calls = [
        (Open(256), None),
        (Initiate(1), one_fewer(&w)),
        (Begin(255), status(&w, 255, 1)),
        (Complete(1), None),
        (Lock(255, 255, 1), free.clone()),
        (Read(255, 255), None),
        (Write(255, 255, 9), but(&w, last_written)),
        (Permit(1, 2, 0, 3), None),
        (Delegate(1, 255, EVERY_ENTRY), None),
        (Depend(1, 1, 255), None),
        (Commit(1), status(&w, 1, 3)),
        (Abort(1), None),
        (Status(255), None),
        (Parent(255), None),
        (Value(255), None),
    ];
    set("all locks", "255 changes read 256 entries", &w, calls, (Lock(255, 255, 2), None), (Read(255, 255), free))
}

fn all_permits() -> Set {
    let w = windows::all_permits();
    let calls = [
        (Open(1), None),
        (Initiate(2), one_fewer(&w)),
        (Begin(255), status(&w, 255, 1)),
        (Complete(1), None),
        (Lock(1, 0, 2), None),
        (Read(1, 0), None),
        (Write(255, 0, 9), None),
        (Permit(1, 2, 0, 3), one_fewer(&w)),
        (Delegate(2, 1, EVERY_ENTRY), None),
        (Depend(1, 1, 255), None),
        (Commit(2), status(&w, 2, 3)),
        (Abort(2), None),
        (Status(255), None),
        (Parent(255), None),
        (Value(0), None),
    ];
    let free = but(&w, |w| w.locks.retain(|l| l.1 != 255));
    let guarded = but(&w, |w| w.permits.retain(|p| (p.giver, p.taker) != (255, 0)));
    let holds = "one entry with 254 writers, a reader and 1,024 permits";
    set("all permits", holds, &w, calls, (Lock(1, 0, 2), guarded), (Read(255, 0), free))
}

fn all_ties() -> Set {
    let w = windows::all_ties();
    let written = but(&w, |w| w.locks.push((0, 1, 2)));
    let calls = [
        (Open(1), None),
        (Initiate(1), one_fewer(&w)),
        (Begin(255), status(&w, 255, 1)),
        (Complete(1), None),
        (Lock(1, 0, 2), None),
        (Read(1, 0), written.clone()),
        (Write(1, 0, 9), written.clone()),
        (Permit(1, 2, 0, 3), None),
        (Delegate(1, 2, EVERY_ENTRY), written.clone()),
        (Depend(1, 255, 1), None),
        (Commit(255), status(&w, 255, 3)),
        (Abort(255), None),
        (Status(255), None),
        (Parent(255), None),
        (Value(0), None),
    ];
    set("all ties", "255 changes in one chain of 508 ties", &w, calls, (Lock(2, 0, 1), written), (Read(1, 0), None))
}

/// As if only change 1 held a lock, in this mode.
fn held_alone(w: &Window, mode: u8) -> Option<Window> {
    but(w, |w| w.locks = vec![(0, 1, mode)])
}

/// With another status of a change, which does not stand in line then.
fn out_of_line(w: &Window, c: u8, status: u8) -> Option<Window> {
    but(w, |w| {
        w.changes[c as usize - 1].0 = status;
        w.line.retain(|p| p.change != c);
    })
}

fn all_lines() -> Set {
    let w = windows::all_lines();
    let calls = [
        (Open(1), None),
        (Initiate(1), one_fewer(&w)),
        (Begin(255), out_of_line(&w, 255, 1)),
        (Complete(1), None),
        (Lock(1, 0, 2), held_alone(&w, 1)),
        (Read(1, 0), None),
        (Write(1, 0, 9), held_alone(&w, 2)),
        (Permit(1, 2, 0, 3), None),
        (Delegate(1, 2, EVERY_ENTRY), None),
        (Depend(1, 1, 255), None),
        (Commit(1), out_of_line(&w, 1, 3)),
        (Abort(1), None),
        (Status(255), None),
        (Parent(255), None),
        (Value(0), None),
    ];
    let holds = "one entry with 255 readers, all of them in line to write";
    set("all lines", holds, &w, calls, (Lock(255, 0, 1), held_alone(&w, 1)), (Read(255, 0), held_alone(&w, 1)))
}

/// Typical, busy, and the worst windows of the soundness check.
pub fn sets() -> Vec<Set> {
    vec![typical(), busy_set(), full(), all_locks(), all_permits(), all_ties(), all_lines()]
}
