//! The fifteen calls on lent memory, written from docs/RULES.md.
use crate::model::{self, Record, Tie, Waiter, Window, SIZE};
use std::collections::BTreeSet;
use std::fmt;
use Call::*;

/// A call with its arguments in the order of docs/RULES.md.
#[derive(Clone, Copy, PartialEq, Eq)]
pub enum Call {
    /// entries
    Open(u32),
    /// parent
    Initiate(u32),
    /// change
    Begin(u32),
    /// change
    Complete(u32),
    /// change, entry, mode
    Lock(u32, u32, u32),
    /// change, entry
    Read(u32, u32),
    /// change, entry, value
    Write(u32, u32, u32),
    /// giver, taker, entry, operations
    Permit(u32, u32, u32, u32),
    /// from, to, entry
    Delegate(u32, u32, u32),
    /// kind, leader, follower
    Depend(u32, u32, u32),
    /// change
    Commit(u32),
    /// change
    Abort(u32),
    /// change
    Status(u32),
    /// change
    Parent(u32),
    /// entry
    Value(u32),
}

pub const NAMES: [&str; 15] = [
    "open", "initiate", "begin", "complete", "lock", "read", "write", "permit", "delegate", "depend", "commit",
    "abort", "status", "parent", "value",
];

impl Call {
    /// The call's place in NAMES, and its arguments, 0 where it has none.
    pub fn fields(self) -> (usize, [u32; 4]) {
        match self {
            Open(a) => (0, [a, 0, 0, 0]),
            Initiate(a) => (1, [a, 0, 0, 0]),
            Begin(a) => (2, [a, 0, 0, 0]),
            Complete(a) => (3, [a, 0, 0, 0]),
            Lock(a, b, c) => (4, [a, b, c, 0]),
            Read(a, b) => (5, [a, b, 0, 0]),
            Write(a, b, c) => (6, [a, b, c, 0]),
            Permit(a, b, c, d) => (7, [a, b, c, d]),
            Delegate(a, b, c) => (8, [a, b, c, 0]),
            Depend(a, b, c) => (9, [a, b, c, 0]),
            Commit(a) => (10, [a, 0, 0, 0]),
            Abort(a) => (11, [a, 0, 0, 0]),
            Status(a) => (12, [a, 0, 0, 0]),
            Parent(a) => (13, [a, 0, 0, 0]),
            Value(a) => (14, [a, 0, 0, 0]),
        }
    }
}

/// A line of a script.
impl fmt::Display for Call {
    fn fmt(&self, f: &mut fmt::Formatter) -> fmt::Result {
        let (name, [a, b, c, d]) = self.fields();
        write!(f, "{},{a},{b},{c},{d}", NAMES[name])
    }
}

/// An answer and a second number.
pub type Reply = (u32, u32);

pub const EVERY_ENTRY: u32 = 65_535;

/// Makes a call on lent memory.
pub fn perform(memory: &mut [u8], call: Call) -> Reply {
    // 1. The memory is shorter than a window (every call), or is not a sound window (every call but open).
    if memory.len() < SIZE {
        return (1, 0);
    }
    let before = match (call, model::window(memory)) {
        (Open(_), _) => Window::default(),
        (_, Some(w)) if w.sound() => w,
        _ => return (1, 0),
    };
    let mut after = before.clone();
    let reply = step(&mut after, call);
    if reply.0 == 0 || reply.0 == 20 {
        memory[..SIZE].copy_from_slice(&model::bytes(&after));
    }
    reply
}

/// Makes a call on a sound window. Where the answer is neither 0 nor 20, what is left of the window is of no use.
fn step(w: &mut Window, call: Call) -> Reply {
    match refused(w, call) {
        0 => {}
        answer => return (answer, 0),
    }
    let reply = effect(w, call);
    match refused_after(w, call) {
        0 => reply,
        answer => (answer, 0),
    }
}

/// The first of refusals 2 to 7, 12 and 8 that applies, 0 if none does: 12 is checked after 7.
fn refused(w: &Window, call: Call) -> u32 {
    let checks: [(u32, fn(&Window, Call) -> bool); 8] = [
        (2, no_number_of_entries),
        (3, no_change),
        (4, no_entry),
        (5, no_choice),
        (6, same_changes),
        (7, no_suitable_status),
        (12, in_another_line),
        (8, no_lock),
    ];
    checks.iter().find(|(_, applies)| applies(w, call)).map_or(0, |(answer, _)| *answer)
}

/// 2. The number of entries is not 1 to 256 (open).
fn no_number_of_entries(_: &Window, call: Call) -> bool {
    matches!(call, Open(n) if n < 1 || n > 256)
}

/// 3. A change number is 0 or above the highest given, except that initiate's parent and permit's taker may be 0.
fn no_change(w: &Window, call: Call) -> bool {
    let above = |c: u32| c > w.changes.len() as u32;
    let none = |c: u32| c == 0 || above(c);
    match call {
        Open(_) | Value(_) => false,
        Initiate(parent) => above(parent),
        Permit(giver, taker, _, _) => none(giver) || above(taker),
        Delegate(from, to, _) => none(from) || none(to),
        Depend(_, leader, follower) => none(leader) || none(follower),
        Begin(c) | Complete(c) | Commit(c) | Abort(c) | Status(c) | Parent(c) => none(c),
        Lock(c, _, _) | Read(c, _) | Write(c, _, _) => none(c),
    }
}

/// 4. An entry number is not below the number of entries, except 65,535 in delegate.
fn no_entry(w: &Window, call: Call) -> bool {
    let none = |e: u32| e >= w.entries as u32;
    match call {
        Lock(_, e, _) | Read(_, e) | Write(_, e, _) | Permit(_, _, e, _) | Value(e) => none(e),
        Delegate(_, _, e) => none(e) && e != EVERY_ENTRY,
        _ => false,
    }
}

/// 5. A mode, operations or kind is not one of its values.
fn no_choice(_: &Window, call: Call) -> bool {
    match call {
        Lock(_, _, mode) => !(1..=2).contains(&mode),
        Permit(_, _, _, operations) => !(1..=3).contains(&operations),
        Depend(kind, _, _) => !(1..=3).contains(&kind),
        _ => false,
    }
}

/// 6. The two changes of a permit, delegate or depend are the same.
fn same_changes(_: &Window, call: Call) -> bool {
    match call {
        Permit(a, b, _, _) | Delegate(a, b, _) | Depend(_, a, b) => a == b,
        _ => false,
    }
}

/// 7. A status does not suit: begin takes 1; complete, lock, read and write take 2; a parent other than 0 must be 2;
/// permit, delegate and depend take live ones, taker 0 apart.
fn no_suitable_status(w: &Window, call: Call) -> bool {
    let status = |c: u32| w.changes[c as usize - 1].0;
    let ended = |c: u32| status(c) > 3;
    match call {
        Begin(c) => status(c) != 1,
        Complete(c) | Lock(c, _, _) | Read(c, _) | Write(c, _, _) => status(c) != 2,
        Initiate(parent) => parent != 0 && status(parent) != 2,
        Permit(giver, taker, _, _) => ended(giver) || taker != 0 && ended(taker),
        Delegate(a, b, _) | Depend(_, a, b) => ended(a) || ended(b),
        _ => false,
    }
}

/// 12. The change stands in another entry's line (lock only).
fn in_another_line(w: &Window, call: Call) -> bool {
    matches!(call, Lock(c, e, _) if w.line.iter().any(|p| p.change as u32 == c && p.entry as u32 != e))
}

/// 8. A read has no lock on the entry, or a write no write lock.
fn no_lock(w: &Window, call: Call) -> bool {
    match call {
        Read(c, e) => w.held(e as u8, c as u8) == 0,
        Write(c, e, _) => w.held(e as u8, c as u8) != 2,
        _ => false,
    }
}

/// The first of refusals 9 to 11 that applies to the window that the call would leave, 0 if none does.
fn refused_after(w: &Window, call: Call) -> u32 {
    // 9. The new tie would let a path of arrows return to its group.
    if matches!(call, Depend(..)) && !w.arrows_sound() {
        return 9;
    }
    // 10. After the delegate some clashing pair would have no permit as soundness wants it.
    if matches!(call, Delegate(..)) && !w.pairs_sound() {
        return 10;
    }
    // 11. The result would exceed a largest figure.
    if w.changes.len() > 255 || w.log.len() > 2_048 || w.permits.len() > 1_024 || w.ties.len() > 512 {
        return 11;
    }
    0
}

/// What a call does and answers when no refusal applies.
fn effect(w: &mut Window, call: Call) -> Reply {
    let place = |c: u32| c as usize - 1;
    match call {
        Open(n) => *w = Window { entries: n as usize, values: vec![0; n as usize], ..Window::default() },
        Initiate(parent) => {
            w.changes.push((1, parent as u8));
            return (0, w.changes.len() as u32);
        }
        Begin(c) => w.changes[place(c)].0 = 2,
        Complete(c) => {
            w.changes[place(c)].0 = 3;
            w.line.retain(|p| p.change as u32 != c);
        }
        Lock(c, e, mode) => return lock(w, c as u8, e as u8, mode as u8),
        Read(_, e) | Value(e) => return (0, w.values[e as usize]),
        Write(c, e, value) => {
            w.log.push(Record { owner: c as u8, entry: e as u8, before: w.values[e as usize] });
            w.values[e as usize] = value;
        }
        Permit(giver, taker, e, operations) => enter_permit(w, giver as u8, taker as u8, e as u8, operations as u8),
        Delegate(from, to, e) => delegate(w, from as u8, to as u8, e),
        Depend(kind, leader, follower) => depend(w, kind as u8, leader as u8, follower as u8),
        Commit(c) => return commit(w, c as u8),
        Abort(c) => return abort(w, c as u8),
        Status(c) => return (0, w.changes[place(c)].0 as u32),
        Parent(c) => return (0, w.changes[place(c)].1 as u32),
    }
    (0, 0)
}

/// 0 if a lock held already covers the mode. Otherwise granted if each other holder whose lock clashes with the mode
/// has a permit, to this change or to anybody, that contains the mode, and no other change is first in the entry's
/// line. Otherwise 20 and a place in line, with the lowest holder that has no such permit or, where there is none, the
/// first in line. Who gets 0 leaves the line.
fn lock(w: &mut Window, c: u8, e: u8, mode: u8) -> Reply {
    if w.held(e, c) < mode {
        let clashing = w.locks.iter().filter(|l| l.0 == e && l.1 != c && (l.2 == 2 || mode == 2)).map(|l| l.1);
        let holder = clashing.filter(|holder| !w.permitted(*holder, c, e, mode)).min();
        let first = w.line.iter().find(|p| p.entry == e).map(|p| p.change).filter(|first| *first != c);
        if let Some(blocker) = holder.or(first) {
            wait(w, c, e, mode);
            return (20, blocker as u32);
        }
        raise_lock(w, e, c, mode);
    }
    w.line.retain(|p| p.change != c);
    (0, 0)
}

/// At the end of the entry's line; a repeated call keeps its place and takes the newer mode.
fn wait(w: &mut Window, c: u8, e: u8, mode: u8) {
    match w.line.iter_mut().find(|p| p.change == c) {
        Some(p) => p.mode = mode,
        None => w.line.push(Waiter { change: c, entry: e, mode }),
    }
}

/// A lock meets one already held as the greater.
fn raise_lock(w: &mut Window, e: u8, c: u8, mode: u8) {
    let greater = mode.max(w.held(e, c));
    w.locks.retain(|l| !(l.0 == e && l.1 == c));
    w.locks.push((e, c, greater));
}

/// One permit for each giver, taker and entry; a second unites the operations. Kept in rising order.
fn enter_permit(w: &mut Window, giver: u8, taker: u8, entry: u8, operations: u8) {
    match w.permits.iter_mut().find(|p| p.giver == giver && p.taker == taker && p.entry == entry) {
        Some(p) => p.operations |= operations,
        None => w.permits.push(model::Permit { entry, giver, taker, operations }),
    }
    w.permits.sort();
}

/// Moves log ownership, locks and the permits that `from` has given. A permit that would be from `to` to itself is
/// dropped. Permits received do not move.
fn delegate(w: &mut Window, from: u8, to: u8, e: u32) {
    let named = |entry: u8| e == EVERY_ENTRY || e == entry as u32;
    for r in w.log.iter_mut().filter(|r| r.owner == from && named(r.entry)) {
        r.owner = to;
    }
    let (moved, stay): (Vec<_>, Vec<_>) = w.locks.iter().copied().partition(|l| l.1 == from && named(l.0));
    w.locks = stay;
    for (entry, _, mode) in moved {
        raise_lock(w, entry, to, mode);
    }
    let (moved, stay): (Vec<_>, Vec<_>) = w.permits.iter().cloned().partition(|p| p.giver == from && named(p.entry));
    w.permits = stay;
    for p in moved.iter().filter(|p| p.taker != to) {
        enter_permit(w, to, p.taker, p.entry, p.operations);
    }
}

/// A group tie is stored with the lower number as leader. Each stands once, in rising order.
fn depend(w: &mut Window, kind: u8, leader: u8, follower: u8) {
    let (leader, follower) = if kind == 3 { (leader.min(follower), leader.max(follower)) } else { (leader, follower) };
    let tie = Tie { kind, leader, follower };
    if !w.ties.contains(&tie) {
        w.ties.push(tie);
        w.ties.sort();
    }
}

/// The least set that holds c and is closed under group ties either way and, with `falls`, under fall ties from leader
/// to follower.
fn closed(w: &Window, c: u8, falls: bool) -> BTreeSet<u8> {
    let mut set = BTreeSet::from([c]);
    loop {
        let size = set.len();
        for t in &w.ties {
            let (leads, follows) = (set.contains(&t.leader), set.contains(&t.follower));
            if t.kind == 3 && (leads || follows) || t.kind == 2 && falls && leads {
                set.extend([t.leader, t.follower]);
            }
        }
        if set.len() == size {
            return set;
        }
    }
}

fn commit(w: &mut Window, c: u8) -> Reply {
    match w.changes[c as usize - 1].0 {
        4 => return (0, 0),
        5 => return (21, 0),
        _ => {}
    }
    let group = closed(w, c, false);
    let uncompleted = group.iter().copied().filter(|m| w.changes[*m as usize - 1].0 != 3);
    let leaders = w.ties.iter().filter(|t| t.kind != 3 && group.contains(&t.follower)).map(|t| t.leader);
    match uncompleted.chain(leaders).min() {
        Some(lowest) => (20, lowest as u32),
        None => (0, end(w, &group, 4)),
    }
}

fn abort(w: &mut Window, c: u8) -> Reply {
    match w.changes[c as usize - 1].0 {
        5 => return (0, 0),
        4 => return (21, 0),
        _ => {}
    }
    let set = closed(w, c, true);
    for entry in 0..w.entries {
        withdraw(w, &set, entry as u8);
    }
    (0, end(w, &set, 5))
}

/// On each entry, the oldest record owned by the ended set gives the value stored, and every later record on that
/// entry, whoever owns it, is struck from the log.
fn withdraw(w: &mut Window, set: &BTreeSet<u8>, entry: u8) {
    let Some(oldest) = w.log.iter().position(|r| r.entry == entry && set.contains(&r.owner)) else { return };
    w.values[entry as usize] = w.log[oldest].before;
    let later = w.log.split_off(oldest);
    w.log.extend(later.into_iter().filter(|r| r.entry != entry));
}

/// An ended change loses its locks, log records, ties, permits given and received, and its place in line. How many
/// ended.
fn end(w: &mut Window, set: &BTreeSet<u8>, status: u8) -> u32 {
    for c in set {
        w.changes[*c as usize - 1].0 = status;
    }
    w.locks.retain(|l| !set.contains(&l.1));
    w.log.retain(|r| !set.contains(&r.owner));
    w.permits.retain(|p| !set.contains(&p.giver) && !set.contains(&p.taker));
    w.ties.retain(|t| !set.contains(&t.leader) && !set.contains(&t.follower));
    w.line.retain(|p| !set.contains(&p.change));
    set.len() as u32
}
