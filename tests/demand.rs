//! Demand 3's words, read off the calls made (docs/RULES.md, "Lists of calls"), those of the lines ("What the lines are
//! held to"), and a few more that can be read off them.
use crate::model::Window;
use crate::perform::{Call, Reply, EVERY_ENTRY};
use crate::writes::{Met, Writes};
use std::collections::{BTreeMap, BTreeSet};
use Call::*;

/// How often what is held of locks and lines was put to the test.
#[derive(Clone, Copy, Default, Debug)]
pub struct Turns {
    /// One was granted while others waited.
    pub granted: usize,
    /// The first in line had to get 0.
    pub served: usize,
    /// A blocked lock had to name a holder above one that clashes and has permitted.
    pub above: usize,
    /// A blocked lock had to name a holder, and not the other change that was first in line.
    pub held: usize,
    /// A blocked lock had to name the first in line.
    pub behind: usize,
}

/// What the calls since the last open answered 0 say. Changes and entries are numbers as the calls name them.
#[derive(Clone, Default)]
pub struct Story {
    calls: usize,
    entries: u32,
    /// Made ties: kind, leader, follower.
    ties: BTreeSet<(u32, u32, u32)>,
    /// The status of change c at c - 1, as the window has it; status calls are held to it.
    status: Vec<u32>,
    /// The call that ended a change.
    ended: BTreeMap<u32, usize>,
    /// The book: (entry, change) to the mode held; (entry, giver, taker) to the operations.
    locks: BTreeMap<(u32, u32), u32>,
    permits: BTreeMap<(u32, u32, u32), u32>,
    /// Entries that a permit was ever given for.
    shared: BTreeSet<u32>,
    /// Writes answered 0: entry, value, owner at the end of that owner's life or now.
    writes: Vec<(u32, u32, u32)>,
    /// (entry, change) to the call since which the change waits there.
    waits: BTreeMap<(u32, u32), usize>,
    turns: Turns,
    /// Those that can be withdrawn.
    logged: Writes,
}

fn must(holds: bool, words: impl Fn() -> String) -> Result<(), String> {
    if holds {
        Ok(())
    } else {
        Err(words())
    }
}

impl Turns {
    pub fn add(&mut self, more: Turns) {
        self.granted += more.granted;
        self.served += more.served;
        self.above += more.above;
        self.held += more.held;
        self.behind += more.behind;
    }

    pub fn least(&self) -> usize {
        [self.granted, self.served, self.above, self.held, self.behind].into_iter().min().unwrap()
    }
}

impl Story {
    /// Takes in a call and its reply, then the window after it, and judges the whole.
    pub fn tell(&mut self, call: Call, (answer, number): Reply, after: &Window) -> Result<(), String> {
        self.calls += 1;
        self.judge_turn(call, answer)?;
        self.judge_blocked(call, (answer, number))?;
        if answer == 0 {
            self.enter(call);
        }
        let fresh = self.take_statuses(call, answer, after)?;
        self.take_turns(call, answer);
        if answer == 0 {
            self.logged.take(call, &fresh);
        }
        self.judge_number(call, (answer, number), &fresh)?;
        self.judge_ends(call, &fresh)?;
        self.judge_ties()?;
        self.judge_book(after)?;
        self.judge_values(after)?;
        self.logged.judge(after)
    }

    /// The book's step for a call answered 0.
    fn enter(&mut self, call: Call) {
        match call {
            Open(entries) => self.entries = entries,
            Lock(c, e, mode) => self.raise(e, c, mode),
            Write(c, e, value) => self.writes.push((e, value, c)),
            Permit(giver, taker, e, operations) => {
                self.shared.insert(e);
                *self.permits.entry((e, giver, taker)).or_default() |= operations;
            }
            Delegate(from, to, e) => self.hand_over(from, to, |entry| e == EVERY_ENTRY || e == entry),
            Depend(kind, leader, follower) => {
                self.ties.insert((kind, leader, follower));
            }
            _ => {}
        }
    }

    fn raise(&mut self, e: u32, c: u32, mode: u32) {
        let held = self.locks.entry((e, c)).or_default();
        *held = mode.max(*held);
    }

    fn hand_over(&mut self, from: u32, to: u32, named: impl Fn(u32) -> bool) {
        let locks = std::mem::take(&mut self.locks);
        for ((e, c), mode) in locks {
            self.raise(e, if c == from && named(e) { to } else { c }, mode);
        }
        let permits = std::mem::take(&mut self.permits);
        for ((e, giver, taker), operations) in permits {
            let giver = if giver == from && named(e) { to } else { giver };
            if giver != taker {
                *self.permits.entry((e, giver, taker)).or_default() |= operations;
            }
        }
        for w in self.writes.iter_mut().filter(|w| w.2 == from && named(w.0)) {
            w.2 = to;
        }
    }

    /// Notes the statuses after the call; those that it ended. An ended change leaves the book, its end is for good.
    fn take_statuses(&mut self, call: Call, answer: u32, after: &Window) -> Result<BTreeSet<u32>, String> {
        let now: Vec<u32> = after.changes.iter().map(|c| c.0 as u32).collect();
        let given = self.status.len() + (answer == 0 && matches!(call, Initiate(_))) as usize;
        must(now.len() == given, || format!("{} changes, {given} were initiated", now.len()))?;
        let mut fresh = BTreeSet::new();
        for (c, status) in (1..).zip(&now) {
            let before = self.status.get(c as usize - 1).copied().unwrap_or(0);
            let due = match call {
                _ if answer != 0 => before,
                Initiate(_) if before == 0 => 1,
                Begin(b) if b == c => 2,
                Complete(b) if b == c => 3,
                Commit(_) if before == 3 && *status == 4 => 4,
                Abort(_) if before < 4 && *status == 5 => 5,
                _ => before,
            };
            must(*status == due, || format!("change {c} goes from status {before} to {status}"))?;
            if before < 4 && *status > 3 {
                fresh.insert(c);
                self.ended.insert(c, self.calls);
            }
        }
        self.status = now;
        if !fresh.is_empty() {
            self.locks.retain(|(_, c), _| !fresh.contains(c));
            self.permits.retain(|(_, giver, taker), _| !fresh.contains(giver) && !fresh.contains(taker));
        }
        Ok(fresh)
    }

    /// Second numbers that the calls before fix.
    fn judge_number(&self, call: Call, (answer, number): Reply, fresh: &BTreeSet<u32>) -> Result<(), String> {
        let due = match (call, answer) {
            (Commit(_) | Abort(_), 0) => fresh.len() as u32,
            (Initiate(_), 0) => self.status.len() as u32,
            (Status(c), 0) => self.status[c as usize - 1],
            (Read(..) | Value(_) | Parent(_), 0) | (Commit(_) | Lock(..), 20) => return Ok(()),
            _ => 0,
        };
        must(number == due, || format!("the second number is {number}, not {due}"))
    }

    /// The changes that made ties between some changes lead to from c: group ties either way and, with `falls`, fall
    /// ties from leader to follower.
    fn reached(&self, c: u32, among: &BTreeSet<u32>, falls: bool) -> BTreeSet<u32> {
        let mut set = BTreeSet::from([c]);
        loop {
            let size = set.len();
            for (kind, a, b) in self.ties.iter().filter(|t| among.contains(&t.1) && among.contains(&t.2)) {
                if *kind == 3 && set.contains(b) {
                    set.insert(*a);
                }
                if (*kind == 3 || *kind == 2 && falls) && set.contains(a) {
                    set.insert(*b);
                }
            }
            if set.len() == size {
                return set;
            }
        }
    }

    /// A commit ends the changes grouped with its own, an abort those that must fall with it too; nobody else.
    fn judge_ends(&self, call: Call, fresh: &BTreeSet<u32>) -> Result<(), String> {
        let (c, falls) = match call {
            Commit(c) if !fresh.is_empty() => (c, false),
            Abort(c) if !fresh.is_empty() => (c, true),
            _ => return Ok(()),
        };
        let mut among = self.live();
        among.extend(fresh);
        let due = self.reached(c, &among, falls);
        must(*fresh == due, || format!("{fresh:?} ended, not {due:?}"))
    }

    /// Grouped changes end together and alike; a fall follower commits after its leader has, and falls with it; a wait
    /// follower commits after its leader has ended.
    fn judge_ties(&self) -> Result<(), String> {
        let end = |c: &u32| (self.status[*c as usize - 1], self.ended.get(c).copied().unwrap_or(usize::MAX));
        for (kind, leader, follower) in &self.ties {
            let ((led, led_at), (followed, followed_at)) = (end(leader), end(follower));
            let fine = match kind {
                3 => led_at == followed_at && (led < 4 && followed < 4 || led == followed),
                2 => {
                    (followed != 4 || led == 4 && led_at < followed_at)
                        && (led != 5 || followed == 5 && followed_at <= led_at)
                }
                _ => followed != 4 || led_at < followed_at,
            };
            must(fine, || format!("tie {kind} of {leader} and {follower}: statuses {led} and {followed}"))?;
        }
        Ok(())
    }

    /// A permit in the book, to the taker or to anybody, contains the mode.
    fn contains(&self, e: u32, giver: u32, taker: u32, mode: u32) -> bool {
        let operations = |taker: u32| self.permits.get(&(e, giver, taker)).copied().unwrap_or(0);
        [operations(taker), operations(0)].iter().any(|o| o & mode != 0)
    }

    /// No later comer on the entry is granted ahead of an earlier one still in line, a covered mode being no grant,
    /// and the first in line gets 0 if every holder that then clashes permits it.
    fn judge_turn(&mut self, call: Call, answer: u32) -> Result<(), String> {
        let Lock(c, e, mode) = call else { return Ok(()) };
        let since = self.waits.get(&(e, c));
        let here = (e, 0)..=(e, u32::MAX);
        let others: Vec<usize> =
            self.waits.range(here.clone()).filter(|((_, d), _)| *d != c).map(|(_, since)| *since).collect();
        let first = others.iter().all(|later| since.is_some_and(|s| s < later));
        let covered = self.locks.get(&(e, c)).is_some_and(|held| *held >= mode);
        must(answer != 0 || covered || first, || format!("{c} is granted entry {e} ahead of one that came before"))?;
        let mut holders = self.locks.range(here).filter(|((_, d), held)| *d != c && (**held == 2 || mode == 2));
        let clear = holders.all(|((_, d), _)| self.contains(e, *d, c, mode));
        let served = since.is_some() && first && clear && (1..=2).contains(&mode);
        self.turns.granted += usize::from(answer == 0 && !covered && !others.is_empty());
        self.turns.served += usize::from(served);
        must(!served || answer == 0, || format!("{c} is first in the line of entry {e} and not granted"))
    }

    /// A blocked lock names the lowest holder that clashes and has not permitted; where there is none, the first in
    /// line.
    fn judge_blocked(&mut self, call: Call, (answer, number): Reply) -> Result<(), String> {
        let (Lock(c, e, mode), 20) = (call, answer) else { return Ok(()) };
        let here = (e, 0)..=(e, u32::MAX);
        let clashing = |((_, d), held): &(&(u32, u32), &u32)| *d != c && (**held == 2 || mode == 2);
        let holders: Vec<u32> = self.locks.range(here.clone()).filter(clashing).map(|((_, d), _)| *d).collect();
        let holder = holders.iter().copied().find(|d| !self.contains(e, *d, c, mode));
        let first = self.waits.range(here).min_by_key(|(_, since)| **since).map(|((_, d), _)| *d);
        self.turns.above += usize::from(holder.is_some_and(|d| holders[0] < d));
        self.turns.held += usize::from(holder.is_some() && first.is_some_and(|d| d != c && Some(d) != holder));
        self.turns.behind += usize::from(holder.is_none());
        let due = holder.or(first);
        must(due == Some(number), || format!("the lock of {c} on {e} names {number}, not {due:?}"))
    }

    pub fn turns(&self) -> Turns {
        self.turns
    }

    pub fn met(&self) -> Met {
        self.logged.met()
    }

    /// Who waits since which call: from a lock answered 20 on, until one answered 0, while it runs.
    fn take_turns(&mut self, call: Call, answer: u32) {
        if let Lock(c, e, _) = call {
            match answer {
                0 => drop(self.waits.remove(&(e, c))),
                20 => drop(self.waits.entry((e, c)).or_insert(self.calls)),
                _ => {}
            }
        }
        let status = &self.status;
        self.waits.retain(|(_, c), _| status[*c as usize - 1] == 2);
    }

    /// Locks in the book that clash have their permit, and the book is what the window records.
    fn judge_book(&self, after: &Window) -> Result<(), String> {
        for ((e, a), held) in &self.locks {
            for ((_, b), other) in
                self.locks.range((*e, *a + 1)..(*e + 1, 0)).filter(|(_, other)| *held == 2 || **other == 2)
            {
                let fine = self.contains(*e, *a, *b, *other) || self.contains(*e, *b, *a, *held);
                must(fine, || format!("{a} and {b} clash on entry {e} without a permit"))?;
            }
        }
        let mut locks: Vec<_> = after.locks.iter().map(|l| ((l.0 as u32, l.1 as u32), l.2 as u32)).collect();
        locks.sort();
        must(locks.iter().copied().eq(self.locks.iter().map(|(k, v)| (*k, *v))), || {
            "the window's locks are not the book's".into()
        })?;
        let permits =
            after.permits.iter().map(|p| ((p.entry as u32, p.giver as u32, p.taker as u32), p.operations as u32));
        must(permits.eq(self.permits.iter().map(|(k, v)| (*k, *v))), || {
            "the window's permits are not the book's".into()
        })
    }

    /// An entry that nobody ever gave a permit for has the last value written by a change that is not aborted.
    fn judge_values(&self, after: &Window) -> Result<(), String> {
        let mut due = vec![0; self.entries as usize];
        for (e, value, owner) in &self.writes {
            if self.status[*owner as usize - 1] != 5 {
                due[*e as usize] = *value;
            }
        }
        must(after.values.len() == due.len(), || format!("{} entries, not {}", after.values.len(), due.len()))?;
        for (e, (value, due)) in (0..).zip(after.values.iter().zip(&due)).filter(|(e, _)| !self.shared.contains(e)) {
            must(value == due, || format!("entry {e} is {value}, not {due}"))?;
        }
        Ok(())
    }

    pub fn status(&self) -> &[u32] {
        &self.status
    }

    pub fn live(&self) -> BTreeSet<u32> {
        (1..).zip(&self.status).filter(|(_, s)| **s < 4).map(|(c, _)| c).collect()
    }

    /// Live changes that are grouped count as one.
    pub fn live_groups(&self) -> usize {
        let mut live = self.live();
        let mut groups = 0;
        while let Some(c) = live.first().copied() {
            for member in self.reached(c, &live, false) {
                live.remove(&member);
            }
            groups += 1;
        }
        groups
    }
}
