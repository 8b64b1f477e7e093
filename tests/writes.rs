//! Writes and withdrawals read off the calls made: for each entry its writes that can be withdrawn, oldest first.
use crate::model::Window;
use crate::perform::{Call, EVERY_ENTRY};
use std::collections::BTreeSet;
use Call::*;

/// How often a withdrawal met writes of changes that live on.
#[derive(Clone, Copy, Default, Debug)]
pub struct Met {
    /// Later ones on an entry, which were struck.
    pub later: usize,
    /// Earlier ones on an entry, which stayed.
    pub earlier: usize,
}

impl Met {
    pub fn add(&mut self, more: Met) {
        self.later += more.later;
        self.earlier += more.earlier;
    }
}

/// The values, and the writes on each entry; a write is its owner and the value before.
#[derive(Clone, Default)]
pub struct Writes {
    values: Vec<u32>,
    entries: Vec<Vec<(u32, u32)>>,
    met: Met,
}

impl Writes {
    /// Takes in a call answered 0 and whom it ended.
    pub fn take(&mut self, call: Call, ended: &BTreeSet<u32>) {
        match call {
            Open(entries) => {
                self.values = vec![0; entries as usize];
                self.entries = vec![vec![]; entries as usize];
            }
            Write(c, e, value) => {
                let before = std::mem::replace(&mut self.values[e as usize], value);
                self.entries[e as usize].push((c, before));
            }
            Delegate(from, to, e) => {
                let named = (0..).zip(&mut self.entries).filter(|(entry, _)| e == EVERY_ENTRY || e == *entry);
                named.flat_map(|(_, writes)| writes).filter(|w| w.0 == from).for_each(|w| w.0 = to);
            }
            Commit(_) => self.entries.iter_mut().for_each(|writes| writes.retain(|w| !ended.contains(&w.0))),
            Abort(_) => (0..self.entries.len()).for_each(|e| self.withdraw(e, ended)),
            _ => {}
        }
    }

    /// The oldest write of those who ended gives the value; it and all that came after it are gone.
    fn withdraw(&mut self, e: usize, ended: &BTreeSet<u32>) {
        let writes = &mut self.entries[e];
        let Some(oldest) = writes.iter().position(|w| ended.contains(&w.0)) else { return };
        self.values[e] = writes[oldest].1;
        self.met.later += usize::from(writes[oldest..].iter().any(|w| !ended.contains(&w.0)));
        self.met.earlier += usize::from(oldest > 0);
        writes.truncate(oldest);
    }

    /// The window's values, and of each entry the log records, are these.
    pub fn judge(&self, after: &Window) -> Result<(), String> {
        if let Some(e) = (0..self.values.len()).find(|e| after.values.get(*e) != self.values.get(*e)) {
            return Err(format!("entry {e} is {:?}, not {}", after.values.get(e), self.values[e]));
        }
        let mut rest: Vec<_> = self.entries.iter().map(|writes| writes.iter()).collect();
        for r in &after.log {
            if rest[r.entry as usize].next() != Some(&(r.owner as u32, r.before)) {
                return Err(format!("entry {} has a log record of {} that the calls do not give", r.entry, r.owner));
            }
        }
        match rest.iter_mut().position(|writes| writes.next().is_some()) {
            Some(e) => Err(format!("entry {e} lacks a log record")),
            None => Ok(()),
        }
    }

    pub fn met(&self) -> Met {
        self.met
    }
}
