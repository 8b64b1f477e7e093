//! A busy window: 256 entries, 100 live changes, 500 locks, 300 permits, 100 ties, 1,000 log records.
use crate::model::{Permit, Record, Tie, Window};

const GIVEN: u8 = 160;

/// The numbers of the live changes: five of every eight given.
fn live() -> Vec<u8> {
    (1..=GIVEN).filter(|c| ![3, 5, 6].contains(&(c % 8))).collect()
}

/// Of ten live changes one is initiated and one completed; the first two, which are a group, are completed too.
fn status(c: u8) -> u8 {
    match live().iter().position(|l| *l == c) {
        Some(i) if i % 10 == 9 => 1,
        Some(i) if i < 2 || i % 10 == 8 => 3,
        Some(_) => 2,
        None if c % 8 == 6 => 5,
        None => 4,
    }
}

/// Fills the entries; each lock goes to the next of the changes that have begun, round and round.
struct Filler {
    begun: Vec<u8>,
    next: usize,
    window: Window,
}

impl Filler {
    fn begun(&self, i: usize) -> u8 {
        self.begun[i % self.begun.len()]
    }

    fn lock(&mut self, entry: u8, mode: u8) -> u8 {
        let change = self.begun(self.next);
        self.next += 1;
        self.window.locks.push((entry, change, mode));
        change
    }

    fn permit(&mut self, entry: u8, giver: u8, taker: u8, operations: u8) {
        self.window.permits.push(Permit { entry, giver, taker, operations });
    }

    /// One writer, who has permitted one or two others that have not come yet.
    fn one_writer(&mut self, entry: u8, permits: usize) {
        let writer = self.lock(entry, 2);
        for i in 0..permits {
            let taker = self.begun(self.next + 2 + 2 * i);
            self.permit(entry, writer, taker, entry % 3 + 1);
        }
    }

    fn readers(&mut self, entry: u8) {
        for _ in 0..3 {
            self.lock(entry, 1);
        }
    }

    /// A writer and three readers, each permitted by name.
    fn named_readers(&mut self, entry: u8) {
        let writer = self.lock(entry, 2);
        for _ in 0..3 {
            let reader = self.lock(entry, 1);
            self.permit(entry, writer, reader, 1);
        }
    }

    /// A writer who lets anybody read, and three readers.
    fn any_readers(&mut self, entry: u8) {
        let writer = self.lock(entry, 2);
        self.permit(entry, writer, 0, 1);
        self.readers(entry);
    }

    /// A writer who lets anybody in, a second writer, and two readers whom the second permits.
    fn two_writers(&mut self, entry: u8) {
        let first = self.lock(entry, 2);
        self.permit(entry, first, 0, 3);
        let second = self.lock(entry, 2);
        for _ in 0..2 {
            let reader = self.lock(entry, 1);
            self.permit(entry, second, reader, 1);
        }
    }

    /// What an entry has hangs on its number times 89, which spreads the kinds. Eleven have nothing.
    fn fill(&mut self, entry: u8) {
        match entry.wrapping_mul(89) {
            0..=54 => self.one_writer(entry, 2),
            55..=139 => self.one_writer(entry, 1),
            140..=199 => self.readers(entry),
            200..=219 => self.named_readers(entry),
            220..=234 => self.any_readers(entry),
            235..=244 => self.two_writers(entry),
            _ => {}
        }
    }
}

/// Arrows go from lower numbers to higher ones; the groups are pairs of neighbours.
fn ties() -> Vec<Tie> {
    let live = live();
    let tie = |kind: u8, i: usize, j: usize| Tie { kind, leader: live[i], follower: live[j] };
    let waits = (0..50).map(|i| tie(1, i, i + 7));
    let falls = (0..25).map(|i| tie(2, 3 * i, 3 * i + 11));
    let groups = (0..25).map(|i| tie(3, 4 * i, 4 * i + 1));
    waits.chain(falls).chain(groups).collect()
}

/// The writers' records, in turn.
fn log(w: &Window) -> Vec<Record> {
    let writers: Vec<(u8, u8)> = w.locks.iter().filter(|l| l.2 == 2).map(|l| (l.0, l.1)).collect();
    let record = |i: usize| {
        let (entry, owner) = writers[i * 31 % writers.len()];
        Record { owner, entry, before: i as u32 * 3 }
    };
    (0..1_000).map(record).collect()
}

pub fn busy() -> Window {
    let changes = (1..=GIVEN).map(|c| (status(c), if c % 4 == 1 { c / 2 } else { 0 })).collect();
    let begun = live().into_iter().filter(|c| status(*c) != 1).collect();
    let values = (0..256).map(|e| e * 1_000 + 7).collect();
    let window = Window { entries: 256, values, changes, ties: ties(), ..Window::default() };
    let mut filler = Filler { begun, next: 0, window };
    (0..=255).for_each(|entry| filler.fill(entry));
    let mut w = filler.window;
    w.permits.sort();
    w.log = log(&w);
    let figures = [w.entries, live().len(), w.locks.len(), w.permits.len(), w.ties.len(), w.log.len()];
    assert_eq!(figures, [256, 100, 500, 300, 100, 1_000]);
    w
}
