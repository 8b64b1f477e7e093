//! A window and its soundness, written from docs/RULES.md; its bytes, from docs/WINDOW.md.
use std::collections::HashSet;

pub const SIZE: usize = 37_952;
/// The figure in the header that says how many stand in line.
pub const WAITERS: usize = 10;
pub const VALUES: usize = 64;
pub const CHANGES: usize = 1_088;
pub const LINE: usize = 2_112;
pub const LOCKS: usize = 3_136;
pub const PERMITS: usize = 19_520;
pub const TIES: usize = 23_616;
pub const LOG: usize = 25_664;

static ZEROS: [u8; SIZE] = [0; SIZE];

#[derive(Clone, PartialEq, Eq, PartialOrd, Ord)]
pub struct Permit {
    pub entry: u8,
    pub giver: u8,
    pub taker: u8,
    pub operations: u8,
}

#[derive(Clone, PartialEq, Eq, PartialOrd, Ord)]
pub struct Tie {
    pub kind: u8,
    pub leader: u8,
    pub follower: u8,
}

#[derive(Clone)]
pub struct Record {
    pub owner: u8,
    pub entry: u8,
    pub before: u32,
}

/// Who stands in an entry's line, for which mode.
#[derive(Clone)]
pub struct Waiter {
    pub change: u8,
    pub entry: u8,
    pub mode: u8,
}

/// Entry, change, mode.
pub type Lock = (u8, u8, u8);

/// A window. A change c has its status and parent at c - 1.
#[derive(Clone, Default)]
pub struct Window {
    pub entries: usize,
    pub values: Vec<u32>,
    pub changes: Vec<(u8, u8)>,
    pub locks: Vec<Lock>,
    pub log: Vec<Record>,
    pub permits: Vec<Permit>,
    pub ties: Vec<Tie>,
    pub line: Vec<Waiter>,
}

fn put16(m: &mut [u8], at: usize, x: usize) {
    m[at..at + 2].copy_from_slice(&(x as u16).to_le_bytes());
}

fn get16(m: &[u8], at: usize) -> usize {
    u16::from_le_bytes([m[at], m[at + 1]]) as usize
}

/// The bytes of a window.
pub fn bytes(w: &Window) -> Vec<u8> {
    let mut m = vec![0; SIZE];
    let figures = [w.entries, w.changes.len(), w.log.len(), w.permits.len(), w.ties.len(), w.line.len()];
    for (i, f) in figures.iter().enumerate() {
        put16(&mut m, 2 * i, *f);
    }
    for (e, v) in w.values.iter().enumerate() {
        m[VALUES + 4 * e..VALUES + 4 * e + 4].copy_from_slice(&v.to_le_bytes());
    }
    for (i, (status, parent)) in w.changes.iter().enumerate() {
        m[CHANGES + 4 * (i + 1)] = *status;
        m[CHANGES + 4 * (i + 1) + 1] = *parent;
    }
    for (i, p) in w.line.iter().enumerate() {
        m[LINE + 4 * i..LINE + 4 * i + 3].copy_from_slice(&[p.change, p.entry, p.mode]);
    }
    for (e, c, mode) in &w.locks {
        m[LOCKS + 64 * *e as usize + 32 * (*mode as usize - 1) + *c as usize / 8] |= 1 << (c % 8);
    }
    for (i, p) in w.permits.iter().enumerate() {
        m[PERMITS + 4 * i..PERMITS + 4 * i + 4].copy_from_slice(&[p.entry, p.giver, p.taker, p.operations]);
    }
    for (i, t) in w.ties.iter().enumerate() {
        m[TIES + 4 * i..TIES + 4 * i + 3].copy_from_slice(&[t.kind, t.leader, t.follower]);
    }
    for (i, r) in w.log.iter().enumerate() {
        let at = LOG + 6 * i;
        m[at] = r.owner;
        m[at + 1] = r.entry;
        m[at + 2..at + 6].copy_from_slice(&r.before.to_le_bytes());
    }
    m
}

fn zero(m: &[u8], from: usize, to: usize) -> bool {
    m[from..to] == ZEROS[from..to]
}

/// The six figures, if each is in its range and every byte past what they count is 0.
fn figures(m: &[u8]) -> Option<[usize; 6]> {
    let figures = [0, 2, 4, 6, 8, 10].map(|at| get16(m, at));
    let [entries, given, records, permits, ties, waiters] = figures;
    let fit = given <= 255 && records <= 2_048 && permits <= 1_024 && ties <= 512 && waiters <= 255;
    if entries < 1 || entries > 256 || !fit {
        return None;
    }
    let zero = |from: usize, to: usize| zero(m, from, to);
    if !(zero(12, VALUES)
        && zero(VALUES + 4 * entries, CHANGES + 4)
        && zero(CHANGES + 4 * (given + 1), LINE)
        && zero(LINE + 4 * waiters, LOCKS)
        && zero(LOCKS + 64 * entries, PERMITS)
        && zero(PERMITS + 4 * permits, TIES)
        && zero(TIES + 4 * ties, LOG)
        && zero(LOG + 6 * records, SIZE))
    {
        return None;
    }
    Some(figures)
}

fn locks(m: &[u8], entries: usize) -> Vec<Lock> {
    let mut locks = vec![];
    for e in (0..entries).filter(|e| !zero(m, LOCKS + 64 * e, LOCKS + 64 * e + 64)) {
        for (i, byte) in m[LOCKS + 64 * e..LOCKS + 64 * e + 64].iter().enumerate() {
            for bit in (0..8).filter(|bit| byte >> bit & 1 == 1) {
                locks.push((e as u8, (i % 32 * 8 + bit) as u8, (i / 32 + 1) as u8));
            }
        }
    }
    locks
}

/// The window that bytes say, if every figure is in its range and every unused byte is 0.
/// A bit that is no change's is read as a lock, which `locks_sound` refuses.
pub fn window(m: &[u8]) -> Option<Window> {
    if m.len() < SIZE {
        return None;
    }
    let m = &m[..SIZE];
    let [entries, given, records, permits, ties, waiters] = figures(m)?;
    let mut w = Window { entries, ..Window::default() };
    for e in 0..entries {
        let at = VALUES + 4 * e;
        w.values.push(u32::from_le_bytes([m[at], m[at + 1], m[at + 2], m[at + 3]]));
    }
    for c in 1..=given {
        let at = CHANGES + 4 * c;
        if !zero(m, at + 2, at + 4) {
            return None;
        }
        w.changes.push((m[at], m[at + 1]));
    }
    for p in m[LINE..LINE + 4 * waiters].chunks(4) {
        if p[3] != 0 {
            return None;
        }
        w.line.push(Waiter { change: p[0], entry: p[1], mode: p[2] });
    }
    w.locks = locks(m, entries);
    for p in m[PERMITS..PERMITS + 4 * permits].chunks(4) {
        w.permits.push(Permit { entry: p[0], giver: p[1], taker: p[2], operations: p[3] });
    }
    for t in m[TIES..TIES + 4 * ties].chunks(4) {
        if t[3] != 0 {
            return None;
        }
        w.ties.push(Tie { kind: t[0], leader: t[1], follower: t[2] });
    }
    for r in m[LOG..LOG + 6 * records].chunks(6) {
        w.log.push(Record { owner: r[0], entry: r[1], before: u32::from_le_bytes([r[2], r[3], r[4], r[5]]) });
    }
    Some(w)
}

impl Window {
    fn live(&self, c: u8) -> bool {
        c >= 1 && (c as usize) <= self.changes.len() && (1..=3).contains(&self.changes[c as usize - 1].0)
    }

    pub fn held(&self, e: u8, c: u8) -> u8 {
        self.locks.iter().filter(|l| l.0 == e && l.1 == c).map(|l| l.2).max().unwrap_or(0)
    }

    fn changes_sound(&self) -> bool {
        let fine = |(i, (status, parent)): (usize, &(u8, u8))| (1..=5).contains(status) && (*parent as usize) < i + 1;
        self.changes.iter().enumerate().all(fine)
    }

    /// One lock for an entry and a change, of a live change.
    fn locks_sound(&self) -> bool {
        let mut seen: Vec<(u8, u8)> = self.locks.iter().map(|l| (l.0, l.1)).collect();
        seen.sort();
        seen.windows(2).all(|p| p[0] != p[1]) && self.locks.iter().all(|l| self.live(l.1))
    }

    fn log_sound(&self) -> bool {
        let written: HashSet<(u8, u8)> = self.locks.iter().filter(|l| l.2 == 2).map(|l| (l.0, l.1)).collect();
        let fine = |r: &Record| (r.entry as usize) < self.entries && written.contains(&(r.entry, r.owner));
        self.log.iter().all(|r| self.live(r.owner) && fine(r))
    }

    fn permits_sound(&self) -> bool {
        let fine = |p: &Permit| {
            self.live(p.giver)
                && (p.taker == 0 || self.live(p.taker))
                && p.giver != p.taker
                && (p.entry as usize) < self.entries
                && (1..=3).contains(&p.operations)
        };
        let key = |p: &Permit| (p.entry, p.giver, p.taker);
        self.permits.iter().all(fine) && self.permits.windows(2).all(|p| key(&p[0]) < key(&p[1]))
    }

    fn ties_sound(&self) -> bool {
        let fine = |t: &Tie| {
            (1..=3).contains(&t.kind)
                && self.live(t.leader)
                && self.live(t.follower)
                && t.leader != t.follower
                && (t.kind != 3 || t.leader < t.follower)
        };
        self.ties.iter().all(fine) && self.ties.windows(2).all(|t| t[0] < t[1])
    }

    /// Each change in one line at most, and running.
    fn line_sound(&self) -> bool {
        let runs = |c: u8| c >= 1 && (c as usize) <= self.changes.len() && self.changes[c as usize - 1].0 == 2;
        let fine = |p: &Waiter| runs(p.change) && (p.entry as usize) < self.entries && (1..=2).contains(&p.mode);
        let changes: HashSet<u8> = self.line.iter().map(|p| p.change).collect();
        self.line.iter().all(fine) && changes.len() == self.line.len()
    }

    /// No path of arrows returns to its group: a depth-first walk over groups.
    pub fn arrows_sound(&self) -> bool {
        let mut group: Vec<usize> = (0..256).collect();
        for t in self.ties.iter().filter(|t| t.kind == 3) {
            let (a, b) = (group[t.leader as usize], group[t.follower as usize]);
            group.iter_mut().filter(|g| **g == b).for_each(|g| *g = a);
        }
        let mut to = vec![vec![]; 256];
        for t in self.ties.iter().filter(|t| t.kind != 3) {
            to[group[t.leader as usize]].push(group[t.follower as usize]);
        }
        fn walk(g: usize, to: &Vec<Vec<usize>>, mark: &mut Vec<u8>) -> bool {
            if mark[g] > 0 {
                return mark[g] == 2;
            }
            mark[g] = 1;
            let fine = to[g].iter().all(|h| walk(*h, to, mark));
            mark[g] = 2;
            fine
        }
        let mut mark = vec![0; 256];
        (0..256).all(|g| walk(g, &to, &mut mark))
    }

    pub fn permitted(&self, giver: u8, taker: u8, e: u8, mode: u8) -> bool {
        let contains = |operations: u8| operations == 3 || operations == mode;
        let mine = |p: &&Permit| p.entry == e && p.giver == giver;
        self.permits.iter().filter(mine).any(|p| (p.taker == taker || p.taker == 0) && contains(p.operations))
    }

    /// Each clashing pair has a permit from one of the two to the other, or to anybody, that contains the taker's held mode.
    pub fn pairs_sound(&self) -> bool {
        let fine = |a: &Lock, b: &Lock| {
            let clash = a.2 == 2 || b.2 == 2;
            !clash || self.permitted(a.1, b.1, a.0, b.2) || self.permitted(b.1, a.1, a.0, a.2)
        };
        let mut locks = self.locks.clone();
        locks.sort();
        let mut entries = locks.chunk_by(|a, b| a.0 == b.0);
        entries.all(|here| here.iter().enumerate().all(|(i, a)| here[i + 1..].iter().all(|b| fine(a, b))))
    }

    pub fn sound(&self) -> bool {
        self.changes_sound()
            && self.locks_sound()
            && self.log_sound()
            && self.permits_sound()
            && self.ties_sound()
            && self.line_sound()
            && self.arrows_sound()
            && self.pairs_sound()
    }
}

/// Whether memory begins with a sound window.
pub fn sound(m: &[u8]) -> bool {
    window(m).is_some_and(|w| w.sound())
}
