//! Times of a case's jobs, taken in turn: the shortest of many samples of each, in several sweeps over all cases.
use crate::cases::{Case, Kind};
use crate::library;
use crate::model::{self, SIZE};
use crate::perform::{self, Call, Reply};
use std::hint::black_box;
use std::time::{Duration, Instant};

extern "C" {
    fn pass(bytes: *const u8, length: usize) -> u8;
    fn plain_pass(bytes: *const u8, length: usize) -> u8;
    fn memchr(bytes: *const u8, byte: i32, length: usize) -> *const u8;
    fn probe_sound(memory: *const u8, length: usize) -> bool;
    fn effect_lock(window: *mut u8, change: u32, entry: u32, mode: u32);
    fn effect_write(window: *mut u8, change: u32, entry: u32, value: u32);
    fn effect_commit(window: *mut u8, change: u32) -> u32;
}

/// How long a sample takes at least, unless one turn takes longer.
const SAMPLE: Duration = Duration::from_micros(20);
/// How long the samples of a case take together in one sweep over all cases, about.
const SWEEP: Duration = Duration::from_millis(40);
const BLOCK: usize = 64;

#[repr(align(64))]
#[derive(Clone)]
struct Memory([u8; SIZE]);

#[derive(Clone, Copy)]
enum Job {
    Pass,
    Make,
    Restore,
    PlainPass,
    Memchr,
    Effect,
    Model,
}
use Job::*;

const JOBS: [Job; 7] = [Pass, Make, Restore, PlainPass, Memchr, Effect, Model];

/// Nanoseconds of one turn, the restoring taken off.
pub struct Times {
    pub pass: f64,
    pub plain: f64,
    pub memchr: f64,
    pub call: f64,
    pub model: f64,
    pub effect: Option<f64>,
}

/// Where one case is timed: the lent memory, what it held before, zeros for memchr, the blocks that the call changes
/// (none for open, which needs no restoring), and whether the effect is written by hand too.
struct Place {
    kind: Kind,
    memory: Box<Memory>,
    before: Box<Memory>,
    zeros: Box<Memory>,
    changed: Vec<usize>,
    by_hand: bool,
}

/// What the library answers; the soundness check's verdict as an answer.
fn make(memory: &mut [u8], kind: Kind) -> Reply {
    match kind {
        // The function reads the lent bytes alone.
        Kind::Check => (!unsafe { probe_sound(memory.as_ptr(), memory.len()) } as u32, 0),
        Kind::Done(call) | Kind::Blocked(call) | Kind::Refused(call) => library::make(memory, call),
    }
}

/// What the model answers, with its own validation of the bytes.
fn model(memory: &mut [u8], kind: Kind) -> Reply {
    match kind {
        Kind::Check => (!model::sound(memory) as u32, 0),
        Kind::Done(call) | Kind::Blocked(call) | Kind::Refused(call) => perform::perform(memory, call),
    }
}

/// The effect written by hand, where there is one.
fn effect(memory: &mut [u8], kind: Kind) -> Option<Reply> {
    let m = memory.as_mut_ptr();
    // The functions keep to a window's bytes, if it is sound and the call is answered 0.
    unsafe {
        match kind {
            Kind::Done(Call::Lock(change, entry, mode)) => effect_lock(m, change, entry, mode),
            Kind::Done(Call::Write(change, entry, value)) => effect_write(m, change, entry, value),
            Kind::Done(Call::Commit(change)) => return Some((0, effect_commit(m, change))),
            _ => return None,
        }
    }
    Some((0, 0))
}

/// Whether the call has to change a byte.
fn writes(kind: Kind) -> bool {
    use perform::Call::{Parent, Read, Status, Value};
    match kind {
        Kind::Done(call) => !matches!(call, Read(..) | Status(_) | Parent(_) | Value(_)),
        Kind::Blocked(_) => true,
        Kind::Check | Kind::Refused(_) => false,
    }
}

impl Place {
    /// The case's window; library, model and effect leave the same bytes there and answer the same.
    fn new(case: &Case) -> Place {
        let name = case.name();
        let mut before = Box::new(Memory([0; SIZE]));
        before.0.copy_from_slice(&model::bytes(&case.window));
        assert!(model::sound(&before.0), "{name}: the window is not sound");
        let mut after = before.clone();
        let reply = make(&mut after.0, case.kind);
        let due = match case.kind {
            Kind::Check | Kind::Done(_) => 0,
            Kind::Blocked(_) => 20,
            Kind::Refused(_) => 8,
        };
        assert_eq!(reply.0, due, "{name}: the answer");
        assert_eq!(after.0 != before.0, writes(case.kind), "{name}: whether a byte changes");
        let mut other = before.clone();
        assert_eq!(model(&mut other.0, case.kind), reply, "{name}: the model's reply");
        assert!(other.0 == after.0, "{name}: the model's bytes");
        let mut other = before.clone();
        let by_hand = effect(&mut other.0, case.kind);
        assert!(by_hand.is_none_or(|r| r == reply && other.0 == after.0), "{name}: the effect by hand");
        let differs = |at: &usize| before.0[*at..at + BLOCK] != after.0[*at..at + BLOCK];
        let opens = matches!(case.kind, Kind::Done(Call::Open(_)));
        let changed = (0..SIZE).step_by(BLOCK).filter(|at| !opens && differs(at)).collect();
        let zeros = Box::new(Memory([0; SIZE]));
        Place { kind: case.kind, memory: before.clone(), before, zeros, changed, by_hand: by_hand.is_some() }
    }

    fn restore(&mut self) {
        let memory = black_box(&mut self.memory);
        for at in &self.changed {
            memory.0[*at..at + BLOCK].copy_from_slice(&self.before.0[*at..at + BLOCK]);
        }
    }

    /// One turn of a job.
    #[inline(always)]
    fn turn(&mut self, job: Job) {
        let bytes = black_box(self.memory.0.as_ptr());
        // The functions read a window's bytes alone.
        match job {
            Pass => {
                black_box(unsafe { pass(bytes, SIZE) });
            }
            PlainPass => {
                black_box(unsafe { plain_pass(bytes, SIZE) });
            }
            Memchr => {
                black_box(unsafe { memchr(black_box(self.zeros.0.as_ptr()), 1, SIZE) });
            }
            Restore => self.restore(),
            Make => {
                self.restore();
                black_box(make(&mut self.memory.0, self.kind));
            }
            Model => {
                self.restore();
                black_box(model(&mut self.memory.0, self.kind));
            }
            Effect => {
                self.restore();
                black_box(effect(&mut self.memory.0, self.kind));
            }
        }
    }

    /// How long so many turns of a job take; where they are several, after one to warm up.
    fn sample(&mut self, job: Job, turns: usize) -> Duration {
        if turns > 1 {
            self.turn(job);
        }
        let start = Instant::now();
        // One arm for each job, so that the choice of the job is made outside the loop.
        match job {
            Pass => (0..turns).for_each(|_| self.turn(Pass)),
            PlainPass => (0..turns).for_each(|_| self.turn(PlainPass)),
            Memchr => (0..turns).for_each(|_| self.turn(Memchr)),
            Restore => (0..turns).for_each(|_| self.turn(Restore)),
            Make => (0..turns).for_each(|_| self.turn(Make)),
            Model => (0..turns).for_each(|_| self.turn(Model)),
            Effect => (0..turns).for_each(|_| self.turn(Effect)),
        }
        start.elapsed()
    }

    /// How many turns make a sample.
    fn turns(&mut self, job: Job) -> usize {
        let mut turns = 1;
        while turns < 100_000 && self.sample(job, turns) < SAMPLE {
            turns *= 2;
        }
        turns
    }
}

/// A case's shortest samples so far, a turn each in nanoseconds.
pub struct Timer {
    place: Place,
    turns: [usize; JOBS.len()],
    best: [f64; JOBS.len()],
}

impl Timer {
    pub fn new(case: &Case) -> Timer {
        let mut place = Place::new(case);
        let turns = JOBS.map(|job| place.turns(job));
        Timer { place, turns, best: [f64::MAX; JOBS.len()] }
    }

    /// One sweep, at a depth of the stack of its own: some calls work on copies there, whose place tells on their time.
    pub fn sweep(&mut self, depth: usize) {
        let room = [0u8; 400];
        match black_box(&room).len() * depth {
            0 => self.take_turns(),
            _ => self.sweep(depth - 1),
        }
    }

    /// The jobs take turns until the time is up; one that has had its share of the time is passed over.
    #[inline(never)]
    fn take_turns(&mut self) {
        let mut spent = [Duration::ZERO; JOBS.len()];
        let start = Instant::now();
        while start.elapsed() < SWEEP {
            for i in 0..JOBS.len() {
                if spent[i] <= SWEEP / 4 {
                    let time = self.place.sample(JOBS[i], self.turns[i]);
                    spent[i] += time;
                    self.best[i] = self.best[i].min(time.as_nanos() as f64 / self.turns[i] as f64);
                }
            }
        }
    }

    pub fn times(&self) -> Times {
        let [pass, call, restore, plain, memchr, effect, model] = self.best;
        // A turn takes a tenth of a nanosecond at least.
        let alone = |time: f64| (time - restore).max(0.1);
        let effect = self.place.by_hand.then(|| alone(effect));
        Times { pass, plain, memchr, call: alone(call), model: alone(model), effect }
    }
}

/// Whether library, model and effect agree on the case.
pub fn check(case: &Case) {
    Place::new(case);
}

/// Makes the case's call once, for a count of its instructions.
pub fn once(case: &Case) {
    let mut memory = model::bytes(&case.window);
    black_box(make(&mut memory, case.kind));
}
