//! The same calls in the library and in the model, the one held to the other.
use crate::demand::Story;
use crate::library;
use crate::model::{self, Window, LINE, LOCKS, SIZE, WAITERS};
use crate::perform::{perform, Call, Reply};
use std::fmt;
use std::ops::Range;
use std::time::{Duration, Instant};

/// Bytes before and behind the window that nobody may touch.
const EDGE: usize = 64;

/// How long a failing list is shortened.
const SHORTENING: Duration = Duration::from_secs(10);

#[derive(Clone, Copy)]
pub enum Step {
    Make(Call),
    /// The byte at a place of the window becomes another.
    Damage(usize, u8),
}

impl fmt::Display for Step {
    fn fmt(&self, f: &mut fmt::Formatter) -> fmt::Result {
        match self {
            Step::Make(call) => write!(f, "{call}"),
            Step::Damage(at, byte) => write!(f, "(byte {at} becomes {byte})"),
        }
    }
}

/// What memory holds before the first call, how many of its bytes are lent, and how far on it begins.
#[derive(Clone)]
pub struct Start {
    pub bytes: Vec<u8>,
    pub length: usize,
    pub skew: usize,
}

impl Start {
    pub fn new(bytes: Vec<u8>) -> Start {
        Start { bytes, length: SIZE, skew: 0 }
    }

    /// Memory of which nothing is known.
    pub fn garbage() -> Start {
        Start::new((0..SIZE).map(garbage).collect())
    }
}

fn garbage(i: usize) -> u8 {
    (i * 167 + 91) as u8
}

#[derive(Clone)]
pub struct Trial {
    start: Start,
    steps: Vec<Step>,
    /// The whole memories, of which `lent` is lent.
    library: Vec<u8>,
    model: Vec<u8>,
    lent: Range<usize>,
    /// The window after the last call that may change it, damage to it left out.
    now: Window,
    /// The story since the last open; none once memory was damaged.
    story: Option<Story>,
}

impl Trial {
    pub fn new(start: Start) -> Trial {
        let at = EDGE + start.skew;
        let mut library: Vec<u8> = (0..at + SIZE + 2 * EDGE).map(garbage).collect();
        library[at..at + start.bytes.len()].copy_from_slice(&start.bytes);
        let now = model::window(&start.bytes).unwrap_or_default();
        let lent = at..at + start.length;
        Trial { steps: vec![], model: library.clone(), library, lent, now, story: None, start }
    }

    pub fn now(&self) -> &Window {
        &self.now
    }

    pub fn story(&self) -> Option<&Story> {
        self.story.as_ref()
    }

    pub fn memory(&self) -> &[u8] {
        &self.library[self.lent.clone()]
    }

    /// Makes a call in both; an error says where they differ, or what does not hold of the library's.
    pub fn make(&mut self, call: Call) -> Result<Reply, String> {
        self.steps.push(Step::Make(call));
        let mut before = self.library.clone();
        let due = perform(&mut self.model[self.lent.clone()], call);
        let reply = library::make(&mut self.library[self.lent.clone()], call);
        if reply != due {
            return Err(format!("{call} gives {reply:?}, the model {due:?}"));
        }
        if let Some(at) = self.differs(&self.model) {
            return Err(format!(
                "{call}: byte {} is {}, the model's {}",
                at as isize - self.lent.start as isize,
                self.library[at],
                self.model[at]
            ));
        }
        // A blocked lock may change the line, and how many stand in it.
        let waits = reply.0 == 20 && matches!(call, Call::Lock(..));
        if waits {
            for part in [WAITERS..WAITERS + 2, LINE..LOCKS] {
                let part = self.lent.start + part.start..self.lent.start + part.end;
                before[part.clone()].copy_from_slice(&self.library[part]);
            }
        }
        if let Some(at) = self.differs(&before).filter(|_| reply.0 != 0) {
            return Err(format!(
                "{call} answers {} and changes byte {}",
                reply.0,
                at as isize - self.lent.start as isize
            ));
        }
        if reply.0 == 0 || waits {
            self.now =
                model::window(self.memory()).filter(|w| w.sound()).ok_or(format!("{call} leaves no sound window"))?;
        }
        // An open answered 0 starts everything anew.
        if reply.0 == 0 && matches!(call, Call::Open(_)) {
            self.story = Some(Story::default());
        }
        if let Some(story) = &mut self.story {
            story.tell(call, reply, &self.now).map_err(|e| format!("{call}: {e}"))?;
        }
        Ok(reply)
    }

    fn differs(&self, other: &[u8]) -> Option<usize> {
        if self.library == other {
            return None;
        }
        self.library.iter().zip(other).position(|(a, b)| a != b)
    }

    pub fn damage(&mut self, at: usize, byte: u8) {
        self.steps.push(Step::Damage(at, byte));
        self.library[self.lent.start + at] = byte;
        self.model[self.lent.start + at] = byte;
        self.story = None;
    }

    fn take(&mut self, step: Step) -> Result<(), String> {
        match step {
            Step::Make(call) => self.make(call).map(|_| ()),
            Step::Damage(at, byte) => Ok(self.damage(at, byte)),
        }
    }

    /// The steps up to the first error, and the error, if these steps lead to one.
    fn replay(start: &Start, steps: &[Step]) -> Option<(Vec<Step>, String)> {
        let mut trial = Trial::new(start.clone());
        let error = steps.iter().find_map(|s| trial.take(*s).err())?;
        Some((trial.steps, error))
    }

    /// Reports an error with a shorter list of steps that leads to one, and ends the program.
    pub fn fail(&self, error: String) -> ! {
        let (mut steps, mut error) = (self.steps.clone(), error);
        let mut part = steps.len() / 2;
        let begun = Instant::now();
        while part > 0 {
            let mut at = 0;
            while at < steps.len() && begun.elapsed() < SHORTENING {
                let mut fewer = steps.clone();
                fewer.drain(at..(at + part).min(steps.len()));
                match Trial::replay(&self.start, &fewer) {
                    Some(shorter) => (steps, error) = shorter,
                    None => at += part,
                }
            }
            part /= 2;
        }
        eprintln!("call,a,b,c,d");
        steps.iter().for_each(|s| eprintln!("{s}"));
        eprintln!("lent {} bytes, skew {}", self.start.length, self.start.skew);
        eprintln!("{error}");
        std::process::exit(1)
    }
}
