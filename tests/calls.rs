//! The exported calls held to the model: every list by hand, random lists, lent lengths and damaged windows.
//! WINDOW_TEST_CALLS sets how many random calls are made, WINDOW_TEST_SEED their seed.
mod demand;
mod full_tables;
mod library;
mod lines;
mod model;
mod perform;
mod random;
mod readings;
mod tied;
mod trial;
mod tries;
mod windows;
mod withdrawals;
mod writes;

use demand::Turns;
use model::SIZE;
use perform::Call::{self, *};
use perform::{Reply, NAMES};
use random::{Kind, Random, DENSE, LINES, MIXED, PERMITS, SHARED, TIES, WRITES};
use trial::{Start, Trial};
use writes::Met;

const ANSWERS: [u32; 15] = [0, 1, 2, 3, 4, 5, 6, 7, 8, 9, 10, 11, 12, 20, 21];

/// The answers that each call can give, in the order of NAMES.
const REACHABLE: [&[u32]; 15] = [
    &[0, 1, 2],
    &[0, 1, 3, 7, 11],
    &[0, 1, 3, 7],
    &[0, 1, 3, 7],
    &[0, 1, 3, 4, 5, 7, 12, 20],
    &[0, 1, 3, 4, 7, 8],
    &[0, 1, 3, 4, 7, 8, 11],
    &[0, 1, 3, 4, 5, 6, 7, 11],
    &[0, 1, 3, 4, 6, 7, 10],
    &[0, 1, 3, 5, 6, 7, 9, 11],
    &[0, 1, 3, 20, 21],
    &[0, 1, 3, 21],
    &[0, 1, 3],
    &[0, 1, 3],
    &[0, 1, 4],
];

/// How often each call was answered how, in the order of NAMES; how many lists ended in walks; the most that stood in
/// line; how often what is held of locks and lines was put to the test, and withdrawals met others' writes.
#[derive(Default)]
struct Tally {
    answers: [[usize; 22]; 15],
    walked: usize,
    longest: usize,
    turns: Turns,
    met: Met,
}

impl Tally {
    /// Makes a call, counts its answer, and ends the program where something does not hold.
    fn make(&mut self, trial: &mut Trial, call: Call) -> Reply {
        let reply = trial.make(call).unwrap_or_else(|error| trial.fail(error));
        self.answers[call.fields().0][reply.0 as usize] += 1;
        self.longest = self.longest.max(trial.now().line.len());
        reply
    }

    /// Every answer that a call can give came, and no other.
    fn judge(&self) {
        print!("{:9}", "answer");
        ANSWERS.iter().for_each(|a| print!(" {a:>6}"));
        println!();
        for (name, counts) in NAMES.iter().zip(&self.answers) {
            print!("{name:9}");
            ANSWERS.iter().for_each(|a| print!(" {:>6}", counts[*a as usize]));
            println!();
        }
        for ((name, counts), answers) in NAMES.iter().zip(&self.answers).zip(REACHABLE) {
            for (answer, count) in (0..).zip(counts) {
                assert_eq!(*count > 0, answers.contains(&answer), "{name} answered {answer} {count} times");
            }
        }
    }
}

/// A list worked out by hand: the model and the library both give what it says.
fn follow((name, lines): &tries::Try) {
    let mut trial = Trial::new(Start::garbage());
    let fail = |trial: &Trial, error| {
        eprintln!("worked out by hand: {name}");
        trial.fail(error)
    };
    for (call, answer, number) in lines {
        let reply = trial.make(*call).unwrap_or_else(|error| fail(&trial, error));
        if reply != (*answer, *number) {
            fail(&trial, format!("{call} gives {reply:?}, the rules {answer}, {number}"));
        }
    }
}

/// A window's bytes by hand, from docs/WINDOW.md.
fn picture() {
    let mut trial = Trial::new(Start::garbage());
    let calls = [
        Open(6),
        Initiate(0),
        Initiate(0),
        Begin(1),
        Begin(2),
        Initiate(1),
        Lock(1, 5, 2),
        Write(1, 5, 0x0102_0304),
        Write(1, 5, 0xaabb_ccdd),
        Permit(1, 2, 5, 1),
        Permit(2, 0, 3, 3),
        Lock(2, 5, 1),
        Depend(3, 3, 2),
        Depend(1, 3, 1),
    ];
    for call in calls {
        let reply = trial.make(call).unwrap_or_else(|error| trial.fail(error));
        assert_eq!(reply.0, 0, "{call}");
    }
    let waits = trial.make(Lock(2, 5, 2)).unwrap_or_else(|error| trial.fail(error));
    assert_eq!(waits.0, 20, "2 may only read");
    let mut due = vec![0; SIZE];
    let mut put = |at: usize, bytes: &[u8]| due[at..at + bytes.len()].copy_from_slice(bytes);
    put(0, &[6, 0, 3, 0, 2, 0, 2, 0, 2, 0, 1]);
    put(84, &[0xdd, 0xcc, 0xbb, 0xaa]);
    put(1_092, &[2, 0, 0, 0, 2, 0, 0, 0, 1, 1]);
    put(2_112, &[2, 5, 2]);
    put(3_456, &[0b100]);
    put(3_488, &[0b010]);
    put(19_520, &[3, 2, 0, 3, 5, 1, 2, 1]);
    put(23_616, &[1, 3, 1, 0, 3, 2, 3, 0]);
    put(25_664, &[1, 5, 0, 0, 0, 0, 1, 5, 4, 3, 2, 1]);
    let differs = trial.memory().iter().zip(&due).position(|(a, b)| a != b);
    assert_eq!(differs, None, "the first byte that docs/WINDOW.md has otherwise");
}

/// A call of each name that is not refused on the typical window.
const ONE_OF_EACH: [Call; 15] = [
    Initiate(1),
    Begin(11),
    Complete(5),
    Lock(5, 4, 2),
    Read(1, 0),
    Write(1, 0, 9),
    Permit(5, 0, 2, 2),
    Delegate(5, 6, perform::EVERY_ENTRY),
    Depend(1, 5, 8),
    Commit(12),
    Abort(2),
    Status(9),
    Parent(12),
    Value(3),
    Open(6),
];

/// Each call on memory of each length; shorter than a window it is refused.
fn lent_lengths(tally: &mut Tally) {
    let window = model::bytes(&windows::typical());
    for length in [0, 1, SIZE - 1, SIZE, SIZE + 1, SIZE + 64] {
        for skew in 0..8 {
            for call in ONE_OF_EACH {
                let mut trial = Trial::new(Start { bytes: window.clone(), length, skew });
                let (answer, _) = tally.make(&mut trial, call);
                assert_eq!(answer == 1, length < SIZE, "{call} on {length} bytes");
            }
        }
    }
    for bytes in [vec![0; SIZE], vec![255; SIZE], Start::garbage().bytes] {
        for call in ONE_OF_EACH {
            let mut trial = Trial::new(Start::new(bytes.clone()));
            let (answer, _) = tally.make(&mut trial, call);
            assert_eq!(answer, if call == Open(6) { 0 } else { 1 }, "{call} on memory that was not opened");
        }
    }
}

/// Damages a copy, then makes each call on it, open last.
fn damaged(r: &mut Random, kind: &Kind, trial: &Trial, tally: &mut Tally) {
    let mut trial = trial.clone();
    let (at, byte) = random::damage(r, trial.now(), trial.memory());
    trial.damage(at, byte);
    for name in (1..NAMES.len()).chain([0]) {
        let call = random::named(r, kind, trial.now(), name);
        tally.make(&mut trial, call);
    }
}

/// Completes all live changes; as many walks as there are live groups then commit them all.
/// Where that would take more than 3,000 commits nothing is done.
fn walks(trial: &mut Trial, tally: &mut Tally) {
    let story = trial.story().unwrap();
    let live: Vec<u32> = story.live().into_iter().collect();
    let (groups, highest) = (story.live_groups(), story.status().len() as u32);
    if groups == 0 || groups * highest as usize > 3_000 {
        return;
    }
    tally.walked += 1;
    for c in &live {
        for call in [Begin(*c), Complete(*c)] {
            tally.make(trial, call);
        }
    }
    for _ in 0..groups {
        for c in 1..=highest {
            tally.make(trial, Commit(c));
        }
    }
    for c in live {
        let (_, status) = tally.make(trial, Status(c));
        if status != 4 {
            trial.fail(format!("after {groups} walks change {c} has status {status}"));
        }
    }
}

/// Each of 50 changes waits for the next, so that a walk commits only one.
fn long_walks(tally: &mut Tally) {
    let mut trial = Trial::new(Start::garbage());
    let ties = (1..50).map(|c| Depend(1, c + 1, c));
    for call in [Open(1)].into_iter().chain(changes(50)).chain(ties) {
        tally.make(&mut trial, call);
    }
    walks(&mut trial, tally);
}

/// A random list behind some first calls; its window damaged; walks. How many random calls.
fn list(r: &mut Random, kind: &Kind, first: &[Call], length: usize, tally: &mut Tally) -> usize {
    let bytes = r.pick(&[0, 85, 255]);
    let lent = SIZE + r.pick(&[0, 0, 1, 64]);
    let mut trial = Trial::new(Start { bytes: vec![bytes; SIZE], length: lent, skew: r.below(8) });
    for call in [Open(kind.entries)].iter().chain(first) {
        tally.make(&mut trial, *call);
    }
    for _ in 0..length {
        let call = random::call(r, kind, trial.now());
        tally.make(&mut trial, call);
    }
    tally.turns.add(trial.story().unwrap().turns());
    tally.met.add(trial.story().unwrap().met());
    for _ in 0..4 {
        damaged(r, kind, &trial, tally);
    }
    walks(&mut trial, tally);
    length
}

/// Changes 1 to n, running.
fn changes(n: u32) -> Vec<Call> {
    (1..=n).map(|_| Initiate(0)).chain((1..=n).map(Begin)).collect()
}

/// Changes 1 to n, each with the write lock on every entry, and a permit there to anybody.
fn side_by_side(n: u32, entries: u32) -> Vec<Call> {
    let each = (0..entries).flat_map(|e| (1..=n).flat_map(move |c| [Lock(c, e, 2), Permit(c, 0, e, 3)]));
    changes(n).into_iter().chain(each).collect()
}

/// Lists that begin with a nearly full table.
fn nearly_full(r: &mut Random, tally: &mut Tally) -> usize {
    let mut first = changes(4);
    first.extend([Lock(1, 0, 2), Lock(2, 1, 2)]);
    first.extend((0..2_040).map(|i| Write(1 + i % 2, i % 2, r.next() as u32)));
    let mut made = list(r, &Kind { entries: 2, live: 6, often: WRITES }, &first, 400, tally);

    let mut first = changes(12);
    first.extend((0..1_020).map(|i| Permit(1 + i % 4, 5 + i % 8, i / 4, 1 + r.below(3) as u32)));
    made += list(r, &Kind { entries: 256, live: 16, often: PERMITS }, &first, 400, tally);

    let mut first = changes(250);
    first.extend((1..250).map(|c| Depend(1, c, c + 1)));
    first.extend((1..249).map(|c| Depend(1, c, c + 2)));
    first.extend((1..=10).map(|c| Depend(2, c, c + 1)));
    made += list(r, &Kind { entries: 256, live: 255, often: TIES }, &first, 200, tally);
    made
}

/// At least this many random calls, in lists of several kinds.
fn random_lists(r: &mut Random, calls: usize, tally: &mut Tally) {
    let mut made = 0;
    for round in 0.. {
        for entries in [1, 2, 3, 6, 255, 256] {
            for (live, often) in [(2, MIXED), (4, MIXED), (6, DENSE), (12, DENSE)] {
                made += list(r, &Kind { entries, live, often }, &[], 400, tally);
            }
        }
        made += list(r, &Kind { entries: 6, live: 40, often: DENSE }, &[], 1_000, tally);
        made += list(r, &Kind { entries: 256, live: 255, often: DENSE }, &changes(100), 1_000, tally);
        made += list(r, &Kind { entries: 1, live: 255, often: TIES }, &changes(60), 600, tally);
        for entries in [1, 2, 3] {
            made += list(r, &Kind { entries, live: 6, often: LINES }, &[], 400, tally);
            made += list(r, &Kind { entries, live: 40, often: LINES }, &changes(20), 400, tally);
            made += list(r, &Kind { entries, live: 6, often: SHARED }, &side_by_side(6, entries), 200, tally);
        }
        if round % 4 == 0 {
            made += nearly_full(r, tally);
        }
        if made >= calls {
            break;
        }
    }
    println!("{made} random calls, {} lists ended in walks", tally.walked);
    let Tally { longest, turns, met, .. } = *tally;
    println!("at most {longest} in line; of locks and lines {turns:?}; of withdrawals {met:?}");
    let least = turns.least().min(met.later).min(met.earlier);
    assert!(longest > 20 && least > 100, "something was put to the test too seldom");
}

/// Who stands in line after calls on a window with three in line: who completes or ends leaves, and the others close up
/// in order.
fn lines_left(tally: &mut Tally) {
    let lists: [(&[Call], &[u8]); 6] = [
        (&[Complete(2)], &[4, 3]),
        (&[Complete(4), Commit(4)], &[2, 3]),
        (&[Complete(1), Commit(6), Abort(3)], &[2, 4]),
        (&[Depend(2, 1, 2), Depend(3, 2, 3), Abort(1)], &[4]),
        (&[Abort(2), Abort(3), Complete(4)], &[]),
        (&[Initiate(1), Begin(7), Lock(7, 1, 2), Write(7, 1, 9), Permit(7, 2, 1, 3), Delegate(7, 3, 1)], &[2, 4, 3]),
    ];
    for (calls, left) in lists {
        let mut trial = Trial::new(Start::new(model::bytes(&windows::waiting())));
        for call in calls {
            assert_eq!(tally.make(&mut trial, *call).0, 0, "{call}");
        }
        let line: Vec<u8> = trial.now().line.iter().map(|p| p.change).collect();
        assert_eq!(line, left);
    }
}

fn main() {
    let (seed, calls) = (random::seed(), random::setting("WINDOW_TEST_CALLS", 300_000) as usize);
    let tries = [
        tries::calls_to_try(),
        tries::errors(),
        readings::readings(),
        withdrawals::withdrawals(),
        tied::tied(),
        full_tables::full_tables(),
        lines::lines(),
    ]
    .concat();
    tries.iter().for_each(follow);
    println!("{} lists by hand", tries.len());
    picture();
    let mut tally = Tally::default();
    lines_left(&mut tally);
    lent_lengths(&mut tally);
    long_walks(&mut tally);
    random_lists(&mut Random(seed), calls, &mut tally);
    tally.judge();
}
