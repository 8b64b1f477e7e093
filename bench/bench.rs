//! The fifteen calls in passes over a window's bytes, against a model and against their effect alone (docs/BENCHMARKS.md).
//! `write` also puts the tables and a picture in docs/. `once WINDOW CALL` makes one call, for the count of its instructions.
//! `check` times nothing: library, model and effect by hand must agree on every row.
mod busy;
mod cases;
mod chart;
mod counts;
#[path = "../tests/library.rs"]
mod library;
#[path = "../tests/model.rs"]
mod model;
#[path = "../tests/perform.rs"]
mod perform;
mod table;
mod timing;
#[path = "../tests/windows.rs"]
mod windows;

use cases::{Case, Set};
use std::time::{Duration, Instant};
use std::{env, fs};
use table::{Measured, Row};
use timing::Timer;

const DOCUMENT: &str = "docs/BENCHMARKS.md";
const PICTURE: &str = "docs/bench.svg";
/// The lines of the document between which the tables stand.
const MARKS: [&str; 2] = ["<!-- tables -->\n", "<!-- end of the tables -->\n"];
/// No instructions are counted after this time.
const ENOUGH: Duration = Duration::from_secs(90);
const SWEEPS: usize = 8;

/// The times of every case, in several sweeps: what slows a part of the run slows no row of the table alone.
fn sweep(sets: &[Set]) -> Vec<Vec<Timer>> {
    let mut timers: Vec<Vec<Timer>> = sets.iter().map(|set| set.cases.iter().map(Timer::new).collect()).collect();
    for depth in 0..SWEEPS {
        timers.iter_mut().flatten().for_each(|timer| timer.sweep(depth));
    }
    timers
}

/// A window's rows. Instructions are counted on the two windows that are met in use.
fn measured(set: &Set, timers: &[Timer], counts: impl Fn() -> bool) -> Measured {
    let counted = ["typical", "busy"].contains(&set.name);
    let row = |(case, timer): (&Case, &Timer)| {
        let instructions = if counted && counts() { counts::count(set.name, case) } else { None };
        Row { name: case.name(), goal: table::goal(set, case), times: timer.times(), instructions }
    };
    Measured { name: set.name, holds: set.holds, rows: set.cases.iter().zip(timers).map(row).collect() }
}

fn once(window: &str, call: &str) {
    let sets = cases::sets();
    let set = sets.iter().find(|set| set.name == window).expect("a window's name");
    timing::once(set.cases.iter().find(|case| case.name() == call).expect("a call's name"));
}

/// Puts the tables in their place in the document.
fn write(tables: &str) {
    let text = fs::read_to_string(DOCUMENT).expect(DOCUMENT);
    let (before, rest) = text.split_once(MARKS[0]).expect("the first mark");
    let (_, after) = rest.split_once(MARKS[1]).expect("the second mark");
    let text = [before, MARKS[0], "\n", tables, "\n", MARKS[1], after].concat();
    fs::write(DOCUMENT, text).expect(DOCUMENT);
}

fn main() {
    let arguments: Vec<String> = env::args().skip(1).collect();
    if let [mode, window, call] = &arguments[..] {
        assert_eq!(mode, "once");
        return once(window, call);
    }
    let sets = cases::sets();
    if arguments == ["check"] {
        sets.iter().flat_map(|set| &set.cases).for_each(timing::check);
        return println!("library, model and effect agree on every row of the benchmark");
    }
    let (start, available) = (Instant::now(), counts::available());
    let timers = sweep(&sets);
    let counts = || available && start.elapsed() < ENOUGH;
    let all: Vec<Measured> = sets.iter().zip(&timers).map(|(set, timers)| measured(set, timers, counts)).collect();
    let tables: Vec<String> = all.iter().map(table::table).collect();
    let tables = format!("{}\n{}", table::yardsticks(&all), tables.join("\n"));
    println!("{tables}");
    if arguments == ["write"] {
        write(&tables);
        fs::write(PICTURE, chart::chart(&all)).expect(PICTURE);
    }
}
