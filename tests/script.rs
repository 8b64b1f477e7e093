//! The script program held to listings worked out by hand and to a model.
//! script: all but the stress; script stress: the stress. WINDOW_TEST_SEED sets the random scripts' seed.
mod corners;
mod garble;
mod listing;
mod model;
mod perform;
mod random;
mod stress;

use corners::Corner;
use random::{Kind, Random, DENSE, MIXED, PERMITS, TIES, WRITES};
use std::ffi::{c_int, c_ulong};
use std::fs::{self, File};
use std::io::{self, Write};
use std::os::fd::AsRawFd;
use std::process::{exit, Child, ChildStdin, Command, ExitStatus, Stdio};
use std::time::Duration;

/// The program under test.
const PROGRAM: &str = "target/bin/script";

const INPUT: &str = "target/script.input";
const OUTPUT: &str = "target/script.output";

/// How many random scripts there are, short and long.
const SHORT: usize = 3_000;
const LONG: usize = 60;

/// The answers that a line can get.
const ANSWERS: [usize; 16] = [0, 1, 2, 3, 4, 5, 6, 7, 8, 9, 10, 11, 12, 20, 21, 30];

/// Ends the test with what went wrong.
pub fn fail(what: String) -> ! {
    eprintln!("script: {what}");
    exit(1)
}

/// A line that is short enough to show.
fn shown(lines: &[&[u8]], at: usize) -> String {
    match lines.get(at) {
        None => "(none)".to_string(),
        Some(line) if line.len() > 200 => format!("{}.. ({} bytes)", line[..200].escape_ascii(), line.len()),
        Some(line) => line.escape_ascii().to_string(),
    }
}

/// Ends the test at the first line that differs, with the script's line and what both print there.
fn same(name: &str, script: &[u8], due: &[u8], who: &str, printed: &[u8]) {
    if due == printed {
        return;
    }
    fs::write(INPUT, script).expect("the input is written");
    let [script, due, printed] = [script, due, printed].map(listing::lines);
    let at = (0..).find(|i| due.get(*i) != printed.get(*i) || *i > due.len()).unwrap_or(0);
    let line = if due.get(1) == Some(&&b"0,30,0"[..]) { 0 } else { at };
    eprintln!("{name}, line {line}: {}", shown(&script, line));
    eprintln!("due:         {}", shown(&due, at));
    eprintln!("{who} prints: {}", shown(&printed, at));
    if due == printed {
        eprintln!("only a last newline differs");
    }
    fail(format!("{who} prints another listing; the script is in {INPUT}"))
}

extern "C" {
    fn ioctl(file: c_int, request: c_ulong, ...) -> c_int;
}

/// Asks how many bytes wait in a pipe (Linux).
const FIONREAD: c_ulong = 0x541b;

/// Waits until a program has taken what is in its pipe; false if it ended before.
fn taken(pipe: &ChildStdin, child: &mut Child) -> bool {
    while matches!(child.try_wait(), Ok(None)) {
        let mut left: c_int = 0;
        // The call writes to the number lent to it alone.
        if unsafe { ioctl(pipe.as_raw_fd(), FIONREAD, &mut left) } != 0 || left == 0 {
            return true;
        }
        std::thread::sleep(Duration::from_micros(10));
    }
    false
}

/// The program ended well and has printed this.
fn judge(name: &str, script: &[u8], due: &[u8], status: io::Result<ExitStatus>) {
    match status {
        Ok(status) if status.success() => {}
        other => fail(format!("{name}: the program ended with {other:?}; the script is in {INPUT}")),
    }
    same(name, script, due, "the program", &fs::read(OUTPUT).expect("the output"));
}

/// The program prints this when its input is a file.
fn hold_program(name: &str, script: &[u8], due: &[u8]) {
    fs::write(INPUT, script).expect("the input is written");
    let (input, output) = (File::open(INPUT).expect("the input"), File::create(OUTPUT).expect("the output"));
    judge(name, script, due, Command::new(PROGRAM).stdin(input).stdout(output).status());
}

/// The same when its input comes through a pipe in pieces of this many bytes.
fn hold_in_pieces(name: &str, script: &[u8], due: &[u8], piece: usize) {
    fs::write(INPUT, script).expect("the input is written");
    let output = File::create(OUTPUT).expect("the output");
    let child = Command::new(PROGRAM).stdin(Stdio::piped()).stdout(output).spawn();
    let mut child = child.unwrap_or_else(|error| fail(format!("{PROGRAM}: {error}")));
    let mut pipe = child.stdin.take().expect("a pipe");
    for bytes in script.chunks(piece) {
        // A program that has seen a broken first line may have ended.
        if pipe.write_all(bytes).is_err() || !taken(&pipe, &mut child) {
            break;
        }
    }
    drop(pipe);
    judge(name, script, due, child.wait());
}

/// The model and the program print what was worked out by hand.
fn hold((name, script, due): &Corner) {
    same(name, script, due, "the model", &listing::listing(script));
    hold_program(name, script, due);
}

/// The scripts of examples/asset with the listings beside them: names, scripts, listings.
fn asset_scripts() -> Vec<Corner> {
    let folder = fs::read_dir("examples/asset").expect("examples/asset");
    let mut paths: Vec<_> = folder.map(|file| file.expect("a file").path()).collect();
    paths.retain(|path| path.extension().is_some_and(|e| e == "csv"));
    paths.sort();
    let read = |path: &std::path::Path| fs::read(path).unwrap_or_else(|error| fail(format!("{path:?}: {error}")));
    paths.iter().map(|path| (path.display().to_string(), read(path), read(&path.with_extension("out")))).collect()
}

fn hold_asset_scripts() {
    let scripts = asset_scripts();
    if scripts.is_empty() {
        fail("no scripts in examples/asset".to_string());
    }
    scripts.iter().for_each(hold);
    println!("{} scripts of examples/asset print what was worked out", scripts.len());
}

fn hold_corners() {
    let corners = corners::corners();
    corners.iter().for_each(hold);
    println!("{} corners, the whole case among them, print what was worked out", corners.len());
}

/// The scripts of examples/asset and some of the corners, the shorter ones, in pieces.
fn hold_pieces() {
    let mut scripts = asset_scripts();
    scripts.extend(corners::corners().into_iter().filter(|corner| corner.1.len() < 2_000).step_by(5));
    for ((name, script, due), piece) in scripts.iter().zip([1, 2, 3, 7, 13, 64].into_iter().cycle()) {
        hold_in_pieces(name, script, due, piece);
    }
    println!("{} scripts print the same in pieces through a pipe", scripts.len());
}

/// How many lines of listings got which answer.
#[derive(Default)]
struct Tally {
    answers: [usize; 31],
}

impl Tally {
    fn count(&mut self, listing: &[u8]) {
        for line in listing::lines(listing).iter().skip(1) {
            let text = std::str::from_utf8(line).expect("text");
            let answer: usize = text.split(',').nth(1).and_then(|a| a.parse().ok()).expect("an answer");
            self.answers[answer] += 1;
        }
    }

    /// Every answer came.
    fn judge(&self) {
        let lines: usize = self.answers.iter().sum();
        println!("{lines} lines of random scripts, {} of them broken", self.answers[30]);
        if let Some(answer) = ANSWERS.iter().find(|a| self.answers[**a] == 0) {
            fail(format!("no line of a random script gets {answer}"));
        }
    }
}

/// Many short scripts, and long ones that fill tables.
fn hold_random(r: &mut Random) {
    let mut tally = Tally::default();
    let mut hold = |name: String, script: Vec<u8>| {
        let due = listing::listing(&script);
        hold_program(&name, &script, &due);
        tally.count(&due);
    };
    for number in 0..SHORT {
        let entries = r.pick(&[1, 2, 6, 256]);
        let kind = Kind { entries, live: r.pick(&[2, 4, 6]), often: r.pick(&[MIXED, DENSE]) };
        let length = 1 + r.below(30);
        hold(format!("random script {number}"), garble::script(r, &kind, length));
    }
    for number in 0..LONG {
        let entries = r.pick(&[1, 2, 6, 255, 256]);
        let often = [MIXED, DENSE, DENSE, WRITES, PERMITS, TIES][number % 6];
        let kind = Kind { entries, live: r.pick(&[4, 12, 255]), often };
        // Some are longer than 65,536 bytes.
        let length = if number % 12 == 0 { 6_000 } else { 2_000 };
        hold(format!("long random script {number}"), garble::script(r, &kind, length));
    }
    tally.judge();
}

fn main() {
    let seed = random::seed();
    if std::env::args().nth(1).as_deref() == Some("stress") {
        return stress::stress(PROGRAM, &mut Random(seed));
    }
    hold_asset_scripts();
    hold_corners();
    hold_random(&mut Random(seed));
    println!("{} random scripts print what the model prints", SHORT + LONG);
    hold_pieces();
}
