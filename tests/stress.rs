//! A million lines through the program: its listing, its memory, and its time beside a copy's.
use crate::listing::{self, FIRST, HEADER};
use crate::random::{Kind, Random, MIXED};
use crate::{fail, garble};
use std::fs::{self, File};
use std::io::{BufRead, BufReader, BufWriter, Write};
use std::process::{Command, Stdio};
use std::time::{Duration, Instant};

const INPUT: &str = "target/stress.input";
const OUTPUT: &str = "target/stress.output";

const BLOCKS: usize = 1_000;
const LINES: usize = 1_000;
/// One line of this many bytes.
const LONG: usize = 64 << 20;
/// The most memory, in KiB.
const MOST: i64 = 8 << 10;

/// The resources that an ended process used (struct rusage of 64-bit Linux).
#[repr(C)]
#[derive(Default)]
struct Usage {
    times: [i64; 4],
    /// The high-water mark of its memory in KiB; not below this test's own when the process was started.
    memory: i64,
    rest: [i64; 13],
}

extern "C" {
    fn wait4(process: i32, status: *mut i32, options: i32, usage: *mut Usage) -> i32;
}

/// Pipes the input into a program; how long it takes and how much memory it uses.
fn pipe(program: &str) -> (Duration, i64) {
    let output = File::create(OUTPUT).expect("the output");
    let start = Instant::now();
    let mut source = Command::new("cat").arg(INPUT).stdout(Stdio::piped()).spawn().expect("cat");
    let child = Command::new(program).stdin(source.stdout.take().expect("a pipe")).stdout(output).spawn();
    let child = child.unwrap_or_else(|error| fail(format!("{program}: {error}")));
    let (mut status, mut usage) = (0, Usage::default());
    // The call writes to the two places lent to it alone.
    let ended = unsafe { wait4(child.id() as i32, &mut status, 0, &mut usage) };
    let time = start.elapsed();
    if ended != child.id() as i32 || status != 0 {
        fail(format!("{program} ended with status {status}"));
    }
    source.wait().expect("cat");
    (time, usage.memory)
}

fn hold_memory(memory: i64) {
    if memory >= MOST {
        fail(format!("{memory} KiB of memory, {MOST} are too many"));
    }
}

/// Answers and second numbers of a block of lines that begins with an open.
fn answers(block: &[u8]) -> Vec<String> {
    let listing = listing::listing(&[FIRST.as_bytes(), block].concat());
    let text = String::from_utf8(listing).expect("text");
    text.lines().skip(1).map(|line| line[line.find(',').expect("a comma")..].to_string()).collect()
}

/// The output is the header and the answers, over and over, with their places.
fn hold_listing(answers: &[String]) {
    let mut output = BufReader::new(File::open(OUTPUT).expect("the output"));
    let mut line = String::new();
    let mut next = |due: &str| {
        line.clear();
        output.read_line(&mut line).expect("text");
        if line != due {
            fail(format!("{line:?} is printed, due is {due:?}"));
        }
    };
    next(HEADER);
    for place in 0..BLOCKS * LINES {
        next(&format!("{}{}\n", place + 1, answers[place % LINES]));
    }
    next("");
}

/// An open begins each block, so that its answers are the same each time.
fn many_lines(program: &str, block: &[u8]) {
    let mut input = BufWriter::new(File::create(INPUT).expect("the input"));
    input.write_all(FIRST.as_bytes()).expect("the input is written");
    (0..BLOCKS).for_each(|_| input.write_all(block).expect("the input is written"));
    drop(input);
    let (copied, _) = pipe("cat");
    let (time, memory) = pipe(program);
    hold_listing(&answers(block));
    let (seconds, ratio) = (time.as_secs_f64(), time.as_secs_f64() / copied.as_secs_f64());
    println!("{} lines print what the model prints, {memory} KiB of memory", BLOCKS * LINES);
    println!("{seconds:.2} s, {ratio:.0} times as long as cat in its place");
    hold_memory(memory);
}

/// One line of many bytes gets 30, and so does the same without a newline.
fn long_line(program: &str) {
    for end in ["", "\n"] {
        let mut input = BufWriter::new(File::create(INPUT).expect("the input"));
        input.write_all(FIRST.as_bytes()).expect("the input is written");
        (0..LONG / 1024).for_each(|_| input.write_all(&[b'0'; 1024]).expect("the input is written"));
        input.write_all(end.as_bytes()).expect("the input is written");
        drop(input);
        let (_, memory) = pipe(program);
        let printed = fs::read_to_string(OUTPUT).expect("text");
        if printed != format!("{HEADER}1,30,0\n") {
            fail(format!("a line of {LONG} bytes prints {printed:?}"));
        }
        hold_memory(memory);
    }
    println!("a line of {LONG} bytes gets 30");
}

pub fn stress(program: &str, r: &mut Random) {
    let block = garble::lines(r, &Kind { entries: 6, live: 6, often: MIXED }, LINES, 20);
    many_lines(program, &block);
    long_line(program);
    for file in [INPUT, OUTPUT] {
        fs::remove_file(file).expect("the file is removed");
    }
}
