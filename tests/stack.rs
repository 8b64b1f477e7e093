//! Every call on a stack of WINDOW_STACK bytes, on each window of the benchmark; how many of them it used at most, with
//! some hundred bytes of this test's own.
#[path = "../bench/busy.rs"]
mod busy;
#[path = "../bench/cases.rs"]
mod cases;
mod library;
mod model;
mod perform;
mod windows;

use cases::Kind;
use perform::{Call, Reply, NAMES};
use std::ffi::c_void;

extern "C" {
    fn small_stack_size() -> usize;
    fn on_small_stack(job: extern "C" fn(*mut c_void), with: *mut c_void) -> usize;
}

struct Job {
    memory: Vec<u8>,
    call: Call,
    reply: Reply,
}

extern "C" fn make(job: *mut c_void) {
    // The pointer is `used`'s own.
    let job = unsafe { &mut *job.cast::<Job>() };
    job.reply = library::make(&mut job.memory, job.call);
}

/// How many bytes of the stack a call used that is answered like this.
fn used(memory: Vec<u8>, call: Call, answer: u32) -> usize {
    let mut job = Job { memory, call, reply: (u32::MAX, 0) };
    let job_pointer: *mut Job = &mut job;
    // The job lives until it is done.
    let used = unsafe { on_small_stack(make, job_pointer.cast()) };
    assert_eq!(job.reply.0, answer, "{call}");
    used
}

fn main() {
    // The function has no effect.
    println!("on a stack of {} bytes", unsafe { small_stack_size() });
    let mut most = [0; NAMES.len()];
    for set in cases::sets() {
        for case in &set.cases {
            let (call, answer) = match case.kind {
                Kind::Check => continue,
                Kind::Done(call) => (call, 0),
                Kind::Blocked(call) => (call, 20),
                Kind::Refused(call) => (call, 8),
            };
            let place = call.fields().0;
            most[place] = most[place].max(used(model::bytes(&case.window), call, answer));
        }
    }
    for (name, used) in NAMES.iter().zip(most) {
        println!("{name:9} {used:>6} used");
    }
}
