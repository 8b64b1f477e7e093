//! The exported calls (include/window.h).
use crate::perform::{Call, Reply};
use Call::*;

#[repr(C)]
struct WindowReply {
    answer: u32,
    number: u32,
}

extern "C" {
    fn window_open(window: *mut u8, length: usize, entries: u32) -> WindowReply;
    fn window_initiate(window: *mut u8, length: usize, parent: u32) -> WindowReply;
    fn window_begin(window: *mut u8, length: usize, change: u32) -> WindowReply;
    fn window_complete(window: *mut u8, length: usize, change: u32) -> WindowReply;
    fn window_lock(window: *mut u8, length: usize, change: u32, entry: u32, mode: u32) -> WindowReply;
    fn window_read(window: *const u8, length: usize, change: u32, entry: u32) -> WindowReply;
    fn window_write(window: *mut u8, length: usize, change: u32, entry: u32, value: u32) -> WindowReply;
    fn window_permit(
        window: *mut u8,
        length: usize,
        giver: u32,
        taker: u32,
        entry: u32,
        operations: u32,
    ) -> WindowReply;
    fn window_delegate(window: *mut u8, length: usize, from: u32, to: u32, entry: u32) -> WindowReply;
    fn window_depend(window: *mut u8, length: usize, kind: u32, leader: u32, follower: u32) -> WindowReply;
    fn window_commit(window: *mut u8, length: usize, change: u32) -> WindowReply;
    fn window_abort(window: *mut u8, length: usize, change: u32) -> WindowReply;
    fn window_status(window: *const u8, length: usize, change: u32) -> WindowReply;
    fn window_parent(window: *const u8, length: usize, change: u32) -> WindowReply;
    fn window_value(window: *const u8, length: usize, entry: u32) -> WindowReply;
}

/// Makes a call on lent memory.
pub fn make(memory: &mut [u8], call: Call) -> Reply {
    let (m, n) = (memory.as_mut_ptr(), memory.len());
    // The functions read and write the lent bytes alone.
    let reply = unsafe {
        match call {
            Open(entries) => window_open(m, n, entries),
            Initiate(parent) => window_initiate(m, n, parent),
            Begin(change) => window_begin(m, n, change),
            Complete(change) => window_complete(m, n, change),
            Lock(change, entry, mode) => window_lock(m, n, change, entry, mode),
            Read(change, entry) => window_read(m, n, change, entry),
            Write(change, entry, value) => window_write(m, n, change, entry, value),
            Permit(giver, taker, entry, operations) => window_permit(m, n, giver, taker, entry, operations),
            Delegate(from, to, entry) => window_delegate(m, n, from, to, entry),
            Depend(kind, leader, follower) => window_depend(m, n, kind, leader, follower),
            Commit(change) => window_commit(m, n, change),
            Abort(change) => window_abort(m, n, change),
            Status(change) => window_status(m, n, change),
            Parent(change) => window_parent(m, n, change),
            Value(entry) => window_value(m, n, entry),
        }
    };
    (reply.answer, reply.number)
}
