/*
 * The change window: transactions ("changes") over up to 256 pool entries, in memory that the caller lends.
 *
 * Every call takes the lent memory first:
 *   window  the memory; its first WINDOW_SIZE bytes are the window
 *   length  how many bytes are lent; those past the window are neither read nor changed
 * and gives an answer and a second number. The number is 0 where nothing is said of it.
 * Entries are numbered from 0, changes from 1.
 *
 * Answers. Every call can answer WINDOW_DONE and WINDOW_NOT_SOUND; 'Answers' lists the others. Where several apply, the
 * lowest is given. A call answered otherwise than WINDOW_DONE has changed no byte, but for a lock answered
 * WINDOW_BLOCKED, which has taken its place in line. A compiler that can warns where an answer is ignored
 * (WINDOW_MUST_USE).
 *
 * WINDOW_NOT_SOUND means that the memory is shorter than a window, was never opened, was written over by somebody else,
 * or that a call on it was cut short. Go back to a copy, or open the window anew.
 *
 * Memory. It needs no alignment, and may be NULL where length is 0. A window holds no pointers, and its numbers are
 * little-endian on every machine: between two calls it may be copied, saved, mapped or moved to another machine.
 *
 * Copies. A process that is killed inside a call may leave memory that is not sound, or a sound window that holds only
 * a part of the call's work. A program that has to go on after that keeps a copy, the WINDOW_SIZE bytes as they were
 * between two calls, and goes back to it whatever the next call would answer.
 *
 * Threads. Calls on different windows may run at once. Calls on one window must not overlap, but for read, status,
 * parent and value: they only read, and may run at once with each other.
 *
 * A call needs at most WINDOW_STACK bytes of stack. It does not wait, allocate, print, take a mutex, or use errno or
 * signals.
 */
#ifndef WINDOW_H
#define WINDOW_H

#include <stddef.h>
#include <stdint.h>

#ifdef __cplusplus
extern "C" {
#endif

/* Rises when this interface gains or changes something. */
#define WINDOW_VERSION 4

/* The bytes of a window, whatever it holds. */
#define WINDOW_SIZE 37952

/* Bytes of stack that are enough for any call: a delegate needs some 27 KiB, every other call less than 10. */
#define WINDOW_STACK 32768

/* The largest figures of a window; changes are counted over its whole life, the others as they stand. */
#define WINDOW_MOST_ENTRIES 256
#define WINDOW_MOST_CHANGES 255
#define WINDOW_MOST_LOG_RECORDS 2048
#define WINDOW_MOST_PERMITS 1024
#define WINDOW_MOST_TIES 512

/* On every call: gcc, clang and C++17 compilers warn where its answer is ignored. */
#if defined(__cplusplus) && __cplusplus >= 201703L
#define WINDOW_MUST_USE [[nodiscard]]
#elif defined(__GNUC__)
#define WINDOW_MUST_USE __attribute__((warn_unused_result))
#else
#define WINDOW_MUST_USE
#endif

typedef struct window_reply {
    uint32_t answer; /* one of enum window_answer */
    uint32_t number;
} window_reply;

/* The words before a parenthesis are what window_answer_text (window_text.h) gives. */
enum window_answer {
    WINDOW_DONE = 0,        /* done */
    WINDOW_NOT_SOUND = 1,   /* the memory is shorter than a window or not a sound one (open asks the length alone) */
    WINDOW_BAD_ENTRIES = 2, /* the number of entries is not 1 to 256 */
    WINDOW_NO_CHANGE = 3,   /* a change number is 0 or was never given (a parent or taker may be 0) */
    WINDOW_NO_ENTRY = 4,    /* an entry number is not below the number of entries (a delegate may name every entry) */
    WINDOW_BAD_OPTION = 5,  /* a mode, operations or kind is not one of its values */
    WINDOW_SAME_CHANGE = 6, /* the two changes are the same */
    WINDOW_BAD_STATUS = 7,  /* a change's status does not suit */
    WINDOW_NO_LOCK = 8,     /* a read has no lock on the entry, or a write no write lock */
    WINDOW_CYCLE = 9,       /* the tie would let a path of wait and fall ties return to its group */
    WINDOW_CLASH = 10,      /* after the delegate two locks would clash without a permit */
    WINDOW_FULL = 11,       /* no room (the most that fit are WINDOW_MOST_..) */
    WINDOW_IN_LINE = 12,    /* the change stands in another entry's line */
    WINDOW_BLOCKED = 20,    /* the lock or the commit has to wait (try again later) */
    WINDOW_ENDED = 21       /* a commit of an aborted change, or an abort of a committed one */
};

/* The first three are live; the last two have ended. */
enum window_change_status {
    WINDOW_STATUS_INITIATED = 1,
    WINDOW_STATUS_RUNNING = 2,
    WINDOW_STATUS_COMPLETED = 3,
    WINDOW_STATUS_COMMITTED = 4,
    WINDOW_STATUS_ABORTED = 5
};

/* Modes of a lock. The locks of two changes on one entry clash where at least one of them is to write. */
enum window_mode {
    WINDOW_MODE_READ = 1,
    WINDOW_MODE_WRITE = 2,
    WINDOW_MODE_BOTH = 3 /* a permit's operations alone: no lock has it */
};

enum window_tie {
    WINDOW_TIE_WAIT = 1, /* the follower commits after the leader has ended */
    WINDOW_TIE_FALL = 2, /* the follower commits after the leader has, and is aborted with it */
    WINDOW_TIE_GROUP = 3 /* the two end together */
};

#define WINDOW_ANYBODY 0         /* a permit's taker: any change */
#define WINDOW_EVERY_ENTRY 65535 /* a delegate's entry: all of them */

/*
 * A fresh window, whatever the memory held.
 *   entries  how many entries it has, 1 to WINDOW_MOST_ENTRIES; all values are 0
 * Answers: WINDOW_BAD_ENTRIES. WINDOW_NOT_SOUND says here that the memory is too short.
 */
WINDOW_MUST_USE window_reply window_open(uint8_t *window, size_t length, uint32_t entries);

/*
 * A new change, initiated; number: its number, from 1 up.
 *   parent  0 for none, or the running change that it belongs to; kept for window_parent alone
 * Answers: WINDOW_NO_CHANGE (the parent), WINDOW_BAD_STATUS (the parent does not run),
 * WINDOW_FULL (WINDOW_MOST_CHANGES were given since the window was opened).
 */
WINDOW_MUST_USE window_reply window_initiate(uint8_t *window, size_t length, uint32_t parent);

/*
 * The change runs.
 *   change  an initiated change
 * Answers: WINDOW_NO_CHANGE, WINDOW_BAD_STATUS.
 */
WINDOW_MUST_USE window_reply window_begin(uint8_t *window, size_t length, uint32_t change);

/*
 * The change has done its work and may be committed; it locks, reads and writes no more, and leaves its line.
 *   change  a running change
 * Answers: WINDOW_NO_CHANGE, WINDOW_BAD_STATUS.
 */
WINDOW_MUST_USE window_reply window_complete(uint8_t *window, size_t length, uint32_t change);

/*
 * Locks an entry until the change ends or hands it over; done too where a lock that it holds covers the mode.
 *   change  the running change that wants the lock
 *   entry   the entry to lock
 *   mode    WINDOW_MODE_READ, or WINDOW_MODE_WRITE, which covers reading
 * Answers: WINDOW_NO_CHANGE, WINDOW_NO_ENTRY, WINDOW_BAD_OPTION (the mode), WINDOW_BAD_STATUS,
 * WINDOW_IN_LINE (whatever it holds on this entry),
 * WINDOW_BLOCKED (another change holds a lock that clashes and has not permitted the mode to this one or to anybody,
 * or another change is first in the entry's line; number: the lowest such holder or, where there is none, the first in
 * line).
 *
 * A blocked lock puts its change at the end of the entry's line, with its mode; asked for again it keeps its place and
 * takes the newer mode. Where somebody stands in line only the first is granted, so ask again: nobody who came later
 * goes ahead. A change leaves the line when it gets WINDOW_DONE from a lock there, and when it completes or ends. Until
 * then it holds back everybody behind it, and it can wait on this entry alone.
 */
WINDOW_MUST_USE window_reply window_lock(uint8_t *window, size_t length, uint32_t change, uint32_t entry,
                                         uint32_t mode);

/*
 * Reads an entry; number: its value.
 *   change  a running change that holds a lock on the entry
 *   entry   the entry to read
 * Answers: WINDOW_NO_CHANGE, WINDOW_NO_ENTRY, WINDOW_BAD_STATUS, WINDOW_NO_LOCK.
 */
WINDOW_MUST_USE window_reply window_read(const uint8_t *window, size_t length, uint32_t change, uint32_t entry);

/*
 * Writes an entry and logs the value before.
 *   change  a running change that holds the write lock on the entry
 *   entry   the entry to write
 *   value   the new value, any number
 * Answers: WINDOW_NO_CHANGE, WINDOW_NO_ENTRY, WINDOW_BAD_STATUS, WINDOW_NO_LOCK (no write lock),
 * WINDOW_FULL (the live changes have WINDOW_MOST_LOG_RECORDS).
 */
WINDOW_MUST_USE window_reply window_write(uint8_t *window, size_t length, uint32_t change, uint32_t entry,
                                          uint32_t value);

/*
 * Lets another change lock an entry beside the giver's own lock. It reaches only the two that it names.
 *   giver       the live change that permits
 *   taker       the live change that is permitted, or WINDOW_ANYBODY
 *   entry       the entry it is permitted on
 *   operations  WINDOW_MODE_READ, WINDOW_MODE_WRITE or WINDOW_MODE_BOTH; added to those permitted before.
 *               Each is permitted by itself: WINDOW_MODE_WRITE alone does not permit a read lock
 * Answers: WINDOW_NO_CHANGE, WINDOW_NO_ENTRY, WINDOW_BAD_OPTION (the operations), WINDOW_SAME_CHANGE,
 * WINDOW_BAD_STATUS (one of the two has ended), WINDOW_FULL (WINDOW_MOST_PERMITS others stand).
 */
WINDOW_MUST_USE window_reply window_permit(uint8_t *window, size_t length, uint32_t giver, uint32_t taker,
                                           uint32_t entry, uint32_t operations);

/*
 * Hands over log records, locks and given permits. Where `to` holds a lock on the entry already, it then has the
 * greater of the two. Permits that `from` was given stay; one that `to` would give to itself is dropped. Both keep
 * their places in line.
 *   from   the live change that hands over
 *   to     the live change that receives
 *   entry  the entry handed over, or WINDOW_EVERY_ENTRY
 * Answers: WINDOW_NO_CHANGE, WINDOW_NO_ENTRY, WINDOW_SAME_CHANGE, WINDOW_BAD_STATUS (one of the two has ended),
 * WINDOW_CLASH (after the hand-over two locks would clash, and no permit of either holder to the other or to anybody,
 * those handed over among them, would contain the other's mode).
 */
WINDOW_MUST_USE window_reply window_delegate(uint8_t *window, size_t length, uint32_t from, uint32_t to,
                                             uint32_t entry);

/*
 * Ties two changes; done too where the tie stands already.
 *   kind      WINDOW_TIE_WAIT, WINDOW_TIE_FALL or WINDOW_TIE_GROUP
 *   leader    the live change that goes first; in a group either of the two
 *   follower  the live change that goes after; in a group the other one
 * Answers: WINDOW_NO_CHANGE, WINDOW_BAD_OPTION (the kind), WINDOW_SAME_CHANGE, WINDOW_BAD_STATUS (one of the two has
 * ended), WINDOW_CYCLE (a path of wait and fall ties would return to the group that it begins in),
 * WINDOW_FULL (WINDOW_MOST_TIES others stand).
 */
WINDOW_MUST_USE window_reply window_depend(uint8_t *window, size_t length, uint32_t kind, uint32_t leader,
                                           uint32_t follower);

/*
 * Commits the change with its whole group, all that group ties join to it in any number of steps; number: how many
 * changes this call ended, 0 where the change was committed before.
 *   change  the change to commit
 * Answers: WINDOW_NO_CHANGE, WINDOW_BLOCKED (a member is not completed, or the leader of a wait or fall tie to a member
 * has not ended; number: the lowest of those), WINDOW_ENDED (the change was aborted).
 */
WINDOW_MUST_USE window_reply window_commit(uint8_t *window, size_t length, uint32_t change);

/*
 * Aborts the change and all that must fall with it: of each its whole group and the followers of the fall ties that it
 * leads, in any number of steps. Each entry gets the value before the oldest of their log records on it, even where
 * another change has written there since; that record and every later one on the entry, whoever owns it, are struck
 * from the log, so that no later abort brings back what is withdrawn. Another change that owned one of them lives on
 * with its locks. A log record is its writer's or, once handed over, that of the change that it was last handed over
 * to. Number: how many changes this call ended, 0 where the change was aborted before.
 *   change  the change to abort
 * Answers: WINDOW_NO_CHANGE, WINDOW_ENDED (the change was committed).
 */
WINDOW_MUST_USE window_reply window_abort(uint8_t *window, size_t length, uint32_t change);

/*
 * Number: the status of a change, one of enum window_change_status.
 *   change  any change that was given, ended ones too
 * Answers: WINDOW_NO_CHANGE.
 */
WINDOW_MUST_USE window_reply window_status(const uint8_t *window, size_t length, uint32_t change);

/*
 * Number: the parent of a change, 0 for none.
 *   change  any change that was given, ended ones too
 * Answers: WINDOW_NO_CHANGE.
 */
WINDOW_MUST_USE window_reply window_parent(const uint8_t *window, size_t length, uint32_t change);

/*
 * Number: the value of an entry.
 *   entry  the entry to look at; no lock is needed
 * Answers: WINDOW_NO_ENTRY.
 */
WINDOW_MUST_USE window_reply window_value(const uint8_t *window, size_t length, uint32_t entry);

#ifdef __cplusplus
}
#endif

#endif
