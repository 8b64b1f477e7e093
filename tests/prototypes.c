/*
 * Every call through a pointer to its prototype, written out again here, on a window whose answers are worked out by
 * hand; and the numbers of the header's names. The file is C and C++.
 */
#include "check.h"

typedef uint32_t u32;

static window_reply (*const open_)(uint8_t *, size_t, u32) = window_open;
static window_reply (*const initiate)(uint8_t *, size_t, u32) = window_initiate;
static window_reply (*const begin)(uint8_t *, size_t, u32) = window_begin;
static window_reply (*const complete)(uint8_t *, size_t, u32) = window_complete;
static window_reply (*const lock)(uint8_t *, size_t, u32, u32, u32) = window_lock;
static window_reply (*const read_)(const uint8_t *, size_t, u32, u32) = window_read;
static window_reply (*const write_)(uint8_t *, size_t, u32, u32, u32) = window_write;
static window_reply (*const permit)(uint8_t *, size_t, u32, u32, u32, u32) = window_permit;
static window_reply (*const delegate)(uint8_t *, size_t, u32, u32, u32) = window_delegate;
static window_reply (*const depend)(uint8_t *, size_t, u32, u32, u32) = window_depend;
static window_reply (*const commit)(uint8_t *, size_t, u32) = window_commit;
static window_reply (*const abort_)(uint8_t *, size_t, u32) = window_abort;
static window_reply (*const status)(const uint8_t *, size_t, u32) = window_status;
static window_reply (*const parent)(const uint8_t *, size_t, u32) = window_parent;
static window_reply (*const value)(const uint8_t *, size_t, u32) = window_value;

static uint8_t memory[WINDOW_SIZE];

#define LENT memory, sizeof memory

/* Change 1 writes 7 to entry 5; change 2, its child, may read it. */
static void work(void)
{
    GIVES(open_(LENT, 6), WINDOW_DONE, 0);
    GIVES(initiate(LENT, 0), WINDOW_DONE, 1);
    GIVES(begin(LENT, 1), WINDOW_DONE, 0);
    GIVES(initiate(LENT, 1), WINDOW_DONE, 2);
    GIVES(parent(LENT, 2), WINDOW_DONE, 1);
    GIVES(lock(LENT, 1, 5, WINDOW_MODE_WRITE), WINDOW_DONE, 0);
    GIVES(write_(LENT, 1, 5, 7), WINDOW_DONE, 0);
    GIVES(read_(LENT, 1, 5), WINDOW_DONE, 7);
    GIVES(begin(LENT, 2), WINDOW_DONE, 0);
    GIVES(lock(LENT, 2, 5, WINDOW_MODE_READ), WINDOW_BLOCKED, 1);
    GIVES(permit(LENT, 1, 2, 5, WINDOW_MODE_READ), WINDOW_DONE, 0);
    GIVES(lock(LENT, 2, 5, WINDOW_MODE_READ), WINDOW_DONE, 0);
}

/* It hands the write over, and the two end as a group: the write is undone. */
static void hand_over(void)
{
    enum window_change_status aborted = WINDOW_STATUS_ABORTED;
    GIVES(delegate(LENT, 1, 2, WINDOW_EVERY_ENTRY), WINDOW_DONE, 0);
    GIVES(read_(LENT, 1, 5), WINDOW_NO_LOCK, 0);
    GIVES(depend(LENT, WINDOW_TIE_GROUP, 2, 1), WINDOW_DONE, 0);
    GIVES(complete(LENT, 1), WINDOW_DONE, 0);
    GIVES(commit(LENT, 1), WINDOW_BLOCKED, 2);
    GIVES(value(LENT, 5), WINDOW_DONE, 7);
    GIVES(abort_(LENT, 1), WINDOW_DONE, 2);
    GIVES(status(LENT, 2), WINDOW_DONE, aborted);
    GIVES(value(LENT, 5), WINDOW_DONE, 0);
    GIVES(commit(LENT, 2), WINDOW_ENDED, 0);
}

/* The answers, by docs/RULES.md, 'Turned back, in checking order'. */
static void check_answers(void)
{
    CHECK(WINDOW_DONE == 0);
    CHECK(WINDOW_NOT_SOUND == 1);
    CHECK(WINDOW_BAD_ENTRIES == 2);
    CHECK(WINDOW_NO_CHANGE == 3);
    CHECK(WINDOW_NO_ENTRY == 4);
    CHECK(WINDOW_BAD_OPTION == 5);
    CHECK(WINDOW_SAME_CHANGE == 6);
    CHECK(WINDOW_BAD_STATUS == 7);
    CHECK(WINDOW_NO_LOCK == 8);
    CHECK(WINDOW_CYCLE == 9);
    CHECK(WINDOW_CLASH == 10);
    CHECK(WINDOW_FULL == 11);
    CHECK(WINDOW_IN_LINE == 12);
    CHECK(WINDOW_BLOCKED == 20);
    CHECK(WINDOW_ENDED == 21);
}

/* The other numbers, by docs/RULES.md, 'What a window holds' and 'The calls'. */
static void check_numbers(void)
{
    CHECK(WINDOW_STATUS_INITIATED == 1);
    CHECK(WINDOW_STATUS_RUNNING == 2);
    CHECK(WINDOW_STATUS_COMPLETED == 3);
    CHECK(WINDOW_STATUS_COMMITTED == 4);
    CHECK(WINDOW_STATUS_ABORTED == 5);
    CHECK(WINDOW_MODE_READ == 1);
    CHECK(WINDOW_MODE_WRITE == 2);
    CHECK(WINDOW_MODE_BOTH == 3);
    CHECK(WINDOW_TIE_WAIT == 1);
    CHECK(WINDOW_TIE_FALL == 2);
    CHECK(WINDOW_TIE_GROUP == 3);
    CHECK(WINDOW_ANYBODY == 0);
    CHECK(WINDOW_EVERY_ENTRY == 65535);
    CHECK(WINDOW_MOST_ENTRIES == 256);
    CHECK(WINDOW_MOST_CHANGES == 255);
    CHECK(WINDOW_MOST_LOG_RECORDS == 2048);
    CHECK(WINDOW_MOST_PERMITS == 1024);
    CHECK(WINDOW_MOST_TIES == 512);
    CHECK(WINDOW_SIZE == 37952);
}

int main(void)
{
    check_answers();
    check_numbers();
    work();
    hand_over();
    return EXIT_SUCCESS;
}
