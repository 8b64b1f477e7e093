/*
 * Every call on memory between two pages that nobody may touch: behind the first, and so that the window, or what is
 * lent of it, ends at the second. A call that touches a byte before or past that ends the test by a signal. A call that
 * only reads gets memory that cannot be written.
 */
#define _DEFAULT_SOURCE
#include <signal.h>
#include <string.h>
#include <sys/mman.h>
#include <unistd.h>

#include "check.h"

/* What may be touched: whole pages with more room than a window needs. */
#define ROOM 65536

static const struct call {
    const char *name;
    int only_reads;
    uint32_t number; /* its second number on the window of `prepare` */
} calls[] = {
    {"open", 0, 0},   {"initiate", 0, 5}, {"begin", 0, 0},  {"complete", 0, 0}, {"lock", 0, 0},
    {"read", 1, 7},   {"write", 0, 0},    {"permit", 0, 0}, {"delegate", 0, 0}, {"depend", 0, 0},
    {"commit", 0, 1}, {"abort", 0, 1},    {"status", 1, 3}, {"parent", 1, 1},   {"value", 1, 7},
};

enum { CALLS = sizeof calls / sizeof calls[0] };

static uint8_t sound[WINDOW_SIZE];
static uint8_t *room;
static const char *now = "prepare";

/* Makes the call at a place of `calls`. */
static window_reply make(int call, uint8_t *w, size_t n)
{
    switch (call) {
    case 0: return window_open(w, n, 6);
    case 1: return window_initiate(w, n, 1);
    case 2: return window_begin(w, n, 3);
    case 3: return window_complete(w, n, 2);
    case 4: return window_lock(w, n, 2, 1, WINDOW_MODE_WRITE);
    case 5: return window_read(w, n, 1, 0);
    case 6: return window_write(w, n, 1, 0, 9);
    case 7: return window_permit(w, n, 1, 2, 0, WINDOW_MODE_BOTH);
    case 8: return window_delegate(w, n, 1, 2, WINDOW_EVERY_ENTRY);
    case 9: return window_depend(w, n, WINDOW_TIE_FALL, 1, 2);
    case 10: return window_commit(w, n, 4);
    case 11: return window_abort(w, n, 1);
    case 12: return window_status(w, n, 4);
    case 13: return window_parent(w, n, 3);
    default: return window_value(w, n, 0);
    }
}

/* Changes 1 and 2 run, 3 is initiated and a child of 1, 4 is completed; 1 has written 7 to entry 0. */
static void prepare(void)
{
    GIVES(window_open(sound, WINDOW_SIZE, 4), WINDOW_DONE, 0);
    GIVES(window_initiate(sound, WINDOW_SIZE, 0), WINDOW_DONE, 1);
    GIVES(window_begin(sound, WINDOW_SIZE, 1), WINDOW_DONE, 0);
    GIVES(window_initiate(sound, WINDOW_SIZE, 0), WINDOW_DONE, 2);
    GIVES(window_begin(sound, WINDOW_SIZE, 2), WINDOW_DONE, 0);
    GIVES(window_initiate(sound, WINDOW_SIZE, 1), WINDOW_DONE, 3);
    GIVES(window_initiate(sound, WINDOW_SIZE, 0), WINDOW_DONE, 4);
    GIVES(window_begin(sound, WINDOW_SIZE, 4), WINDOW_DONE, 0);
    GIVES(window_complete(sound, WINDOW_SIZE, 4), WINDOW_DONE, 0);
    GIVES(window_lock(sound, WINDOW_SIZE, 1, 0, WINDOW_MODE_WRITE), WINDOW_DONE, 0);
    GIVES(window_write(sound, WINDOW_SIZE, 1, 0, 7), WINDOW_DONE, 0);
}

static void allow(int protection)
{
    CHECK(mprotect(room, ROOM, protection) == 0);
}

/* Whether the bytes from one place of the room to another are as before. */
static int same(const uint8_t *before, size_t from, size_t to)
{
    return memcmp(room + from, before + from, to - from) == 0;
}

/* The call on so many bytes of `contents`, lent from a place of the room on. */
static void try(int call, const uint8_t *contents, int is_sound, size_t at, size_t length)
{
    static uint8_t before[ROOM];
    const struct call *c = &calls[call];
    int done = length >= WINDOW_SIZE && (is_sound || call == 0);
    memset(room, 0x5a, ROOM);
    memcpy(room + at, contents, length < WINDOW_SIZE ? length : WINDOW_SIZE);
    memcpy(before, room, ROOM);
    now = c->name;
    if (c->only_reads)
        allow(PROT_READ);
    GIVES(make(call, room + at, length), done ? WINDOW_DONE : WINDOW_NOT_SOUND, done ? c->number : 0);
    allow(PROT_READ | PROT_WRITE);
    if (done && !c->only_reads)
        CHECK(same(before, 0, at) && !same(before, at, at + WINDOW_SIZE) && same(before, at + WINDOW_SIZE, ROOM));
    else
        CHECK(same(before, 0, ROOM));
}

/* Each call, on each length, behind the first page and before the second. */
static void try_all(const uint8_t *contents, int is_sound)
{
    static const size_t lengths[] = {0, 1, WINDOW_SIZE - 1, WINDOW_SIZE, WINDOW_SIZE + 1};
    for (int call = 0; call < CALLS; call++)
        for (size_t i = 0; i < sizeof lengths / sizeof lengths[0]; i++) {
            size_t length = lengths[i];
            try(call, contents, is_sound, 0, length);
            try(call, contents, is_sound, ROOM - (length < WINDOW_SIZE ? length : WINDOW_SIZE), length);
        }
}

/* Zeros, ones, and the sound window with one byte changed: its first figure, and its last byte. */
static void try_unsound(void)
{
    static uint8_t unsound[WINDOW_SIZE];
    try_all(unsound, 0);
    memset(unsound, 0xff, WINDOW_SIZE);
    try_all(unsound, 0);
    memcpy(unsound, sound, WINDOW_SIZE);
    unsound[0] = 0;
    try_all(unsound, 0);
    unsound[0] = sound[0];
    unsound[WINDOW_SIZE - 1] = 1;
    try_all(unsound, 0);
}

static void told(int number)
{
    static const char text[] = ": a byte was touched that must not be\n";
    if (write(STDERR_FILENO, now, strlen(now)) < 0 || write(STDERR_FILENO, text, sizeof text - 1) < 0)
        _exit(EXIT_FAILURE);
    _exit(number);
}

int main(void)
{
    size_t page = (size_t)sysconf(_SC_PAGESIZE);
    uint8_t *all = mmap(NULL, ROOM + 2 * page, PROT_NONE, MAP_PRIVATE | MAP_ANONYMOUS, -1, 0);
    CHECK(all != MAP_FAILED && ROOM % page == 0);
    room = all + page;
    allow(PROT_READ | PROT_WRITE);
    signal(SIGSEGV, told);
    prepare();
    try_all(sound, 1);
    try_unsound();
    for (int call = 0; call < CALLS; call++)
        GIVES(make(call, NULL, 0), WINDOW_NOT_SOUND, 0);
    printf("%d calls touch what is lent to them alone\n", (int)CALLS);
    return EXIT_SUCCESS;
}
