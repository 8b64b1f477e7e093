/*
 * A pool of six entries, each with a weight. An engineer drains an entry: its weight becomes 0. A colleague takes the
 * work over and the two changes are tied as a group, so that the engineer cannot commit alone. The colleague withdraws:
 * both changes end and the weight is given back. First with entry 3, then with entry 0.
 */
#include <stdio.h>
#include <stdlib.h>

#include "window.h"
#include "window_text.h"

static uint8_t memory[WINDOW_SIZE];

/* The lent memory, the first two arguments of every call. */
#define POOL memory, sizeof memory

/* Ends the program where a call is answered otherwise than it is to be; gives its second number. */
static uint32_t expect(uint32_t answer, window_reply reply)
{
    if (reply.answer != answer) {
        fprintf(stderr, "%s\n", window_answer_text(reply.answer));
        exit(EXIT_FAILURE);
    }
    return reply.number;
}

static uint32_t done(window_reply reply)
{
    return expect(WINDOW_DONE, reply);
}

static window_reply show(const char *call, window_reply reply)
{
    printf("  %-22s %s, number %u\n", call, window_answer_text(reply.answer), (unsigned)reply.number);
    return reply;
}

static void print_values(void)
{
    printf("weights");
    for (uint32_t entry = 0; entry < 6; entry++)
        printf(" %u", (unsigned)done(window_value(POOL, entry)));
    printf("\n");
}

/* One change sets the weights 10, 20, ..., 60 and is committed. */
static void set_up(void)
{
    done(window_open(POOL, 6));
    uint32_t setup = done(window_initiate(POOL, 0));
    done(window_begin(POOL, setup));
    for (uint32_t entry = 0; entry < 6; entry++) {
        done(window_lock(POOL, setup, entry, WINDOW_MODE_WRITE));
        done(window_write(POOL, setup, entry, 10 * (entry + 1)));
    }
    done(window_complete(POOL, setup));
    done(window_commit(POOL, setup));
}

/* The drain: a write needs the write lock. */
static void drain(uint32_t engineer, uint32_t entry)
{
    done(show("begin engineer's", window_begin(POOL, engineer)));
    done(show("lock", window_lock(POOL, engineer, entry, WINDOW_MODE_WRITE)));
    done(show("write 0", window_write(POOL, engineer, entry, 0)));
    print_values();
}

static void hand_over_and_withdraw(uint32_t entry)
{
    printf("drain entry %u, hand over, withdraw\n", (unsigned)entry);
    uint32_t engineer = done(show("initiate engineer's", window_initiate(POOL, 0)));
    uint32_t colleague = done(show("initiate colleague's", window_initiate(POOL, 0)));
    drain(engineer, entry);

    /* The lock, and the log record with the weight before, go to the colleague's change. */
    done(show("delegate", window_delegate(POOL, engineer, colleague, entry)));
    done(show("tie as a group", window_depend(POOL, WINDOW_TIE_GROUP, engineer, colleague)));

    /* The number says who holds it up: the colleague's change, which is not completed. */
    done(show("complete engineer's", window_complete(POOL, engineer)));
    expect(WINDOW_BLOCKED, show("commit engineer's", window_commit(POOL, engineer)));

    /* Number 2: both changes ended. */
    done(show("abort colleague's", window_abort(POOL, colleague)));
    done(show("status of engineer's", window_status(POOL, engineer)));
    print_values();
}

int main(void)
{
    set_up();
    print_values();
    hand_over_and_withdraw(3);
    hand_over_and_withdraw(0);
    return EXIT_SUCCESS;
}
