/*
 * What lock, write and commit do to a window's bytes, by hand and without any check: written from docs/WINDOW.md.
 * The window must be sound, and the call one that is answered 0 and changes it.
 */
#include <stddef.h>
#include <stdint.h>
#include <string.h>

enum { VALUES = 64, CHANGES = 1088, LINE = 2112, LOCKS = 3136, PERMITS = 19520, TIES = 23616, LOG = 25664 };
enum { RECORDS_AT = 4, PERMITS_AT = 6, TIES_AT = 8, WAITERS_AT = 10 };
enum { COMMITTED = 4, GROUP = 3 };

typedef struct set {
    uint64_t words[4];
} set;

static unsigned get16(const uint8_t *at) {
    uint16_t x;
    memcpy(&x, at, sizeof x);
    return x;
}

static void put16(uint8_t *at, unsigned value) {
    uint16_t x = (uint16_t)value;
    memcpy(at, &x, sizeof x);
}

static int has(const set *s, unsigned c) {
    return s->words[c / 64] >> (c % 64) & 1;
}

static void add(set *s, unsigned c) {
    s->words[c / 64] |= (uint64_t)1 << (c % 64);
}

/* The change leaves the line, if it stands there. */
static void leave_line(uint8_t *window, unsigned change) {
    unsigned count = get16(window + WAITERS_AT);
    for (unsigned i = 0; i < count; i++) {
        uint8_t *place = window + LINE + 4 * i;
        if (place[0] == change) {
            memmove(place, place + 4, 4 * (count - i - 1));
            memset(window + LINE + 4 * (count - 1), 0, 4);
            put16(window + WAITERS_AT, count - 1);
            return;
        }
    }
}

void effect_lock(uint8_t *window, uint32_t change, uint32_t entry, uint32_t mode) {
    leave_line(window, change);
    uint8_t *readers = window + LOCKS + 64 * entry + change / 8;
    uint8_t bit = (uint8_t)(1 << (change % 8));
    if (mode == 1) {
        readers[0] |= bit;
    } else {
        readers[0] &= (uint8_t)~bit;
        readers[32] |= bit;
    }
}

void effect_write(uint8_t *window, uint32_t change, uint32_t entry, uint32_t value) {
    unsigned records = get16(window + RECORDS_AT);
    uint8_t *record = window + LOG + 6 * records;
    record[0] = (uint8_t)change;
    record[1] = (uint8_t)entry;
    memcpy(record + 2, window + VALUES + 4 * entry, 4);
    memcpy(window + VALUES + 4 * entry, &value, 4);
    put16(window + RECORDS_AT, records + 1);
}

/* The change with all that group ties reach from it. They are the last of the ties. */
static set group_of(const uint8_t *window, unsigned change) {
    set s = {{0}};
    add(&s, change);
    const uint8_t *last = window + TIES + 4 * get16(window + TIES_AT);
    for (int grows = 1; grows;) {
        grows = 0;
        for (const uint8_t *tie = last; tie > window + TIES && tie[-4] == GROUP; tie -= 4) {
            if (has(&s, tie[-3]) != has(&s, tie[-2])) {
                add(&s, tie[-3]);
                add(&s, tie[-2]);
                grows = 1;
            }
        }
    }
    return s;
}

/*
 * Drops the rows of a table in which byte `first` or `last` is in the set, and counts the others in the header.
 * In line, so that the rows' size is known where they are moved.
 */
static inline __attribute__((always_inline)) void drop_rows(uint8_t *window, unsigned at, size_t size, unsigned first,
                                                            unsigned last, unsigned count_at, const set *s) {
    unsigned count = get16(window + count_at), kept = 0;
    uint8_t *table = window + at;
    for (unsigned i = 0; i < count; i++) {
        uint8_t row[8];
        memcpy(row, table + size * i, size);
        int goes = has(s, row[first]) | has(s, row[last]);
        memcpy(table + size * kept, row, size);
        kept += !goes;
    }
    memset(table + size * kept, 0, size * (count - kept));
    put16(window + count_at, kept);
}

static void drop_locks(uint8_t *window, const set *s) {
    unsigned entries = get16(window);
    for (unsigned i = 0; i < 8 * entries; i++) {
        uint64_t word;
        memcpy(&word, window + LOCKS + 8 * i, 8);
        word &= ~s->words[i % 4];
        memcpy(window + LOCKS + 8 * i, &word, 8);
    }
}

/* How many changes ended. */
uint32_t effect_commit(uint8_t *window, uint32_t change) {
    set s = group_of(window, change);
    uint32_t ended = 0;
    for (unsigned i = 0; i < 4; i++) {
        for (uint64_t word = s.words[i]; word != 0; word &= word - 1) {
            window[CHANGES + 4 * (64 * i + (unsigned)__builtin_ctzll(word))] = COMMITTED;
            ended++;
        }
    }
    drop_locks(window, &s);
    drop_rows(window, PERMITS, 4, 1, 2, PERMITS_AT, &s);
    drop_rows(window, TIES, 4, 1, 2, TIES_AT, &s);
    drop_rows(window, LOG, 6, 0, 0, RECORDS_AT, &s);
    return ended;
}
