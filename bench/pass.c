/* What the calls are measured by: passes over a window's bytes. */
#include <stddef.h>
#include <stdint.h>

enum { BLOCK = 64 };

/*
 * One vectorised pass: the or of all bytes, by blocks. A block has a place of its own for each byte, so that no compiler makes
 * the whole pass wait on one register.
 *   length  a multiple of BLOCK
 */
uint8_t pass(const uint8_t *bytes, size_t length) {
    uint8_t block[BLOCK] = {0};
    for (size_t i = 0; i < length; i += BLOCK)
        for (size_t j = 0; j < BLOCK; j++)
            block[j] |= bytes[i + j];
    uint8_t all = 0;
    for (size_t j = 0; j < BLOCK; j++)
        all |= block[j];
    return all;
}

/* The same as the plainest loop, for comparison: how fast it is hangs on the compiler. */
uint8_t plain_pass(const uint8_t *bytes, size_t length) {
    uint8_t all = 0;
    for (size_t i = 0; i < length; i++)
        all |= bytes[i];
    return all;
}
