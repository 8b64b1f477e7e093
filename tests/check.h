/* What the C tests share: a check that ends the program, and a call's reply held to what is due. */
#ifndef CHECK_H
#define CHECK_H

#include <stdio.h>
#include <stdlib.h>

#include "window.h"

#define CHECK(test) check(test, #test, __FILE__, __LINE__)
#define GIVES(call, answer, number) gives(call, answer, number, #call, __FILE__, __LINE__)

static inline void check(int passed, const char *what, const char *file, int line)
{
    if (!passed) {
        fprintf(stderr, "%s:%d: %s\n", file, line, what);
        exit(EXIT_FAILURE);
    }
}

static inline void gives(window_reply reply, uint32_t answer, uint32_t number, const char *what, const char *file,
                         int line)
{
    if (reply.answer != answer || reply.number != number)
        fprintf(stderr, "answer %u, number %u; due are %u, %u\n", (unsigned)reply.answer, (unsigned)reply.number,
                (unsigned)answer, (unsigned)number);
    check(reply.answer == answer && reply.number == number, what, file, line);
}

#endif
