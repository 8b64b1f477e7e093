/* A window's answers in words, for logs and messages. */
#ifndef WINDOW_TEXT_H
#define WINDOW_TEXT_H

#include <stdint.h>

#ifdef __cplusplus
extern "C" {
#endif

/*
 * The words of enum window_answer (window.h), up to a parenthesis; "no answer of a window" for any other number.
 * The text is constant: never NULL, and not to be freed.
 */
const char *window_answer_text(uint32_t answer);

#ifdef __cplusplus
}
#endif

#endif
