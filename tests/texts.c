/* Prints each answer that has a text, as the header's enum has them: "20: the lock or the commit has to wait". */
#include <string.h>

#include "check.h"
#include "window_text.h"

#define UNKNOWN "no answer of a window"

static int known(uint32_t answer)
{
    return strcmp(window_answer_text(answer), UNKNOWN) != 0;
}

/* No other answer has the same text. */
static void check_own(uint32_t answer)
{
    for (uint32_t other = 0; other < answer; other++)
        CHECK(strcmp(window_answer_text(other), window_answer_text(answer)) != 0);
}

int main(void)
{
    for (uint32_t answer = 0; answer < 1000; answer++)
        if (known(answer)) {
            check_own(answer);
            printf("%u: %s\n", (unsigned)answer, window_answer_text(answer));
        }
    CHECK(!known(UINT32_MAX) && !known(UINT32_MAX / 2 + 1));
    return EXIT_SUCCESS;
}
