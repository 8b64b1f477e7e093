/* Plain C, and so beside crates/, where everything is proved. */
#include "window_text.h"

#include "window.h"

static const char *const texts[] = {
    [WINDOW_DONE] = "done",
    [WINDOW_NOT_SOUND] = "the memory is shorter than a window or not a sound one",
    [WINDOW_BAD_ENTRIES] = "the number of entries is not 1 to 256",
    [WINDOW_NO_CHANGE] = "a change number is 0 or was never given",
    [WINDOW_NO_ENTRY] = "an entry number is not below the number of entries",
    [WINDOW_BAD_OPTION] = "a mode, operations or kind is not one of its values",
    [WINDOW_SAME_CHANGE] = "the two changes are the same",
    [WINDOW_BAD_STATUS] = "a change's status does not suit",
    [WINDOW_NO_LOCK] = "a read has no lock on the entry, or a write no write lock",
    [WINDOW_CYCLE] = "the tie would let a path of wait and fall ties return to its group",
    [WINDOW_CLASH] = "after the delegate two locks would clash without a permit",
    [WINDOW_FULL] = "no room",
    [WINDOW_IN_LINE] = "the change stands in another entry's line",
    [WINDOW_BLOCKED] = "the lock or the commit has to wait",
    [WINDOW_ENDED] = "a commit of an aborted change, or an abort of a committed one",
};

const char *window_answer_text(uint32_t answer)
{
    if (answer >= sizeof texts / sizeof texts[0] || texts[answer] == NULL)
        return "no answer of a window";
    return texts[answer];
}
