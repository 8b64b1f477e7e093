/* The compiler must warn of every line of it. */
#include "window.h"

void ignore(uint8_t *w, size_t n);

void ignore(uint8_t *w, size_t n)
{
    window_open(w, n, 1);
    window_initiate(w, n, 0);
    window_begin(w, n, 1);
    window_complete(w, n, 1);
    window_lock(w, n, 1, 0, WINDOW_MODE_READ);
    window_read(w, n, 1, 0);
    window_write(w, n, 1, 0, 7);
    window_permit(w, n, 1, 2, 0, WINDOW_MODE_READ);
    window_delegate(w, n, 1, 2, 0);
    window_depend(w, n, WINDOW_TIE_WAIT, 1, 2);
    window_commit(w, n, 1);
    window_abort(w, n, 1);
    window_status(w, n, 1);
    window_parent(w, n, 1);
    window_value(w, n, 0);
}
