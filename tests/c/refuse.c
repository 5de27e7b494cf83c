#include "refuse.h"
#include <stddef.h>

void *__real_malloc(size_t size);
void *__real_realloc(void *old, size_t size);
void *__wrap_malloc(size_t size);
void *__wrap_realloc(void *old, size_t size);

/* How many allocations come up to the refused one, with it; at 0 none is refused any more. */
static unsigned long left;
static int is_in_call, is_done, was_done;

void refuse_at(unsigned long number) {
    left = number;
    is_done = 0;
}

void refuse_begin(void) {
    is_in_call = 1;
    was_done = is_done;
}

int refuse_end(void) {
    is_in_call = 0;
    return is_done && !was_done;
}

int refuse_done(void) {
    return is_done;
}

static int is_refused(void) {
    if (!is_in_call || !left || --left)
        return 0;
    is_done = 1;
    return 1;
}

void *__wrap_malloc(size_t size) {
    return is_refused() ? NULL : __real_malloc(size);
}

void *__wrap_realloc(void *old, size_t size) {
    return is_refused() ? NULL : __real_realloc(old, size);
}
