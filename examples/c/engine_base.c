#include "engine_base.h"
#include <inttypes.h>
#include <stdarg.h>
#include <stdio.h>
#include <stdlib.h>

enum { DIFFERENT = 1, NO_MEMORY = 2 };

uint64_t frame_now;

/* The generator splitmix64. */
uint64_t dice_next(dice *it) {
    uint64_t mixed = it->state += UINT64_C(0x9e3779b97f4a7c15);
    mixed = (mixed ^ mixed >> 30) * UINT64_C(0xbf58476d1ce4e5b9);
    mixed = (mixed ^ mixed >> 27) * UINT64_C(0x94d049bb133111eb);
    return mixed ^ mixed >> 31;
}

uint32_t dice_below(dice *it, uint32_t bound) {
    return (uint32_t)(dice_next(it) % bound);
}

int dice_one_in(dice *it, uint32_t count) {
    return dice_below(it, count) == 0;
}

void dice_fill(dice *it, unsigned char *bytes, size_t count) {
    for (size_t at = 0; at < count; at++)
        bytes[at] = (unsigned char)(1 + dice_below(it, 255));
}

static void *found(void *memory) {
    if (!memory) {
        fputs("the host has no memory\n", stderr);
        exit(NO_MEMORY);
    }
    return memory;
}

void *taken(size_t count, size_t size) {
    return found(calloc(count ? count : 1, size));
}

void *widened(void *old, size_t count, size_t size) {
    if (size && count > SIZE_MAX / size)
        return found(NULL);
    return found(realloc(old, count * size));
}

void broken(const char *form, ...) {
    va_list words;
    printf("frame %" PRIu64 ": ", frame_now);
    va_start(words, form);
    vprintf(form, words);
    va_end(words);
    putchar('\n');
    exit(DIFFERENT);
}
