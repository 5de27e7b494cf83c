/* An engine with a software driver. It runs frames of a page that acts at random, and compares each range that is mapped, and after each
 * frame all that is there, with a zeroed device that runs the same commands one by one.
 *
 *     engine [--frames N] [--seed N] [--forget barriers|clears|shadow|zeros]
 *
 * It prints a line of what was done and compared, and ends with status 0; or the first difference, and status 1. By `--forget` the driver
 * leaves out something that docs/embedding.md asks of it, and the difference shows what that is for.
 *
 * Read engine_device.c first, which makes the calls and drains what comes of them, and then engine_driver.c, which does what was drained.
 * engine_memory.c has the memory that the driver works on, engine_commands.c what commands do to it, and engine_page.c, engine_copies.c and
 * engine_passes.c the page. */
#include "engine_page.h"
#include <inttypes.h>
#include <stdio.h>
#include <stdlib.h>
#include <string.h>

enum { WRONG_WORDS = 2 };

static const char *const FORGOTTEN[] = {
    [FORGETS_NOTHING] = "nothing", [FORGETS_BARRIERS] = "barriers", [FORGETS_CLEARS] = "clears", [FORGETS_SHADOW] = "shadow",
    [FORGETS_ZEROS] = "zeros",
};

typedef struct asked {
    uint64_t frames, seed;
    int forgets;
} asked;

static int number_of(const char *word, uint64_t *out) {
    char *end;
    *out = strtoull(word, &end, 10);
    return *word >= '0' && *word <= '9' && !*end;
}

static int forgotten(const char *word, int *out) {
    for (*out = 0; *out < (int)(sizeof FORGOTTEN / sizeof *FORGOTTEN); ++*out)
        if (!strcmp(word, FORGOTTEN[*out]))
            return 1;
    return 0;
}

/* Reads the words of the command line, in pairs. False: they are none. */
static int read_words(int count, char **words, asked *out) {
    for (int at = 1; at < count; at += 2) {
        const char *name = words[at], *value = at + 1 < count ? words[at + 1] : "";
        int is_right = !strcmp(name, "--frames") ? number_of(value, &out->frames)
            : !strcmp(name, "--seed")            ? number_of(value, &out->seed)
            : !strcmp(name, "--forget")          ? forgotten(value, &out->forgets)
                                                 : 0;
        if (!is_right)
            return 0;
    }
    return 1;
}

static void tell(const asked *wanted, const tally *of, const done *by) {
    printf("frames %" PRIu64 " calls %" PRIu64 " submits %" PRIu64 " faults %" PRIu64, wanted->frames, of->calls, of->submits, of->faults);
    printf(" empty %" PRIu64 " steps %" PRIu64 " late %" PRIu64 " clears %" PRIu64, of->empty, by->steps, by->late, by->clears);
    printf(" barriers %" PRIu64 " releases %" PRIu64 "; as on a zeroed device:", by->barriers, by->releases);
    printf(" mapped ranges %" PRIu64 " resources %" PRIu64 " bytes %" PRIu64 "\n", of->mapped, of->resources, of->bytes);
}

int main(int count, char **words) {
    asked wanted = {.frames = 1000, .seed = 1};
    page *it = taken(1, sizeof *it);
    if (!read_words(count, words, &wanted)) {
        fprintf(stderr, "usage: %s [--frames N] [--seed N] [--forget barriers|clears|shadow|zeros]\n", words[0]);
        return WRONG_WORDS;
    }
    page_begin(it, wanted.seed, wanted.forgets);
    for (frame_now = 1; frame_now <= wanted.frames; frame_now++)
        page_frame(it);
    page_end(it);
    tell(&wanted, &it->engine.tally, &it->engine.driver.done);
    free(it);
    return 0;
}
