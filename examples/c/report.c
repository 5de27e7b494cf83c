#define _POSIX_C_SOURCE 200809L
#include "report.h"
#include <inttypes.h>
#include <stdlib.h>
#include <string.h>

static const char *const STEPS[] = {
    [WETHLORN_STEP_CLEAR] = "clear",
    [WETHLORN_STEP_WRITE_BUFFER] = "writeBuffer",
    [WETHLORN_STEP_WRITE_TEXTURE] = "writeTexture",
    [WETHLORN_STEP_COPY_BUFFER_TO_BUFFER] = "copyBufferToBuffer",
    [WETHLORN_STEP_COPY_BUFFER_TO_TEXTURE] = "copyBufferToTexture",
    [WETHLORN_STEP_COPY_TEXTURE_TO_BUFFER] = "copyTextureToBuffer",
    [WETHLORN_STEP_COPY_TEXTURE_TO_TEXTURE] = "copyTextureToTexture",
    [WETHLORN_STEP_CLEAR_BUFFER] = "clearBuffer",
    [WETHLORN_STEP_RESOLVE_QUERY_SET] = "resolveQuerySet",
    [WETHLORN_STEP_DISPATCH] = "dispatch",
    [WETHLORN_STEP_RENDER_PASS] = "renderPass",
    [WETHLORN_STEP_HOST_READ] = "hostRead",
    [WETHLORN_STEP_HOST_WRITE] = "hostWrite",
};
static const char *const HOWS[] = {
    [WETHLORN_MAPPED] = "mapped", [WETHLORN_DONE] = "done", [WETHLORN_ABORTED] = "aborted",
    [WETHLORN_REJECTED] = "rejected", [WETHLORN_NULL] = "null", [WETHLORN_ERROR] = "error",
};
static const char *const ACCESSES[] = {
    [WETHLORN_READ] = "read", [WETHLORN_WRITE] = "write", [WETHLORN_READ_WRITE] = "both",
    [WETHLORN_DISCARD] = "drop", [WETHLORN_READ_DISCARD] = "readdrop",
};
static const char *const FAULTS[] = {[WETHLORN_VALIDATION] = "validation", [WETHLORN_OUT_OF_MEMORY] = "out-of-memory"};
static const char *const ASPECTS[] = {[WETHLORN_COLOR] = "color", [WETHLORN_DEPTH] = "depth", [WETHLORN_STENCIL] = "stencil"};
static const char SORTS[] = {0, 'b', 'q', 't', 's'};

/* The usages of a set stand in the order of their bits. */
static const char *const USAGES[] = {
    "input", "constant", "storage", "storage-read", "attachment", "attachment-read", "copy-src",
    "copy-dst", "query-write", "query-read", "host-read", "host-write", "clear",
};

#define COUNT(list) (sizeof(list) / sizeof((list)[0]))
/* The word of a number, which a device only gives where it has one. */
#define WORD(list, number) ((number) < COUNT(list) && (list)[number] ? (list)[number] : "?")

int report_begin(report *it) {
    memset(it, 0, sizeof *it);
    it->history = open_memstream(&it->history_text, &it->history_size);
    it->trace = open_memstream(&it->trace_text, &it->trace_size);
    return it->history && it->trace;
}

static void put_set(FILE *out, uint32_t set) {
    const char *before = " ";
    for (size_t bit = 0; bit < COUNT(USAGES); bit++)
        if (set >> bit & 1) {
            fprintf(out, "%s%s", before, USAGES[bit]);
            before = "+";
        }
}

/* A part, or cells, which of a buffer or a query set have their bounds. */
static void put_range(FILE *out, const wethlorn_range *it, int is_cells) {
    fprintf(out, " %c %" PRIu64, it->sort < sizeof SORTS ? SORTS[it->sort] : '?', it->object);
    if (it->sort == WETHLORN_OF_SLICES)
        fprintf(out, " color %" PRIu32, it->mip);
    if (it->sort == WETHLORN_OF_TEXTURE)
        fprintf(out, " %s %" PRIu32, WORD(ASPECTS, it->aspect), it->mip);
    if (is_cells || it->sort == WETHLORN_OF_TEXTURE)
        fprintf(out, " %" PRIu64 " %" PRIu64, it->lo, it->hi);
}

/* A step, with its uses and accesses. False: they are not as many as the item says. */
static int put_step(report *it, wethlorn_device *device, const wethlorn_item *step) {
    wethlorn_use use;
    wethlorn_access access;
    fprintf(it->trace, "step %" PRIu64 " %s %" PRIu64 " %s\n", it->steps++, step->host ? "host" : "op", step->place, WORD(STEPS, step->name));
    for (size_t at = 0; at < step->uses; at++) {
        if (wethlorn_item_use(device, at, &use))
            return 0;
        fputs("use", it->trace);
        put_range(it->trace, &use.part, 0);
        put_set(it->trace, use.usages);
        fputc('\n', it->trace);
    }
    for (size_t at = 0; at < step->accesses; at++) {
        if (wethlorn_item_access(device, at, &access))
            return 0;
        fprintf(it->trace, "acc %s", WORD(ACCESSES, access.kind));
        put_range(it->trace, &access.cells, 1);
        fputc('\n', it->trace);
    }
    return wethlorn_item_use(device, step->uses, &use) == WETHLORN_END && wethlorn_item_access(device, step->accesses, &access) == WETHLORN_END;
}

static int put_item(report *it, wethlorn_device *device, const wethlorn_item *item) {
    switch (item->what) {
    case WETHLORN_BARRIER:
        fputs("bar", it->trace);
        put_range(it->trace, &item->part, 0);
        if (item->fresh)
            fputs(" none", it->trace);
        put_set(it->trace, item->from);
        put_set(it->trace, item->to);
        fputc('\n', it->trace);
        return 1;
    case WETHLORN_STEP:
        return put_step(it, device, item);
    case WETHLORN_RELEASE:
        fprintf(it->trace, "free %c %" PRIu64 "\n", item->part.sort < sizeof SORTS ? SORTS[item->part.sort] : '?', item->part.object);
        return 1;
    default:
        return 0;
    }
}

static void put_answer(FILE *out, const wethlorn_reply *reply) {
    if (reply->answer == WETHLORN_MADE)
        fprintf(out, "made %" PRIu64 " %s", reply->number, reply->valid ? "valid" : "invalid");
    else if (reply->answer == WETHLORN_QUEUED)
        fprintf(out, "op %" PRIu64, reply->number);
    else
        fputs(reply->answer == WETHLORN_PROMISED ? "promise" : reply->answer == WETHLORN_PLAIN ? "plain" : "bad", out);
    if (reply->fault)
        fprintf(out, " fault %s %" PRIu32, WORD(FAULTS, reply->fault), reply->rule);
    if (reply->fault && reply->caught)
        fprintf(out, " scope %" PRIu64, reply->scope);
    else if (reply->fault)
        fputs(" uncaptured", out);
}

/* The promises that a call settles. False: they are not as many as its reply says. */
static int put_settlements(FILE *out, wethlorn_device *device, uint64_t count) {
    wethlorn_settlement told;
    for (; count; count--) {
        if (wethlorn_next_settlement(device, &told))
            return 0;
        fprintf(out, " settle %" PRIu64 " %s", told.promise, WORD(HOWS, told.how));
        if (told.how == WETHLORN_ERROR)
            fprintf(out, " %s %" PRIu32, WORD(FAULTS, told.fault), told.rule);
    }
    return wethlorn_next_settlement(device, &told) == WETHLORN_END;
}

int report_call(report *it, wethlorn_device *device, uint32_t who, const char *word, const wethlorn_reply *reply) {
    wethlorn_item item;
    uint32_t status;
    if (reply->entry != it->entries++)
        return 0;
    fprintf(it->history, "%" PRIu64 " %" PRIu32 " %s ", reply->entry, who, word);
    put_answer(it->history, reply);
    if (!put_settlements(it->history, device, reply->settles))
        return 0;
    fputc('\n', it->history);
    while ((status = wethlorn_next_item(device, &item)) == WETHLORN_OK)
        if (!put_item(it, device, &item))
            return 0;
    return status == WETHLORN_END;
}

char *report_end(report *it) {
    char *text = NULL;
    size_t size = 0;
    FILE *whole = open_memstream(&text, &size);
    int is_whole = it->history && it->trace && whole && !fclose(it->history) && !fclose(it->trace);
    if (is_whole)
        fprintf(whole, "history\n%strace\n%send\n", it->history_text, it->trace_text);
    is_whole = whole && !fclose(whole) && is_whole;
    free(it->history_text);
    free(it->trace_text);
    if (is_whole)
        return text;
    free(text);
    return NULL;
}
