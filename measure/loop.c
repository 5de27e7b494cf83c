/* Drives a device through the header alone, by the same calls over and over, so that what they cost can be counted (measure/bench).
 *
 * usage: loop KIND COUNT
 *
 * A round makes a buffer, writes it, copies from it by an encoder of its own, finishes, submits and completes that, destroys the buffer,
 * and drops buffer, encoder and command buffer. By kind:
 *
 *   rounds       as many rounds
 *   kept         the same, and the buffers of 1,000 rounds, as far apart as may be, are neither destroyed nor dropped
 *   behind       the same as rounds, with a queue three rounds behind: what was submitted is completed three rounds later
 *   dispatches   so many dispatches in one pass, each behind a setBindGroup
 *   copies       so many copies in one encoder, from one buffer to another
 *   writes       so many writes of one buffer
 *   undrained    the same, and nothing is drained
 *   singly       the same, and at the end all is drained item by item, with each use and access
 *   arrays       the same, and at the end all is drained by arrays
 *   encoders     so many encoders, each with a copy and its finish
 *   groups       so many bind groups, each of which is dropped at once
 *   states       so many viewports and scissor rectangles that are set in one render pass, one after the other
 *
 * What calls add to the trace and what they settle is drained as an engine does it: behind each call that queues, completes or destroys
 * something, and of a step that is no command of the engine's own the accesses too, but where it says otherwise. Nothing is submitted but in rounds. It prints the kind,
 * the count, how many calls and items there were, and the most memory that was resident, in KB. */
#define _XOPEN_SOURCE 700
#include "wethlorn.h"
#include <inttypes.h>
#include <stdio.h>
#include <stdlib.h>
#include <string.h>
#include <sys/resource.h>

enum { SIZE = 64, PART = 16, KEPT = 1000, BEHIND = 3, ROOM = 1024 };

/* A device, and what was asked of it. `due` has the operations of the last rounds, in turn. */
typedef struct driven {
    wethlorn_device device;
    uint64_t calls, items, kept, due[BEHIND];
} driven;

static void fail(const char *what, uint32_t status, const wethlorn_reply *reply) {
    fprintf(stderr, "%s: status %" PRIu32 ", rule %" PRIu32 "\n", what, status, reply->rule);
    exit(1);
}

/* The number that a call gives, which has to have been made without a fault. */
static uint64_t given(driven *it, const char *what, uint32_t status, const wethlorn_reply *reply) {
    it->calls++;
    if (status != WETHLORN_OK || reply->fault || (reply->answer == WETHLORN_MADE && !reply->valid))
        fail(what, status, reply);
    return reply->number;
}

/* A command, which has to have been kept. */
static void recorded(driven *it, const char *what, uint32_t status) {
    const wethlorn_reply none = {0};
    it->calls++;
    if (status != WETHLORN_OK)
        fail(what, status, &none);
}

/* Whether a step is no command of the engine's own, so that only its accesses say what is to be done. */
static int goes_by_accesses(const wethlorn_item *item) {
    return item->what == WETHLORN_STEP &&
        (item->name == WETHLORN_STEP_CLEAR || item->name == WETHLORN_STEP_HOST_READ || item->name == WETHLORN_STEP_HOST_WRITE);
}

static void drain(driven *it) {
    wethlorn_item item;
    wethlorn_access access;
    wethlorn_settlement settlement;
    while (wethlorn_next_item(&it->device, &item) == WETHLORN_OK) {
        it->items++;
        for (size_t at = 0; goes_by_accesses(&item) && at < item.accesses; at++)
            if (wethlorn_item_access(&it->device, at, &access) != WETHLORN_OK)
                exit(1);
    }
    while (wethlorn_next_settlement(&it->device, &settlement) == WETHLORN_OK)
        continue;
}

static uint64_t make_buffer(driven *it, wethlorn_buffer_usage usage) {
    wethlorn_buffer_desc desc = {.size = SIZE, .usage = usage};
    wethlorn_reply reply = {0};
    return given(it, "createBuffer", wethlorn_create_buffer(&it->device, &desc, &reply), &reply);
}

static uint64_t make_encoder(driven *it, wethlorn_encoder *encoder) {
    wethlorn_reply reply = {0};
    return given(it, "createCommandEncoder", wethlorn_create_encoder(&it->device, encoder, &reply), &reply);
}

static void copy(driven *it, wethlorn_encoder *encoder, uint64_t source, uint64_t target) {
    wethlorn_buffer_copy copy = {.source = source, .target = target, .size = PART};
    recorded(it, "copyBufferToBuffer", wethlorn_copy_buffer_to_buffer(&it->device, encoder, &copy));
}

static uint64_t finish(driven *it, wethlorn_encoder *encoder) {
    wethlorn_reply reply = {0};
    return given(it, "finish", wethlorn_finish(&it->device, encoder, &reply), &reply);
}

/* The operation of a submit. */
static uint64_t submit(driven *it, uint64_t buffer) {
    wethlorn_reply reply = {0};
    uint64_t op = given(it, "submit", wethlorn_submit(&it->device, &buffer, 1, &reply), &reply);
    drain(it);
    return op;
}

/* The operation of a write. */
static uint64_t write_buffer(driven *it, uint64_t buffer) {
    wethlorn_reply reply = {0};
    uint64_t op = given(it, "writeBuffer", wethlorn_write_buffer(&it->device, buffer, 0, PART, &reply), &reply);
    drain(it);
    return op;
}

static void complete(driven *it, uint64_t op) {
    wethlorn_reply reply = {0};
    given(it, "complete", wethlorn_complete(&it->device, op, &reply), &reply);
    drain(it);
}

static void destroy(driven *it, uint64_t object) {
    wethlorn_reply reply = {0};
    given(it, "destroy", wethlorn_destroy(&it->device, object, &reply), &reply);
    drain(it);
}

static void drop(driven *it, uint64_t object) {
    wethlorn_reply reply = {0};
    given(it, "drop", wethlorn_drop(&it->device, object, &reply), &reply);
}

/* Drops the buffer of a round after it was destroyed, but for those that are kept, of all rounds so many and as far apart as may be. */
static void end_buffer(driven *it, uint64_t buffer, uint64_t keeps, uint64_t round, uint64_t count) {
    if (it->kept * count < keeps * (round + 1) && it->kept < keeps) {
        it->kept++;
        return;
    }
    destroy(it, buffer);
    drop(it, buffer);
}

/* So many rounds. The operation of a round is completed at once, or so many rounds later; the last ones at the end. */
static void take_rounds(driven *it, uint64_t count, uint64_t keeps, uint64_t behind) {
    uint64_t target = make_buffer(it, WETHLORN_BUFFER_USAGE_COPY_DST), op = 0;
    for (uint64_t round = 0; round < count; round++) {
        uint64_t buffer = make_buffer(it, WETHLORN_BUFFER_USAGE_COPY_SRC | WETHLORN_BUFFER_USAGE_COPY_DST), number, commands;
        wethlorn_encoder encoder = {0};
        write_buffer(it, buffer);
        number = make_encoder(it, &encoder);
        copy(it, &encoder, buffer, target);
        commands = finish(it, &encoder);
        wethlorn_close_encoder(&encoder);
        op = submit(it, commands);
        if (!behind)
            complete(it, op);
        else if (round >= behind)
            complete(it, it->due[round % behind]);
        if (behind)
            it->due[round % behind] = op;
        end_buffer(it, buffer, keeps, round, count);
        drop(it, commands);
        drop(it, number);
    }
    if (behind && count)
        complete(it, op);
}

static void rounds(driven *it, uint64_t count) {
    take_rounds(it, count, 0, 0);
}

static void kept(driven *it, uint64_t count) {
    take_rounds(it, count, KEPT, 0);
}

static void behind(driven *it, uint64_t count) {
    take_rounds(it, count, 0, BEHIND);
}

/* A layout of one storage and one uniform buffer, which compute shaders see. */
static uint64_t make_layout(driven *it) {
    wethlorn_layout_entry entries[] = {
        {.binding = 0, .visibility = WETHLORN_VISIBILITY_COMPUTE, .holds = {.kind = WETHLORN_BIND_STORAGE}},
        {.binding = 1, .visibility = WETHLORN_VISIBILITY_COMPUTE, .holds = {.kind = WETHLORN_BIND_UNIFORM}},
    };
    wethlorn_reply reply = {0};
    return given(it, "createBindGroupLayout", wethlorn_create_bind_group_layout(&it->device, entries, 2, &reply), &reply);
}

static uint64_t make_group(driven *it, uint64_t layout, uint64_t storage, uint64_t uniform) {
    wethlorn_group_entry entries[] = {
        {.binding = 0, .bound = WETHLORN_BOUND_BUFFER, .object = storage, .size = WETHLORN_NONE},
        {.binding = 1, .bound = WETHLORN_BOUND_BUFFER, .object = uniform, .size = WETHLORN_NONE},
    };
    wethlorn_reply reply = {0};
    return given(it, "createBindGroup", wethlorn_create_bind_group(&it->device, layout, entries, 2, &reply), &reply);
}

/* A compute pipeline whose shader uses both buffers of the layout. */
static uint64_t make_pipeline(driven *it, uint64_t layout) {
    wethlorn_iface_entry uses[] = {
        {.binding = 0, .stage = WETHLORN_STAGE_COMPUTE, .holds = {.kind = WETHLORN_BIND_STORAGE}},
        {.binding = 1, .stage = WETHLORN_STAGE_COMPUTE, .holds = {.kind = WETHLORN_BIND_UNIFORM}},
    };
    wethlorn_reply reply = {0};
    uint64_t whole = given(it, "createPipelineLayout", wethlorn_create_pipeline_layout(&it->device, &layout, 1, &reply), &reply);
    return given(it, "createComputePipeline", wethlorn_create_compute_pipeline(&it->device, whole, uses, 2, &reply), &reply);
}

static void set_pipeline(driven *it, wethlorn_encoder *encoder, uint32_t pass, uint64_t pipeline) {
    recorded(it, "setPipeline", wethlorn_set_pipeline(&it->device, encoder, pass, pipeline));
}

static void set_bind_group(driven *it, wethlorn_encoder *encoder, uint32_t pass, uint64_t group) {
    uint32_t none = 0;
    recorded(it, "setBindGroup", wethlorn_set_bind_group(&it->device, encoder, pass, 0, group, &none, 0));
}

static void dispatch(driven *it, wethlorn_encoder *encoder, uint32_t pass) {
    recorded(it, "dispatchWorkgroups", wethlorn_dispatch(&it->device, encoder, pass, 1, 1, 1));
}

static uint32_t begin_pass(driven *it, wethlorn_encoder *encoder) {
    uint32_t pass;
    recorded(it, "beginComputePass", wethlorn_begin_compute_pass(&it->device, encoder, &pass));
    return pass;
}

static void end_pass(driven *it, wethlorn_encoder *encoder, uint32_t pass) {
    recorded(it, "end", wethlorn_end(&it->device, encoder, pass));
}

static void dispatches(driven *it, uint64_t count) {
    uint64_t layout = make_layout(it), pipeline = make_pipeline(it, layout);
    uint64_t group = make_group(it, layout, make_buffer(it, WETHLORN_BUFFER_USAGE_STORAGE), make_buffer(it, WETHLORN_BUFFER_USAGE_UNIFORM));
    wethlorn_encoder encoder = {0};
    make_encoder(it, &encoder);
    uint32_t pass = begin_pass(it, &encoder);
    set_pipeline(it, &encoder, pass, pipeline);
    for (uint64_t at = 0; at < count; at++) {
        set_bind_group(it, &encoder, pass, group);
        dispatch(it, &encoder, pass);
    }
    end_pass(it, &encoder, pass);
    finish(it, &encoder);
    wethlorn_close_encoder(&encoder);
}

static void copies(driven *it, uint64_t count) {
    uint64_t source = make_buffer(it, WETHLORN_BUFFER_USAGE_COPY_SRC), target = make_buffer(it, WETHLORN_BUFFER_USAGE_COPY_DST);
    wethlorn_encoder encoder = {0};
    make_encoder(it, &encoder);
    for (uint64_t at = 0; at < count; at++)
        copy(it, &encoder, source, target);
    finish(it, &encoder);
    wethlorn_close_encoder(&encoder);
}

static void writes(driven *it, uint64_t count) {
    uint64_t buffer = make_buffer(it, WETHLORN_BUFFER_USAGE_COPY_DST), op = 0;
    for (uint64_t at = 0; at < count; at++)
        op = write_buffer(it, buffer);
    if (count)
        complete(it, op);
}

/* Writes of which nothing is drained. */
static void undrained(driven *it, uint64_t count) {
    uint64_t buffer = make_buffer(it, WETHLORN_BUFFER_USAGE_COPY_DST);
    for (uint64_t at = 0; at < count; at++) {
        wethlorn_reply reply = {0};
        given(it, "writeBuffer", wethlorn_write_buffer(&it->device, buffer, 0, PART, &reply), &reply);
    }
}

/* Writes that are drained at the end, item by item, use by use and access by access. */
static void singly(driven *it, uint64_t count) {
    wethlorn_item item;
    wethlorn_use use;
    wethlorn_access access;
    undrained(it, count);
    for (; wethlorn_next_item(&it->device, &item) == WETHLORN_OK; it->items++) {
        for (size_t at = 0; at < item.uses; at++)
            if (wethlorn_item_use(&it->device, at, &use) != WETHLORN_OK)
                exit(1);
        for (size_t at = 0; at < item.accesses; at++)
            if (wethlorn_item_access(&it->device, at, &access) != WETHLORN_OK)
                exit(1);
    }
}

/* Writes that are drained at the end, by arrays. */
static void arrays(driven *it, uint64_t count) {
    static wethlorn_item items[ROOM];
    static wethlorn_use uses[ROOM];
    static wethlorn_access accesses[ROOM];
    wethlorn_counts counts;
    undrained(it, count);
    while (wethlorn_next_items(&it->device, items, ROOM, uses, ROOM, accesses, ROOM, &counts) == WETHLORN_OK)
        it->items += counts.items;
}

static void encoders(driven *it, uint64_t count) {
    uint64_t source = make_buffer(it, WETHLORN_BUFFER_USAGE_COPY_SRC), target = make_buffer(it, WETHLORN_BUFFER_USAGE_COPY_DST);
    for (uint64_t at = 0; at < count; at++) {
        wethlorn_encoder encoder = {0};
        make_encoder(it, &encoder);
        copy(it, &encoder, source, target);
        finish(it, &encoder);
        wethlorn_close_encoder(&encoder);
    }
}

static void groups(driven *it, uint64_t count) {
    uint64_t layout = make_layout(it), storage = make_buffer(it, WETHLORN_BUFFER_USAGE_STORAGE), uniform = make_buffer(it, WETHLORN_BUFFER_USAGE_UNIFORM);
    for (uint64_t at = 0; at < count; at++)
        drop(it, make_group(it, layout, storage, uniform));
}

/* A view of a texture of so many texels that can be drawn to. */
static uint64_t make_target(driven *it) {
    wethlorn_texture_desc desc = {.size = {SIZE, SIZE, 1}, .usage = WETHLORN_TEXTURE_USAGE_RENDER_ATTACHMENT, .format = WETHLORN_RGBA8_UNORM, .dim = WETHLORN_2D, .mips = 1, .samples = 1};
    wethlorn_view_desc whole = WETHLORN_VIEW_DESC_INIT;
    wethlorn_reply reply = {0};
    uint64_t texture = given(it, "createTexture", wethlorn_create_texture(&it->device, &desc, &reply), &reply);
    return given(it, "createView", wethlorn_create_view(&it->device, texture, &whole, &reply), &reply);
}

static uint32_t begin_render_pass(driven *it, wethlorn_encoder *encoder) {
    wethlorn_color color = WETHLORN_COLOR_INIT;
    wethlorn_depth none = WETHLORN_DEPTH_INIT;
    uint32_t pass;
    color.view = make_target(it);
    color.load = WETHLORN_CLEAR;
    color.store = WETHLORN_STORE;
    recorded(it, "beginRenderPass", wethlorn_begin_render_pass(&it->device, encoder, &color, 1, &none, WETHLORN_NONE, WETHLORN_NONE, &pass));
    return pass;
}

static void states(driven *it, uint64_t count) {
    wethlorn_encoder encoder = {0};
    make_encoder(it, &encoder);
    uint32_t pass = begin_render_pass(it, &encoder);
    wethlorn_viewport viewport = WETHLORN_VIEWPORT_INIT;
    viewport.width = viewport.height = SIZE * WETHLORN_FIXED_ONE;
    for (uint64_t at = 0; at < count; at++) {
        recorded(it, "setViewport", wethlorn_set_viewport(&it->device, &encoder, pass, &viewport));
        recorded(it, "setScissorRect", wethlorn_set_scissor_rect(&it->device, &encoder, pass, 0, 0, SIZE, SIZE));
    }
    end_pass(it, &encoder, pass);
    finish(it, &encoder);
    wethlorn_close_encoder(&encoder);
}

/* The kinds by their words. */
static const struct {
    const char *word;
    void (*drive)(driven *it, uint64_t count);
} KINDS[] = {
    {"rounds", rounds}, {"kept", kept}, {"behind", behind}, {"dispatches", dispatches},
    {"copies", copies}, {"writes", writes}, {"undrained", undrained}, {"singly", singly}, {"arrays", arrays},
    {"encoders", encoders}, {"groups", groups}, {"states", states},
};

/* Opens a device, drives it by calls of a kind, and prints what there was. */
static int driven_by(size_t kind, uint64_t count) {
    driven it = {.calls = 0};
    wethlorn_bad_limit bad;
    wethlorn_left left;
    struct rusage used;
    if (wethlorn_open(UINT64_C(1) << 40, 1, NULL, 0, NULL, 0, &it.device, &bad) != WETHLORN_OK)
        return 1;
    KINDS[kind].drive(&it, count);
    if (getrusage(RUSAGE_SELF, &used) || wethlorn_close(&it.device, &left) != WETHLORN_OK)
        return 1;
    printf("%s %" PRIu64 " calls %" PRIu64 " items %" PRIu64, KINDS[kind].word, count, it.calls, it.items);
    printf(" resident %ld\n", used.ru_maxrss);
    return 0;
}

int main(int words, char **word) {
    for (size_t kind = 0; words == 3 && kind < sizeof KINDS / sizeof *KINDS; kind++)
        if (!strcmp(KINDS[kind].word, word[1]))
            return driven_by(kind, strtoull(word[2], NULL, 10));
    fprintf(stderr, "usage: loop rounds|kept|behind|dispatches|copies|writes|undrained|singly|arrays|encoders|groups|states COUNT\n");
    return 2;
}
