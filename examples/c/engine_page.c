/* The frames of the page: what it makes, maps, submits and gives up. */
#include "engine_page.h"
#include <stdlib.h>

enum { BUDGET = 60000, LAG = 6 };

/* Kinds of resources, with how many of each a page has at most, and what the greatest has. */
typedef struct kind {
    uint32_t sort, usage, format, depth, mips, samples, most;
} kind;

enum {
    COPIES = WETHLORN_TEXTURE_USAGE_COPY_SRC | WETHLORN_TEXTURE_USAGE_COPY_DST,
    DRAWN = WETHLORN_TEXTURE_USAGE_RENDER_ATTACHMENT,
    SAMPLED = WETHLORN_TEXTURE_USAGE_TEXTURE_BINDING,
    STORED = WETHLORN_TEXTURE_USAGE_STORAGE_BINDING,
    ALL_ON_GPU = WETHLORN_BUFFER_USAGE_COPY_SRC | WETHLORN_BUFFER_USAGE_COPY_DST | WETHLORN_BUFFER_USAGE_INDEX |
        WETHLORN_BUFFER_USAGE_VERTEX | WETHLORN_BUFFER_USAGE_UNIFORM | WETHLORN_BUFFER_USAGE_STORAGE | WETHLORN_BUFFER_USAGE_INDIRECT |
        WETHLORN_BUFFER_USAGE_QUERY_RESOLVE,
};
static const kind KINDS_OF[KINDS] = {
    [GENERAL] = {WETHLORN_OF_BUFFER, ALL_ON_GPU, 0, 0, 0, 0, 9},
    [READBACK] = {WETHLORN_OF_BUFFER, WETHLORN_BUFFER_USAGE_MAP_READ | WETHLORN_BUFFER_USAGE_COPY_DST, 0, 0, 0, 0, 3},
    [UPLOAD] = {WETHLORN_OF_BUFFER, WETHLORN_BUFFER_USAGE_MAP_WRITE | WETHLORN_BUFFER_USAGE_COPY_SRC, 0, 0, 0, 0, 3},
    [QUERIES] = {WETHLORN_OF_QUERY_SET, 0, 0, 0, 0, 0, 2},
    [COLOR] = {WETHLORN_OF_TEXTURE, COPIES | DRAWN | SAMPLED | STORED, WETHLORN_RGBA8_UNORM, 3, 3, 1, 4},
    [BYTES] = {WETHLORN_OF_TEXTURE, COPIES | SAMPLED, WETHLORN_R8_UNORM, 2, 3, 1, 2},
    [SLICES] = {WETHLORN_OF_SLICES, COPIES | DRAWN, WETHLORN_RGBA8_UNORM, 4, 2, 1, 2},
    [SAMPLES] = {WETHLORN_OF_TEXTURE, DRAWN, WETHLORN_RGBA8_UNORM, 1, 1, 4, 1},
    [DEPTH] = {WETHLORN_OF_TEXTURE, COPIES | DRAWN, WETHLORN_DEPTH32_FLOAT, 2, 3, 1, 1},
    [STENCIL] = {WETHLORN_OF_TEXTURE, COPIES | DRAWN, WETHLORN_DEPTH24_PLUS_STENCIL8, 2, 3, 1, 2},
};

/* ---- Things ---- */

static int is_one_of(const thing *it, uint32_t kinds) {
    return it->is_there && kinds >> it->kind & 1;
}

thing *page_pick(page *it, uint32_t kinds) {
    thing *found = NULL;
    uint32_t seen = 0;
    for (size_t at = 0; at < THINGS; at++) {
        thing *one = &it->things[at];
        if (is_one_of(one, kinds) && !engine_mapping(&it->engine, one->number) && dice_one_in(&it->dice, ++seen))
            found = one;
    }
    return found;
}

void page_spend(page *it, uint64_t number) {
    it->spent = widened(it->spent, it->spent_count + 1, sizeof number);
    it->spent[it->spent_count++] = number;
}

/* Drops what the page is done with: all of it, or some. */
static void drop_spent(page *it, int all) {
    size_t kept = 0;
    for (size_t at = 0; at < it->spent_count; at++)
        if (all || dice_one_in(&it->dice, 2))
            engine_drop(&it->engine, it->spent[at]);
        else
            it->spent[kept++] = it->spent[at];
    it->spent_count = kept;
}

static uint64_t make_buffer(page *it, const kind *of, shape *shape) {
    wethlorn_buffer_desc desc = WETHLORN_BUFFER_DESC_INIT;
    desc.size = shape->size = UINT64_C(256) << dice_below(&it->dice, 5);
    desc.usage = (wethlorn_buffer_usage)of->usage;
    desc.mapped = (uint32_t)dice_one_in(&it->dice, 3);
    return engine_buffer(&it->engine, &desc);
}

static uint64_t make_texture(page *it, const kind *of, shape *shape) {
    wethlorn_texture_desc desc = WETHLORN_TEXTURE_DESC_INIT;
    desc.size.width = desc.size.height = shape->width = shape->height = SIDE;
    desc.size.depth = shape->depth = 1 + dice_below(&it->dice, of->depth);
    desc.usage = (wethlorn_texture_usage)of->usage;
    desc.format = shape->format = of->format;
    desc.dim = of->sort == WETHLORN_OF_SLICES ? WETHLORN_3D : WETHLORN_2D;
    desc.mips = shape->mips = 1 + dice_below(&it->dice, of->mips);
    desc.samples = shape->samples = of->samples;
    return engine_texture(&it->engine, &desc);
}

static void make(page *it) {
    thing made = {.kind = dice_below(&it->dice, KINDS)}, *place = NULL;
    const kind *of = &KINDS_OF[made.kind];
    uint32_t have = 0;
    for (size_t at = 0; at < THINGS; at++) {
        have += (uint32_t)is_one_of(&it->things[at], 1u << made.kind);
        place = it->things[at].is_there ? place : &it->things[at];
    }
    if (!place || have == of->most)
        return;
    made.shape.sort = of->sort;
    engine_push_scope(&it->engine);
    if (of->sort == WETHLORN_OF_BUFFER)
        made.number = make_buffer(it, of, &made.shape);
    else if (of->sort == WETHLORN_OF_QUERY_SET)
        made.number = engine_query_set(&it->engine, (uint32_t)(made.shape.size = 1 + dice_below(&it->dice, 6)));
    else
        made.number = make_texture(it, of, &made.shape);
    made.is_there = made.number != WETHLORN_NONE;
    engine_pop_scope(&it->engine, !made.is_there);
    *place = made;
}

/* Gives a thing up, in flight or not, mapped or not: it is destroyed and dropped, or dropped alone. */
static void give_up(page *it, thing *of) {
    if (dice_one_in(&it->dice, 2))
        engine_destroy(&it->engine, of->number);
    engine_drop(&it->engine, of->number);
    of->is_there = 0;
}

/* ---- Maps ---- */

static void map(page *it) {
    thing *of = page_pick(it, 1 << READBACK | 1 << UPLOAD);
    if (!of)
        return;
    uint64_t from = 8 * (uint64_t)dice_below(&it->dice, (uint32_t)(of->shape.size / 8));
    uint64_t rest = of->shape.size - from, some = 4 * (uint64_t)dice_below(&it->dice, (uint32_t)rest / 4);
    uint64_t size = dice_one_in(&it->dice, 2) ? rest : some;
    engine_map(&it->engine, of->number, of->kind == UPLOAD, from, size);
}

/* Writes some of a mapped range, and so on the zeroed device. */
static void write_mapped(page *it, const mapping *of) {
    for (uint32_t left = dice_below(&it->dice, 3); left && of->size; left--) {
        uint64_t from = dice_below(&it->dice, (uint32_t)of->size), count = 1 + dice_below(&it->dice, (uint32_t)(of->size - from));
        for (uint64_t at = from; at < from + count; at++)
            of->bytes[at] = of->expected[at] = (unsigned char)dice_next(&it->dice);
    }
}

/* Writes what is mapped for writing, and unmaps it, or gives up the map that it waits for: now and then, or of all. */
static void unmap(page *it, int all) {
    for (size_t at = 0; at < THINGS; at++) {
        const thing *one = &it->things[at];
        mapping *of = one->is_there ? engine_mapping(&it->engine, one->number) : NULL;
        if (!of || !(all || dice_one_in(&it->dice, of->is_mapped ? 2 : 8)))
            continue;
        if (of->is_mapped && of->is_written)
            write_mapped(it, of);
        engine_unmap(&it->engine, one->number);
        if (all)
            engine_look(&it->engine, one->number);
    }
}

/* ---- Submits ---- */

static void record(page *it, recording *to) {
    engine_record(&it->engine, to);
    for (uint32_t left = 1 + dice_below(&it->dice, 5); left; left--)
        switch (dice_below(&it->dice, 5)) {
        case 0:
            page_compute(it, to);
            break;
        case 1:
            page_render(it, to);
            break;
        default:
            page_copy(it, to);
        }
}

/* Submits up to three command buffers. What they use may be dropped before, and is used all the same. */
static void submit(page *it) {
    recording recorded[3] = {{.encoder = WETHLORN_ENCODER_INIT}};
    size_t count = 1 + dice_below(&it->dice, 3);
    for (size_t at = 0; at < count; at++)
        record(it, &recorded[at]);
    drop_spent(it, 0);
    if (dice_one_in(&it->dice, 8)) {
        thing *of = page_pick(it, (1 << KINDS) - 1);
        if (of) {
            engine_drop(&it->engine, of->number);
            of->is_there = 0;
        }
    }
    engine_submit(&it->engine, recorded, count, 0);
    drop_spent(it, 1);
}

/* Submits what names a destroyed buffer, which is a fault, and does nothing. */
static void submit_destroyed(page *it) {
    thing *of = page_pick(it, 1 << GENERAL);
    recording one = {.encoder = WETHLORN_ENCODER_INIT};
    if (!of)
        return;
    engine_record(&it->engine, &one);
    engine_clear(&it->engine, &one, of->number, 0, of->shape.size);
    engine_destroy(&it->engine, of->number);
    engine_submit(&it->engine, &one, 1, 1);
    engine_drop(&it->engine, of->number);
    of->is_there = 0;
}

/* ---- Frames ---- */

static void ask_when_done(page *it) {
    ENGINE_CALL(&it->engine, "workDone", wethlorn_work_done(&it->engine.device, &it->engine.reply));
}

static void act(page *it) {
    switch (dice_below(&it->dice, 16)) {
    case 0:
    case 1:
    case 2:
        make(it);
        break;
    case 3:
    case 4:
        page_write(it);
        break;
    case 5:
    case 6:
        map(it);
        break;
    case 7:
        unmap(it, 0);
        break;
    case 8:
        ask_when_done(it);
        break;
    case 9:
        if (dice_one_in(&it->dice, 4))
            submit_destroyed(it);
        break;
    case 10:
        if (dice_one_in(&it->dice, 2)) {
            thing *of = &it->things[dice_below(&it->dice, THINGS)];
            if (of->is_there)
                give_up(it, of);
        }
        break;
    default:
        submit(it);
    }
}

/* The GPU has done some of what was queued: it lags a few operations behind, or is idle now and then. */
static void complete_some(page *it) {
    uint32_t lag = dice_one_in(&it->dice, 4) ? 0 : dice_below(&it->dice, LAG);
    if (it->engine.queued > lag)
        engine_complete(&it->engine, it->engine.queued - lag);
}

void page_begin(page *it, uint64_t seed, int forgets) {
    *it = (page){.dice = {.state = seed}};
    engine_begin(&it->engine, BUDGET, seed * 3 + 1, forgets);
    page_make_pipelines(it);
}

void page_frame(page *it) {
    for (uint32_t left = 8 + dice_below(&it->dice, 8); left; left--)
        act(it);
    complete_some(it);
    engine_look(&it->engine, WETHLORN_NONE);
    for (size_t at = 0; at < THINGS; at++)
        if (is_one_of(&it->things[at], 1 << GENERAL | 1 << READBACK | 1 << UPLOAD))
            engine_look_unset(&it->engine, it->things[at].number, it->things[at].shape.size);
}

void page_end(page *it) {
    recording lost = {.encoder = WETHLORN_ENCODER_INIT};
    for (uint32_t left = LAG; left; left--)
        submit(it);
    engine_lose(&it->engine);
    /* What is mapped stays so, and its host write comes as ever. What is submitted now does nothing. */
    unmap(it, 1);
    engine_record(&it->engine, &lost);
    engine_submit(&it->engine, &lost, 1, 0);
    for (size_t at = 0; at < THINGS; at++)
        if (it->things[at].is_there)
            give_up(it, &it->things[at]);
    page_drop_pipelines(it);
    engine_complete(&it->engine, it->engine.queued);
    engine_end(&it->engine);
    free(it->spent);
}
