/* Compute passes, render passes and bundles of the page. */
#include "engine_page.h"
#include <stdlib.h>

enum { READS, STORES, ATTACHES, SCOPE = 32 };

/* What a pass or a dispatch has used so far, and how: nothing is used in two ways. */
typedef struct scope {
    uint64_t objects[SCOPE];
    uint32_t ways[SCOPE];
    size_t count;
} scope;

/* Where a draw is recorded: on a pass of an encoder, or on a bundle encoder. */
typedef struct place {
    wethlorn_encoder *on;
    uint32_t pass;
    const signature *to;
    pass *listed;
    scope *used;
    const target *attached; /* a color, another mip level of which may be sampled */
} place;

/* Whether an object may be used so, which is then noted. */
static int is_free(scope *it, uint64_t object, uint32_t way) {
    for (size_t at = 0; at < it->count; at++)
        if (it->objects[at] == object)
            return it->ways[at] == way;
    if (it->count == SCOPE)
        return 0;
    it->objects[it->count] = object;
    it->ways[it->count++] = way;
    return 1;
}

/* A resource of some kinds that may be used so; null: none was found. */
static thing *pick_free(page *it, scope *used, uint32_t kinds, uint32_t way) {
    for (uint32_t tries = 4; tries; tries--) {
        thing *found = page_pick(it, kinds);
        if (found && is_free(used, found->number, way))
            return found;
    }
    return NULL;
}

/* ---- Layouts and pipelines ---- */

static wethlorn_layout_entry entry(uint32_t binding, wethlorn_visibility seen, uint32_t kind) {
    wethlorn_layout_entry out = WETHLORN_LAYOUT_ENTRY_INIT;
    out.binding = binding;
    out.visibility = seen;
    out.holds.kind = kind;
    if (kind == WETHLORN_BIND_STORAGE_TEXTURE)
        out.holds.format = WETHLORN_RGBA8_UNORM;
    return out;
}

static uint64_t layout(engine *it, const wethlorn_layout_entry *entries, size_t count) {
    return ENGINE_CALL(it, "createBindGroupLayout", wethlorn_create_bind_group_layout(&it->device, entries, count, &it->reply));
}

static uint64_t pipeline_layout(engine *it, const uint64_t *layouts, size_t count) {
    return ENGINE_CALL(it, "createPipelineLayout", wethlorn_create_pipeline_layout(&it->device, layouts, count, &it->reply));
}

static uint64_t compute_pipeline(engine *it, const uint64_t *layouts, size_t count) {
    wethlorn_iface_entry sums = WETHLORN_IFACE_ENTRY_INIT;
    sums.stage = WETHLORN_STAGE_COMPUTE;
    sums.holds.kind = WETHLORN_BIND_STORAGE;
    uint64_t of = pipeline_layout(it, layouts, count);
    uint64_t made =
        ENGINE_CALL(it, "createComputePipeline", wethlorn_create_compute_pipeline(&it->device, of, &sums, 1, &it->reply));
    engine_drop(it, of);
    return made;
}

void page_make_pipelines(page *it) {
    const wethlorn_visibility compute = WETHLORN_VISIBILITY_COMPUTE, fragment = WETHLORN_VISIBILITY_FRAGMENT;
    wethlorn_layout_entry buffers[] = {entry(0, compute, WETHLORN_BIND_STORAGE), entry(1, compute, WETHLORN_BIND_UNIFORM),
        entry(2, compute, WETHLORN_BIND_READ_ONLY_STORAGE)};
    wethlorn_layout_entry textures[] = {entry(0, compute, WETHLORN_BIND_TEXTURE), entry(1, compute, WETHLORN_BIND_STORAGE_TEXTURE)};
    wethlorn_layout_entry drawn[] = {entry(0, fragment, WETHLORN_BIND_UNIFORM), entry(1, fragment, WETHLORN_BIND_TEXTURE),
        entry(2, fragment, WETHLORN_BIND_STORAGE)};
    buffers[1].holds.dynamic = 1;
    it->buffers_layout = layout(&it->engine, buffers, 3);
    it->textures_layout = layout(&it->engine, textures, 2);
    it->drawn_layout = layout(&it->engine, drawn, 3);
    it->drawing = pipeline_layout(&it->engine, &it->drawn_layout, 1);
    it->small_pipeline = compute_pipeline(&it->engine, &it->buffers_layout, 1);
    it->whole_pipeline = compute_pipeline(&it->engine, (uint64_t[]){it->buffers_layout, it->textures_layout}, 2);
}

void page_drop_pipelines(page *it) {
    const uint64_t made[] = {
        it->buffers_layout, it->textures_layout, it->drawn_layout, it->drawing, it->small_pipeline, it->whole_pipeline};
    for (size_t at = 0; at < sizeof made / sizeof *made; at++)
        engine_drop(&it->engine, made[at]);
    while (it->pipelines_count)
        engine_drop(&it->engine, it->pipelines[--it->pipelines_count]);
}

static int is_same(const signature *one, const signature *other) {
    return one->colors == other->colors && one->samples == other->samples && one->depth == other->depth &&
        one->depth_read_only == other->depth_read_only && one->stencil_read_only == other->stencil_read_only;
}

static uint64_t make_pipeline(page *it, const signature *to) {
    wethlorn_target targets[] = {WETHLORN_TARGET_INIT, WETHLORN_TARGET_INIT};
    wethlorn_render_desc desc = WETHLORN_RENDER_DESC_INIT;
    wethlorn_vertex_buffer points = {.stride = STRIDE, .step = WETHLORN_STEP_PER_VERTEX};
    wethlorn_vertex_attribute point = {.format = WETHLORN_VERTEX_FLOAT32X3};
    desc.layout = it->drawing;
    desc.samples = to->samples;
    desc.depth_format = to->depth;
    desc.depth_write = to->depth && !to->depth_read_only;
    desc.depth_compare = WETHLORN_COMPARE_LESS;
    if (to->depth == WETHLORN_DEPTH24_PLUS_STENCIL8 && !to->stencil_read_only)
        desc.stencil_front.pass_op = desc.stencil_back.pass_op = WETHLORN_STENCIL_REPLACE;
    targets[0].format = targets[1].format = WETHLORN_RGBA8_UNORM;
    return ENGINE_CALL(&it->engine, "createRenderPipeline",
        wethlorn_create_render_pipeline(&it->engine.device, &desc, NULL, 0, &points, 1, &point, 1, targets, to->colors, &it->engine.reply));
}

/* The pipeline that draws to what a signature says, which is made once. */
static uint64_t pipeline_to(page *it, const signature *to) {
    for (size_t at = 0; at < it->pipelines_count; at++)
        if (is_same(&it->signatures[at], to))
            return it->pipelines[at];
    if (it->pipelines_count == PIPELINES)
        engine_drop(&it->engine, it->pipelines[--it->pipelines_count]);
    it->signatures[it->pipelines_count] = *to;
    return it->pipelines[it->pipelines_count++] = make_pipeline(it, to);
}

/* ---- What is bound ---- */

/* A range of a buffer that begins at a multiple of 256, and ends within it wherever an offset of 256 moves it. */
static bound range_of(page *it, const thing *of, uint32_t usage, uint64_t size) {
    uint32_t places = (uint32_t)(of->shape.size / 256) - 1;
    bound out = {.object = of->number, .usage = usage, .size = size, .is_written = usage == WETHLORN_USAGE_STORAGE};
    out.from = 256 * (uint64_t)dice_below(&it->dice, places ? places : 1);
    return out;
}

static wethlorn_group_entry bound_entry(uint32_t binding, const bound *of) {
    wethlorn_group_entry out = {.binding = binding, .bound = WETHLORN_BOUND_BUFFER, .object = of->object};
    out.offset = of->from;
    out.size = of->size;
    return out;
}

static uint64_t view_of(page *it, uint64_t texture, uint32_t dim, uint32_t mip, uint32_t mips, uint32_t layer) {
    wethlorn_view_desc desc = WETHLORN_VIEW_DESC_INIT;
    desc.dim = dim;
    desc.base_mip = mip;
    desc.mips = mips;
    desc.base_layer = layer;
    desc.layers = 1;
    uint64_t made =
        ENGINE_CALL(&it->engine, "createView", wethlorn_create_view(&it->engine.device, texture, &desc, &it->engine.reply));
    page_spend(it, made);
    return made;
}

static wethlorn_group_entry view_entry(page *it, uint32_t binding, const bound *of) {
    wethlorn_group_entry out = {.binding = binding, .bound = WETHLORN_BOUND_VIEW, .size = WETHLORN_NONE};
    out.object = view_of(it, of->object, WETHLORN_VIEW_2D, of->mip, of->mips, of->layer);
    return out;
}

static bound mips_of(page *it, const thing *of, uint32_t usage) {
    bound out = {.object = of->number, .usage = usage, .layers = 1, .is_written = usage == WETHLORN_USAGE_STORAGE};
    out.layer = dice_below(&it->dice, of->shape.depth);
    out.mip = dice_below(&it->dice, of->shape.mips);
    out.mips = out.is_written ? 1 : 1 + dice_below(&it->dice, of->shape.mips - out.mip);
    return out;
}

static uint64_t group(page *it, uint64_t layout, const wethlorn_group_entry *entries, size_t count) {
    uint64_t made = ENGINE_CALL(&it->engine, "createBindGroup",
        wethlorn_create_bind_group(&it->engine.device, layout, entries, count, &it->engine.reply));
    page_spend(it, made);
    return made;
}

static void set_group(page *it, wethlorn_encoder *on, uint32_t pass, uint32_t index, uint64_t group, const uint32_t *offsets, size_t count) {
    engine_recorded(&it->engine, "setBindGroup",
        wethlorn_set_bind_group(&it->engine.device, on, pass, index, group, offsets, count));
}

static void set_pipeline(page *it, wethlorn_encoder *on, uint32_t pass, uint64_t pipeline) {
    engine_recorded(&it->engine, "setPipeline", wethlorn_set_pipeline(&it->engine.device, on, pass, pipeline));
}

/* ---- Compute passes ---- */

/* Sets buffers for a dispatch: one to write, and two to read, of which the first is moved by an offset. */
static int set_buffers(page *it, wethlorn_encoder *on, uint32_t pass, scope *used, shading *out) {
    thing *written = pick_free(it, used, 1 << GENERAL, STORES), *one = pick_free(it, used, 1 << GENERAL, READS);
    thing *other = pick_free(it, used, 1 << GENERAL, READS);
    if (!written || !one || !other)
        return 0;
    const uint32_t offset = one->shape.size >= 512 && dice_one_in(&it->dice, 2) ? 256 : 0;
    out->bounds[0] = range_of(it, written, WETHLORN_USAGE_STORAGE, 4 * (1 + (uint64_t)dice_below(&it->dice, 64)));
    out->bounds[1] = range_of(it, one, WETHLORN_USAGE_CONSTANT, 32);
    out->bounds[2] = range_of(it, other, WETHLORN_USAGE_STORAGE_READ, 64);
    wethlorn_group_entry entries[3];
    for (uint32_t at = 0; at < 3; at++)
        entries[at] = bound_entry(at, &out->bounds[at]);
    out->bounds[1].from += offset;
    out->count = 3;
    set_group(it, on, pass, 0, group(it, it->buffers_layout, entries, 3), &offset, 1);
    return 1;
}

/* Sets textures for a dispatch: one to read, and one to write. */
static int set_textures(page *it, wethlorn_encoder *on, uint32_t pass, scope *used, shading *out) {
    thing *sampled = pick_free(it, used, 1 << COLOR | 1 << BYTES, READS), *written = pick_free(it, used, 1 << COLOR, STORES);
    if (!sampled || !written)
        return 0;
    bound *of = &out->bounds[out->count];
    of[0] = mips_of(it, sampled, WETHLORN_USAGE_CONSTANT);
    of[1] = mips_of(it, written, WETHLORN_USAGE_STORAGE);
    const wethlorn_group_entry entries[] = {view_entry(it, 0, &of[0]), view_entry(it, 1, &of[1])};
    out->count += 2;
    set_group(it, on, pass, 1, group(it, it->textures_layout, entries, 2), NULL, 0);
    return 1;
}

/* A place in a buffer at which the numbers of an indirect call stand. */
static int pick_indirect(page *it, scope *used, uint64_t size, shading *out) {
    thing *of = dice_one_in(&it->dice, 3) ? pick_free(it, used, 1 << GENERAL, READS) : NULL;
    if (!of)
        return 0;
    out->is_indirect = 1;
    out->indirect = (bound){.object = of->number, .usage = WETHLORN_USAGE_INPUT, .size = size};
    out->indirect.from = 4 * (uint64_t)dice_below(&it->dice, (uint32_t)(of->shape.size - size) / 4);
    return 1;
}

static void dispatch(page *it, recording *to, uint32_t pass) {
    wethlorn_device *device = &it->engine.device;
    scope used = {.count = 0};
    shading *of = taken(1, sizeof *of);
    of->seed = dice_next(&it->dice);
    of->query = NO_QUERY;
    if (!set_buffers(it, &to->encoder, pass, &used, of)) {
        free(of);
        return;
    }
    int is_whole = set_textures(it, &to->encoder, pass, &used, of);
    set_pipeline(it, &to->encoder, pass, is_whole ? it->whole_pipeline : it->small_pipeline);
    of->times = dice_below(&it->dice, 3);
    if (pick_indirect(it, &used, 12, of))
        engine_recorded(&it->engine, "dispatchIndirect",
            wethlorn_dispatch_indirect(device, &to->encoder, pass, of->indirect.object, of->indirect.from));
    else
        engine_recorded(&it->engine, "dispatch", wethlorn_dispatch(device, &to->encoder, pass, of->times, 1, 1));
    commands_add(&to->commands, &(command){.name = WETHLORN_STEP_DISPATCH, .dispatch = of});
}

static void end(page *it, recording *to, uint32_t pass) {
    engine_recorded(&it->engine, "end", wethlorn_end(&it->engine.device, &to->encoder, pass));
}

void page_compute(page *it, recording *to) {
    uint32_t pass;
    engine_recorded(&it->engine, "beginComputePass", wethlorn_begin_compute_pass(&it->engine.device, &to->encoder, &pass));
    for (uint32_t left = 1 + dice_below(&it->dice, 3); left; left--)
        dispatch(it, to, pass);
    end(it, to, pass);
}

/* ---- Draws ---- */

/* Sets what a draw samples, reads and writes. Where a color is attached that has another mip level, that may be sampled. */
static int set_drawn(page *it, const place *at, shading *out) {
    thing *read = pick_free(it, at->used, 1 << GENERAL, READS), *written = pick_free(it, at->used, 1 << GENERAL, STORES);
    thing *sampled = pick_free(it, at->used, 1 << COLOR | 1 << BYTES, READS);
    int is_chain = at->attached && dice_one_in(&it->dice, 2);
    if (!read || !written || (!sampled && !is_chain))
        return 0;
    out->bounds[0] = range_of(it, read, WETHLORN_USAGE_CONSTANT, 48);
    out->bounds[2] = range_of(it, written, WETHLORN_USAGE_STORAGE, 4 * (1 + (uint64_t)dice_below(&it->dice, 64)));
    if (is_chain) {
        const part_name *of = &at->attached->part;
        out->bounds[1] = (bound){.object = of->object, .usage = WETHLORN_USAGE_CONSTANT, .mips = 1, .layers = 1, .layer = of->layer};
        out->bounds[1].mip = of->mip ? of->mip - 1 : 1;
    } else {
        out->bounds[1] = mips_of(it, sampled, WETHLORN_USAGE_CONSTANT);
    }
    const wethlorn_group_entry view = view_entry(it, 1, &out->bounds[1]);
    const wethlorn_group_entry entries[] = {bound_entry(0, &out->bounds[0]), view, bound_entry(2, &out->bounds[2])};
    out->count = 3;
    set_group(it, at->on, at->pass, 0, group(it, it->drawn_layout, entries, 3), NULL, 0);
    return 1;
}

/* Sets vertices, or now and then an empty range of them. */
static int set_vertices(page *it, const place *at, shading *out) {
    thing *of = pick_free(it, at->used, 1 << GENERAL, READS);
    if (!of)
        return 0;
    bound *points = &out->bounds[out->count++];
    *points = (bound){.object = of->number, .usage = WETHLORN_USAGE_INPUT, .from = 4 * (uint64_t)dice_below(&it->dice, 16)};
    points->size = dice_one_in(&it->dice, 8) ? 0 : STRIDE * (1 + (uint64_t)dice_below(&it->dice, 8));
    engine_recorded(&it->engine, "setVertexBuffer",
        wethlorn_set_vertex_buffer(&it->engine.device, at->on, at->pass, 0, of->number, points->from, points->size));
    return 1;
}

static int set_indexes(page *it, const place *at, shading *out) {
    thing *of = dice_one_in(&it->dice, 3) ? pick_free(it, at->used, 1 << GENERAL, READS) : NULL;
    if (!of)
        return 0;
    bound *indexes = &out->bounds[out->count++];
    *indexes = (bound){.object = of->number, .usage = WETHLORN_USAGE_INPUT, .size = 2 * (uint64_t)dice_below(&it->dice, 32)};
    indexes->from = 2 * (uint64_t)dice_below(&it->dice, 32);
    engine_recorded(&it->engine, "setIndexBuffer",
        wethlorn_set_index_buffer(&it->engine.device, at->on, at->pass, of->number, WETHLORN_INDEX_UINT16, indexes->from, indexes->size));
    return 1;
}

/* Draws by what is set: as often as there are vertices or indexes, or as a buffer says. */
static void draw_set(page *it, const place *at, shading *of, int has_indexes) {
    wethlorn_device *device = &it->engine.device;
    uint32_t count = (uint32_t)(has_indexes ? of->bounds[of->count - 1].size / 2 : of->bounds[of->count - 1].size / STRIDE);
    of->times = count ? 1 + count % 2 : 0;
    if (pick_indirect(it, at->used, has_indexes ? 20 : 16, of)) {
        engine_recorded(&it->engine, "an indirect draw",
            (has_indexes ? wethlorn_draw_indexed_indirect : wethlorn_draw_indirect)(device, at->on, at->pass, of->indirect.object,
                of->indirect.from));
    } else if (has_indexes) {
        engine_recorded(&it->engine, "drawIndexed", wethlorn_draw_indexed(device, at->on, at->pass, count, 1, 0, 0));
    } else {
        engine_recorded(&it->engine, "draw", wethlorn_draw(device, at->on, at->pass, count, 1, 0, 0));
    }
    pass_draw(at->listed, of);
}

static void draw(page *it, const place *at, uint32_t query) {
    shading of = {.query = query, .seed = dice_next(&it->dice)};
    set_pipeline(it, at->on, at->pass, pipeline_to(it, at->to));
    if (!set_drawn(it, at, &of) || !set_vertices(it, at, &of))
        return;
    draw_set(it, at, &of, set_indexes(it, at, &of));
}

/* ---- Bundles ---- */

static uint64_t bundle_of(page *it, const place *at, pass *listed) {
    const uint32_t colors[] = {WETHLORN_RGBA8_UNORM, WETHLORN_RGBA8_UNORM};
    wethlorn_bundle_desc desc = {at->to->samples, at->to->depth, at->to->depth_read_only, at->to->stencil_read_only};
    wethlorn_encoder encoder = WETHLORN_ENCODER_INIT;
    place inside = *at;
    uint64_t number = ENGINE_CALL(&it->engine, "createBundleEncoder",
        wethlorn_create_bundle_encoder(&it->engine.device, &desc, colors, at->to->colors, &encoder, &it->engine.reply));
    inside.on = &encoder;
    inside.pass = WETHLORN_ON_ENCODER;
    inside.listed = listed;
    for (uint32_t left = 1 + dice_below(&it->dice, 2); left; left--)
        draw(it, &inside, NO_QUERY);
    uint64_t made = ENGINE_CALL(&it->engine, "finish", wethlorn_finish(&it->engine.device, &encoder, &it->engine.reply));
    engine_recorded(&it->engine, "the close of an encoder", wethlorn_close_encoder(&encoder));
    engine_drop(&it->engine, number);
    page_spend(it, made);
    return made;
}

/* Records a bundle, and executes it twice. */
static void execute_twice(page *it, const place *at, uint32_t query) {
    pass listed = {.draws = NULL};
    const uint64_t bundle = bundle_of(it, at, &listed), bundles[] = {bundle, bundle};
    engine_recorded(&it->engine, "executeBundles",
        wethlorn_execute_bundles(&it->engine.device, at->on, at->pass, bundles, 2));
    for (uint32_t time = 0; time < 2; time++)
        for (size_t place = 0; place < listed.draws_count; place++) {
            listed.draws[place].query = query;
            pass_draw(at->listed, &listed.draws[place]);
        }
    free(listed.draws);
}

/* ---- Render passes ---- */

static uint32_t load_of(page *it) {
    return dice_one_in(&it->dice, 2) ? WETHLORN_LOAD : WETHLORN_CLEAR;
}

static uint32_t store_of(page *it) {
    return dice_one_in(&it->dice, 4) ? WETHLORN_STORE_DISCARD : WETHLORN_STORE;
}

static target target_of(page *it, const thing *of, uint32_t aspect, uint32_t mip, uint32_t layer) {
    target out = {.usage = WETHLORN_USAGE_ATTACHMENT, .load = load_of(it), .store = store_of(it)};
    out.part = texel_place(&it->engine.zeroed, of->number, aspect, mip, (wethlorn_origin){0, 0, layer}, &out.from);
    out.size = memory_part(&it->engine.zeroed, &out.part)->cell;
    out.clear = (unsigned char)dice_next(&it->dice);
    return out;
}

static int is_attached(const pass *it, const target *other) {
    for (size_t at = 0; at < it->targets_count; at++) {
        const target *one = &it->targets[at];
        int is_part = one->part.object == other->part.object && one->part.mip == other->part.mip;
        if (is_part && one->part.layer == other->part.layer && one->from == other->from)
            return 1;
    }
    return 0;
}

/* Attaches a color: a layer of a mip level, or a slice of one. */
static int attach_color(page *it, pass *to, scope *used, uint32_t mip, wethlorn_color *out) {
    thing *of = pick_free(it, used, 1 << COLOR | 1 << SLICES, ATTACHES);
    if (!of || of->shape.mips <= mip)
        return 0;
    int has_slices = of->kind == SLICES;
    uint32_t layer = dice_below(&it->dice, has_slices ? extent_at(of->shape.depth, mip) : of->shape.depth);
    target made = target_of(it, of, WETHLORN_COLOR, mip, layer);
    if (is_attached(to, &made))
        return 0;
    *out = (wethlorn_color)WETHLORN_COLOR_INIT;
    out->view = view_of(it, of->number, has_slices ? WETHLORN_VIEW_3D : WETHLORN_VIEW_2D, mip, 1, has_slices ? 0 : layer);
    out->depth_slice = has_slices ? layer : WETHLORN_NONE;
    out->load = made.load;
    out->store = made.store;
    to->targets[to->targets_count++] = made;
    return 1;
}

/* Attaches a color of four samples, and maybe what they are resolved to. */
static int attach_samples(page *it, pass *to, scope *used, wethlorn_color *out) {
    thing *of = pick_free(it, used, 1 << SAMPLES, ATTACHES), *resolved = pick_free(it, used, 1 << COLOR, ATTACHES);
    if (!of)
        return 0;
    target made = target_of(it, of, WETHLORN_COLOR, 0, 0);
    *out = (wethlorn_color)WETHLORN_COLOR_INIT;
    out->view = view_of(it, of->number, WETHLORN_VIEW_2D, 0, 1, 0);
    out->load = made.load;
    out->store = made.store;
    if (resolved) {
        uint32_t layer = dice_below(&it->dice, resolved->shape.depth);
        made.has_resolve = 1;
        made.resolve = (part_name){resolved->number, WETHLORN_COLOR, 0, layer};
        out->resolve = view_of(it, resolved->number, WETHLORN_VIEW_2D, 0, 1, layer);
    }
    to->targets[to->targets_count++] = made;
    return 1;
}

/* Attaches an aspect, which may be read only. */
static void attach_aspect(page *it, pass *to, const thing *of, uint32_t aspect, uint32_t mip, uint32_t layer, int is_read) {
    target made = target_of(it, of, aspect, mip, layer);
    if (is_read) {
        made.usage = WETHLORN_USAGE_ATTACHMENT_READ;
        made.load = WETHLORN_LOAD;
    }
    to->targets[to->targets_count++] = made;
}

static void attach_depth(page *it, pass *to, scope *used, uint32_t mip, signature *of, wethlorn_depth *out) {
    thing *found = pick_free(it, used, 1 << DEPTH | 1 << STENCIL, ATTACHES);
    if (!found || found->shape.mips <= mip)
        return;
    uint32_t layer = dice_below(&it->dice, found->shape.depth);
    of->depth = found->shape.format;
    of->depth_read_only = (uint32_t)dice_one_in(&it->dice, 3);
    out->view = view_of(it, found->number, WETHLORN_VIEW_2D, mip, 1, layer);
    out->depth_read_only = of->depth_read_only;
    attach_aspect(it, to, found, WETHLORN_DEPTH, mip, layer, (int)of->depth_read_only);
    if (!of->depth_read_only) {
        out->depth_load = to->targets[to->targets_count - 1].load;
        out->depth_store = to->targets[to->targets_count - 1].store;
        out->depth_clear = WETHLORN_FIXED_ONE;
    }
    if (found->kind != STENCIL)
        return;
    of->stencil_read_only = out->stencil_read_only = (uint32_t)dice_one_in(&it->dice, 3);
    attach_aspect(it, to, found, WETHLORN_STENCIL, mip, layer, (int)of->stencil_read_only);
    if (!of->stencil_read_only) {
        out->stencil_load = to->targets[to->targets_count - 1].load;
        out->stencil_store = to->targets[to->targets_count - 1].store;
    }
}

static void begin_query(page *it, const place *at, uint32_t query) {
    pass *of = at->listed;
    of->begun = widened(of->begun, of->begun_count + 1, sizeof query);
    of->begun[of->begun_count++] = query;
    engine_recorded(&it->engine, "beginOcclusionQuery",
        wethlorn_begin_occlusion_query(&it->engine.device, at->on, at->pass, query));
}

/* Draws, or executes a bundle, or nothing: now and then under a query, each of which a pass begins once. */
static void draw_some(page *it, const place *at, const thing *queries) {
    for (uint32_t left = dice_below(&it->dice, 4), next = 0; left; left--) {
        uint32_t query = queries && next < queries->shape.size && dice_one_in(&it->dice, 2) ? next++ : NO_QUERY;
        if (query != NO_QUERY)
            begin_query(it, at, query);
        if (dice_one_in(&it->dice, 3))
            execute_twice(it, at, query);
        else if (!dice_one_in(&it->dice, 4))
            draw(it, at, query);
        if (query != NO_QUERY)
            engine_recorded(&it->engine, "endOcclusionQuery",
                wethlorn_end_occlusion_query(&it->engine.device, at->on, at->pass));
    }
}

/* A color that is attached, and of which there is another mip level. */
static const target *chain_of(const page *it, const pass *of) {
    for (size_t at = 0; at < of->targets_count; at++) {
        const shape *shape = memory_shape(&it->engine.zeroed, of->targets[at].part.object);
        if (shape->format == WETHLORN_RGBA8_UNORM && shape->sort == WETHLORN_OF_TEXTURE && shape->mips > 1)
            return &of->targets[at];
    }
    return NULL;
}

void page_render(page *it, recording *to) {
    wethlorn_color colors[] = {WETHLORN_COLOR_INIT, WETHLORN_COLOR_INIT};
    wethlorn_depth depth = WETHLORN_DEPTH_INIT;
    scope used = {.count = 0};
    signature of = {.samples = dice_one_in(&it->dice, 4) ? 4 : 1};
    pass *made = taken(1, sizeof *made);
    uint32_t mip = dice_below(&it->dice, 3);
    thing *queries = page_pick(it, 1 << QUERIES);
    if (of.samples == 4)
        of.colors = (uint32_t)attach_samples(it, made, &used, &colors[0]);
    for (uint32_t tries = of.samples == 1 ? dice_below(&it->dice, 4) : 0; tries && of.colors < 2; tries--)
        of.colors += (uint32_t)attach_color(it, made, &used, mip, &colors[of.colors]);
    if (of.samples == 1)
        attach_depth(it, made, &used, mip, &of, &depth);
    if (!made->targets_count) {
        free(made);
        return;
    }
    made->queries = queries ? queries->number : WETHLORN_NONE;
    uint32_t begun;
    engine_recorded(&it->engine, "beginRenderPass",
        wethlorn_begin_render_pass(&it->engine.device, &to->encoder, colors, of.colors, &depth, made->queries, WETHLORN_NONE, &begun));
    place at = {.on = &to->encoder, .pass = begun, .to = &of, .listed = made, .used = &used, .attached = chain_of(it, made)};
    draw_some(it, &at, queries);
    end(it, to, at.pass);
    commands_add(&to->commands, &(command){.name = WETHLORN_STEP_RENDER_PASS, .pass = made});
}
