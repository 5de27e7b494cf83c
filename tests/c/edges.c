/* Calls at their edges: null pointers for lists of no elements, the version, what a close tells of what was not drained, drains of
 * arrays, and unset bytes.
 * Status 0, or 1 where something is wrong, which standard error tells. */
#include <wethlorn.h>
#include <wethlorn_rules.h>
#include <inttypes.h>
#include <stdio.h>
#include <string.h>

enum { MOST = 32 };

/* What a list of no elements points to, of each type that a call has. */
typedef struct lists {
    const wethlorn_limit *limits;
    const wethlorn_layout_entry *layout;
    const wethlorn_group_entry *group;
    const wethlorn_iface_entry *iface;
    const wethlorn_vertex_buffer *buffers;
    const wethlorn_vertex_attribute *attributes;
    const wethlorn_target *targets;
    const wethlorn_color *colors;
    const uint64_t *objects;
    const uint32_t *numbers;
} lists;

/* A device with the replies to its calls. */
typedef struct played {
    wethlorn_device device;
    wethlorn_reply replies[MOST];
    size_t count;
} played;

static int is_wrong;

static void check(int is_so, const char *what) {
    if (!is_so)
        fprintf(stderr, "%s\n", what);
    is_wrong |= !is_so;
}

/* Where the next reply goes. */
static wethlorn_reply *next(played *it) {
    return &it->replies[it->count++];
}

/* The number that the last call gave, which has to have been made without a fault. */
static uint64_t given(const played *it, uint32_t status, const char *what) {
    const wethlorn_reply *reply = &it->replies[it->count - 1];
    if (status == WETHLORN_OK && reply->fault)
        fprintf(stderr, "rule %" PRIu32 ": %s (WebGPU, %s)\n", reply->rule, wethlorn_rule_text(reply->rule), wethlorn_rule_section(reply->rule));
    check(status == WETHLORN_OK && !reply->fault && (reply->answer != WETHLORN_MADE || reply->valid), what);
    return reply->number;
}

static uint64_t depth_view(played *it) {
    wethlorn_texture_desc texture = WETHLORN_TEXTURE_DESC_INIT;
    wethlorn_view_desc view = WETHLORN_VIEW_DESC_INIT;
    texture.size.width = 4;
    texture.usage = WETHLORN_TEXTURE_USAGE_RENDER_ATTACHMENT;
    texture.format = WETHLORN_DEPTH32_FLOAT;
    uint64_t made = given(it, wethlorn_create_texture(&it->device, &texture, next(it)), "createTexture");
    return given(it, wethlorn_create_view(&it->device, made, &view, next(it)), "createView");
}

/* A render pass without colors, in which a group without dynamic offsets is set and no bundle is executed, is submitted. */
static void draw(played *it, const lists *of, uint64_t group) {
    wethlorn_depth depth = WETHLORN_DEPTH_INIT;
    wethlorn_device *device = &it->device;
    wethlorn_reply reply;
    depth.view = depth_view(it);
    depth.depth_load = WETHLORN_LOAD;
    depth.depth_store = WETHLORN_STORE;
    wethlorn_encoder encoder = WETHLORN_ENCODER_INIT;
    uint32_t pass = 1;
    given(it, wethlorn_create_encoder(device, &encoder, next(it)), "createCommandEncoder");
    check(wethlorn_create_encoder(device, &encoder, &reply) == WETHLORN_IS_OPEN, "an encoder is made over one that is open");
    check(wethlorn_begin_render_pass(device, &encoder, of->colors, 0, &depth, WETHLORN_NONE, WETHLORN_NONE, &pass) == WETHLORN_OK && !pass, "beginRenderPass");
    check(wethlorn_set_bind_group(device, &encoder, pass, 0, group, of->numbers, 0) == WETHLORN_OK, "setBindGroup");
    check(wethlorn_execute_bundles(device, &encoder, pass, of->objects, 0) == WETHLORN_OK, "executeBundles");
    check(wethlorn_end(device, &encoder, pass) == WETHLORN_OK, "end");
    uint64_t commands = given(it, wethlorn_finish(device, &encoder, next(it)), "finish");
    check(wethlorn_close_encoder(&encoder) == WETHLORN_OK, "close of an encoder");
    check(wethlorn_end(device, &encoder, pass) == WETHLORN_CLOSED && wethlorn_finish(device, &encoder, &reply) == WETHLORN_CLOSED, "a closed encoder is used");
    given(it, wethlorn_submit(device, &commands, 1, next(it)), "submit");
}

/* Makes each call that takes a list, with none in it. */
static void play_empty(played *it, const lists *of) {
    wethlorn_render_desc pipeline = WETHLORN_RENDER_DESC_INIT;
    wethlorn_bundle_desc bundle = WETHLORN_BUNDLE_DESC_INIT;
    wethlorn_encoder encoder = WETHLORN_ENCODER_INIT;
    wethlorn_device *device = &it->device;
    wethlorn_bad_limit bad;
    memset(it, 0, sizeof *it);
    check(wethlorn_open(1000000, 1, of->limits, 0, of->limits, 0, device, &bad) == WETHLORN_OK, "open");
    uint64_t entries = given(it, wethlorn_create_bind_group_layout(device, of->layout, 0, next(it)), "createBindGroupLayout");
    pipeline.layout = given(it, wethlorn_create_pipeline_layout(device, of->objects, 0, next(it)), "createPipelineLayout");
    uint64_t group = given(it, wethlorn_create_bind_group(device, entries, of->group, 0, next(it)), "createBindGroup");
    given(it, wethlorn_create_compute_pipeline(device, pipeline.layout, of->iface, 0, next(it)), "createComputePipeline");
    pipeline.depth_format = bundle.depth_format = WETHLORN_DEPTH32_FLOAT;
    pipeline.depth_write = 0;
    given(it,
        wethlorn_create_render_pipeline(device, &pipeline, of->iface, 0, of->buffers, 0, of->attributes, 0, of->targets, 0, next(it)),
        "createRenderPipeline");
    given(it, wethlorn_create_bundle_encoder(device, &bundle, of->numbers, 0, &encoder, next(it)), "createRenderBundleEncoder");
    check(wethlorn_close_encoder(&encoder) == WETHLORN_OK, "close of a bundle encoder");
    draw(it, of, group);
    given(it, wethlorn_submit(device, of->objects, 0, next(it)), "submit of none");
}

/* A device whose one buffer has been written in part. */
static void play_written(wethlorn_device *device) {
    wethlorn_buffer_desc desc = {16, WETHLORN_BUFFER_USAGE_COPY_DST, 0};
    wethlorn_bad_limit bad;
    wethlorn_reply reply;
    check(wethlorn_open(1000, 3, NULL, 0, NULL, 0, device, &bad) == WETHLORN_OK, "open");
    check(wethlorn_create_buffer(device, &desc, &reply) == WETHLORN_OK && reply.valid, "createBuffer");
    check(wethlorn_write_buffer(device, 0, 4, 8, &reply) == WETHLORN_OK && !reply.fault, "writeBuffer");
}

/* What a device has that is written, mapped, waited for and released, of which nothing is drained. */
static void play_undrained(wethlorn_device *device) {
    wethlorn_buffer_desc desc = {16, WETHLORN_BUFFER_USAGE_COPY_DST | WETHLORN_BUFFER_USAGE_MAP_READ, 0};
    wethlorn_bad_limit bad;
    wethlorn_reply reply;
    check(wethlorn_open(1000, 2, NULL, 0, NULL, 0, device, &bad) == WETHLORN_OK, "open");
    for (uint64_t buffer = 0; buffer < 3; buffer++) {
        check(wethlorn_create_buffer(device, &desc, &reply) == WETHLORN_OK && reply.number == buffer, "createBuffer");
        check(wethlorn_write_buffer(device, buffer, 4, 8, &reply) == WETHLORN_OK, "writeBuffer");
        check(wethlorn_work_done(device, &reply) == WETHLORN_OK, "onSubmittedWorkDone");
        check(wethlorn_map_async(device, buffer, WETHLORN_MAP_MODE_READ, 0, 16, &reply) == WETHLORN_OK, "mapAsync");
    }
    check(wethlorn_complete(device, 3, &reply) == WETHLORN_OK && !reply.fault, "complete");
    check(wethlorn_drop(device, 1, &reply) == WETHLORN_OK, "drop");
}

/* A close tells how much was left, as a drain would have told it, one by one. */
static void try_close(void) {
    wethlorn_device device = WETHLORN_DEVICE_INIT;
    wethlorn_left left = {9, 9}, told = {0, 0};
    wethlorn_item item;
    wethlorn_settlement settlement;
    check(wethlorn_close(&device, &left) == WETHLORN_CLOSED && left.items == 9 && left.settlements == 9, "a closed device is closed");
    play_undrained(&device);
    for (; wethlorn_next_item(&device, &item) == WETHLORN_OK; told.items++)
        continue;
    for (; wethlorn_next_settlement(&device, &settlement) == WETHLORN_OK; told.settlements++)
        continue;
    check(told.items > 3 && told.settlements == 6, "what is told of three writes, waits and maps");
    check(wethlorn_close(&device, &left) == WETHLORN_OK && !left.items && !left.settlements, "something is left of what was drained");
    for (uint64_t drained = 0; drained <= told.items; drained++) {
        play_undrained(&device);
        for (uint64_t at = 0; at < drained; at++)
            check(wethlorn_next_item(&device, &item) == WETHLORN_OK, "an item");
        for (uint64_t at = 0; at < drained && at < 6; at++)
            check(wethlorn_next_settlement(&device, &settlement) == WETHLORN_OK, "a settlement");
        check(wethlorn_close(&device, &left) == WETHLORN_OK && !device.inside, "close");
        check(left.items == told.items - drained, "how many items are left");
        check(left.settlements == 6 - (drained < 6 ? drained : 6), "how many settlements are left");
    }
}

static int same_ranges(const wethlorn_range *one, const wethlorn_range *other) {
    return one->object == other->object && one->lo == other->lo && one->hi == other->hi && one->sort == other->sort &&
        one->aspect == other->aspect && one->mip == other->mip;
}

static int same_items(const wethlorn_item *one, const wethlorn_item *other) {
    return one->what == other->what && one->name == other->name && same_ranges(&one->part, &other->part) && one->from == other->from &&
        one->to == other->to && one->fresh == other->fresh && one->host == other->host && one->place == other->place &&
        one->uses == other->uses && one->accesses == other->accesses;
}

static int same_uses(const wethlorn_use *one, const wethlorn_use *other) {
    return same_ranges(&one->part, &other->part) && one->usages == other->usages;
}

static int same_accesses(const wethlorn_access *one, const wethlorn_access *other) {
    return same_ranges(&one->cells, &other->cells) && one->kind == other->kind;
}

/* Items that were drained, with their uses and accesses, and how many there are. */
typedef struct drained {
    wethlorn_counts counts;
    wethlorn_item items[MOST];
    wethlorn_use uses[MOST];
    wethlorn_access accesses[MOST];
} drained;

/* Drains by the calls that tell one by one. */
static void drain_singly(wethlorn_device *device, drained *all) {
    wethlorn_counts *counts = &all->counts;
    for (; counts->items < MOST && wethlorn_next_item(device, &all->items[counts->items]) == WETHLORN_OK; counts->items++) {
        for (size_t at = 0; counts->uses < MOST && wethlorn_item_use(device, at, &all->uses[counts->uses]) == WETHLORN_OK; at++)
            counts->uses++;
        for (size_t at = 0; counts->accesses < MOST && wethlorn_item_access(device, at, &all->accesses[counts->accesses]) == WETHLORN_OK; at++)
            counts->accesses++;
    }
    check(counts->items < MOST && counts->uses < MOST && counts->accesses < MOST, "too many items");
}

/* The items that come next in `all` behind those of `told`, as many as have room. */
static wethlorn_counts fitting(const drained *all, const wethlorn_counts *told, const wethlorn_counts *room) {
    wethlorn_counts fit = {0, 0, 0};
    while (told->items + fit.items < all->counts.items && fit.items < room->items) {
        const wethlorn_item *item = &all->items[told->items + fit.items];
        if (fit.uses + item->uses > room->uses || fit.accesses + item->accesses > room->accesses)
            break;
        fit.items++;
        fit.uses += item->uses;
        fit.accesses += item->accesses;
    }
    return fit;
}

/* Whether what was told now is what stands in `all` behind what was told before, and the rest of the arrays is as it was. */
static int is_told(const drained *all, const wethlorn_counts *before, const drained *now, const drained *untouched) {
    int is_so = 1;
    for (size_t at = 0; at < MOST; at++) {
        const drained *items = at < now->counts.items ? all : untouched;
        const drained *uses = at < now->counts.uses ? all : untouched, *accesses = at < now->counts.accesses ? all : untouched;
        is_so &= same_items(&now->items[at], &items->items[items == all ? before->items + at : at]);
        is_so &= same_uses(&now->uses[at], &uses->uses[uses == all ? before->uses + at : at]);
        is_so &= same_accesses(&now->accesses[at], &accesses->accesses[accesses == all ? before->accesses + at : at]);
    }
    return is_so;
}

/* Drains by arrays with so much room, and with more where an item has none. */
static void drain_by(const drained *all, wethlorn_counts room) {
    static drained now, untouched;
    wethlorn_device device = WETHLORN_DEVICE_INIT;
    wethlorn_counts told = {0, 0, 0};
    wethlorn_left left;
    uint32_t status = WETHLORN_OK;
    memset(&untouched, 0xA5, sizeof untouched);
    play_undrained(&device);
    while (status != WETHLORN_END && !is_wrong) {
        wethlorn_counts fit = fitting(all, &told, &room);
        const wethlorn_item *item = &all->items[told.items];
        now = untouched;
        status = wethlorn_next_items(
            &device, room.items ? now.items : NULL, room.items, room.uses ? now.uses : NULL, room.uses, room.accesses ? now.accesses : NULL,
            room.accesses, &now.counts);
        if (told.items == all->counts.items) {
            check(status == WETHLORN_END && !memcmp(&now, &untouched, sizeof now), "the end of a drain by arrays");
        } else if (fit.items) {
            check(status == WETHLORN_OK && !memcmp(&now.counts, &fit, sizeof fit), "how many items are told");
            check(is_told(all, &told, &now, &untouched), "what is told of many items");
            told.items += fit.items, told.uses += fit.uses, told.accesses += fit.accesses;
        } else {
            check(status == WETHLORN_NO_ROOM && now.counts.items == 1, "an item for which there is no room");
            check(now.counts.uses == item->uses && now.counts.accesses == item->accesses, "how much it takes");
            room = now.counts;
        }
    }
    check(wethlorn_close(&device, &left) == WETHLORN_OK && !left.items, "something is left of a drain by arrays");
}

/* A drain by arrays of any room tells what a drain one by one tells. */
static void try_arrays(void) {
    static drained all;
    wethlorn_device device = WETHLORN_DEVICE_INIT;
    wethlorn_counts counts = {9, 9, 9};
    wethlorn_left left;
    check(wethlorn_next_items(&device, NULL, 0, NULL, 0, NULL, 0, &counts) == WETHLORN_CLOSED && counts.items == 9, "a closed device is drained");
    play_undrained(&device);
    drain_singly(&device, &all);
    check(wethlorn_close(&device, &left) == WETHLORN_OK, "close");
    check(all.counts.uses > 3 && all.counts.accesses > 3, "uses and accesses");
    for (uint64_t items = 0; items <= all.counts.items; items++)
        for (uint64_t uses = 0; uses <= all.counts.uses; uses++)
            for (uint64_t accesses = 0; accesses <= all.counts.accesses; accesses++)
                drain_by(&all, (wethlorn_counts){items, uses, accesses});
}

/* Which bytes of a buffer are unset is told from the first on, and what is not told is left as it was. */
static void try_unset(void) {
    wethlorn_device device = WETHLORN_DEVICE_INIT;
    wethlorn_bytes bytes = {9, 9};
    wethlorn_left left;
    check(wethlorn_unset_range(&device, 0, 0, 16, &bytes) == WETHLORN_CLOSED && bytes.from == 9, "bytes of a closed device");
    play_undrained(&device);
    check(wethlorn_unset_range(&device, 9, 0, 16, &bytes) == WETHLORN_NO_OBJECT && bytes.from == 9, "bytes of no buffer");
    check(wethlorn_unset_range(&device, 0, 4, 12, &bytes) == WETHLORN_END && bytes.from == 9, "bytes that are written");
    check(wethlorn_unset_range(&device, 2, 3, 3, &bytes) == WETHLORN_END && bytes.from == 9, "an empty range");
    check(wethlorn_close(&device, &left) == WETHLORN_OK, "close");
    memset(&device, 0, sizeof device);
    play_written(&device);
    check(wethlorn_unset_range(&device, 0, 1, 16, &bytes) == WETHLORN_OK && bytes.from == 1 && bytes.to == 4, "bytes before a write");
    check(wethlorn_unset_range(&device, 0, bytes.to, 15, &bytes) == WETHLORN_OK && bytes.from == 12 && bytes.to == 15, "bytes behind it");
    check(wethlorn_unset_range(&device, 0, 15, UINT64_MAX, &bytes) == WETHLORN_OK && bytes.from == 15 && bytes.to == UINT64_MAX, "bytes past the end");
    check(wethlorn_close(&device, &left) == WETHLORN_OK, "close");
}

/* Lists of no elements are the same by null pointers and by others. */
static void try_null(void) {
    static const wethlorn_layout_entry layout = WETHLORN_LAYOUT_ENTRY_INIT;
    static const wethlorn_limit limits = WETHLORN_LIMIT_INIT;
    static const wethlorn_group_entry group = WETHLORN_GROUP_ENTRY_INIT;
    static const wethlorn_iface_entry iface = WETHLORN_IFACE_ENTRY_INIT;
    static const wethlorn_vertex_buffer buffers = WETHLORN_VERTEX_BUFFER_INIT;
    static const wethlorn_vertex_attribute attributes = WETHLORN_VERTEX_ATTRIBUTE_INIT;
    static const wethlorn_target targets = WETHLORN_TARGET_INIT;
    static const wethlorn_color colors = WETHLORN_COLOR_INIT;
    static const uint64_t objects = 0;
    static const uint32_t numbers = 0;
    static const lists some = {&limits, &layout, &group, &iface, &buffers, &attributes, &targets, &colors, &objects, &numbers};
    static const lists none = {NULL, NULL, NULL, NULL, NULL, NULL, NULL, NULL, NULL, NULL};
    static played one, other;
    wethlorn_left left, also;
    play_empty(&one, &some);
    play_empty(&other, &none);
    check(one.count == other.count && !memcmp(one.replies, other.replies, sizeof one.replies), "null pointers of empty lists have other replies");
    check(wethlorn_close(&one.device, &left) == WETHLORN_OK && wethlorn_close(&other.device, &also) == WETHLORN_OK, "close");
    check(left.items && left.items == also.items && left.settlements == also.settlements, "null pointers of empty lists have other items");
}

int main(void) {
    check(wethlorn_version() == WETHLORN_VERSION_NUMBER, "the library has another version than the header");
    try_null();
    try_close();
    try_arrays();
    try_unset();
    return is_wrong;
}
