#include "play.h"
#include <stdlib.h>
#include <string.h>

/* As many items as a list of a script has at most. */
enum { ITEMS = 1024 };

/* The words of each key, in the order of the numbers that they have in the header, from 1 on. */
#define WORDS(name, ...) static const char *const name[] = {__VA_ARGS__, NULL}
WORDS(FORMATS, "r8unorm", "rg8unorm", "rgba8unorm", "rgba8unorm-srgb", "bgra8unorm", "r32uint", "r32float", "rgba16float", "rgba32float",
    "depth16unorm", "depth24plus", "depth24plus-stencil8", "depth32float", "stencil8");
WORDS(DIMENSIONS, "1d", "2d", "3d");
WORDS(VIEW_DIMENSIONS, "1d", "2d", "2d-array", "cube", "cube-array", "3d");
WORDS(ASPECTS, "all", "depth-only", "stencil-only");
WORDS(FILTERS, "validation", "out-of-memory", "internal");
WORDS(SAMPLERS, "filtering", "non-filtering", "comparison");
WORDS(MODES, "nearest", "linear");
WORDS(COMPARES, "never", "less", "equal", "less-equal", "greater", "not-equal", "greater-equal", "always");
WORDS(SAMPLES, "float", "unfilterable-float", "depth", "sint", "uint");
WORDS(ACCESSES, "read-only", "write-only", "read-write");
WORDS(STAGES, "vertex", "fragment");
WORDS(STEPS, "vertex", "instance");
WORDS(ATTRIBUTES, "uint8x2", "uint8x4", "unorm8x4", "uint16x2", "float16x2", "float32", "uint32", "sint32", "float16x4", "float32x2",
    "float32x3", "float32x4");
WORDS(INDEXES, "uint16", "uint32");
WORDS(TOPOLOGIES, "point-list", "line-list", "line-strip", "triangle-list", "triangle-strip");
WORDS(CULLS, "none", "front", "back");
WORDS(OPERATIONS, "add", "subtract", "reverse-subtract", "min", "max");
WORDS(FACTORS, "zero", "one", "src", "one-minus-src", "src-alpha", "one-minus-src-alpha", "dst", "one-minus-dst", "dst-alpha",
    "one-minus-dst-alpha", "src-alpha-saturated", "constant", "one-minus-constant");
WORDS(CHANGES, "keep", "zero", "replace", "invert", "increment-clamp", "decrement-clamp", "increment-wrap", "decrement-wrap");
WORDS(LOADS, "load", "clear");
WORDS(STORES, "store", "discard");
WORDS(KINDS, "uniform", "storage", "read-only-storage", "sampler", "texture", "storage-texture");
WORDS(LIMITS, "maxTextureDimension1D", "maxTextureDimension2D", "maxTextureDimension3D", "maxTextureArrayLayers", "maxBindGroups",
    "maxBindingsPerBindGroup", "maxDynamicUniformBuffersPerPipelineLayout", "maxDynamicStorageBuffersPerPipelineLayout",
    "maxSampledTexturesPerShaderStage", "maxSamplersPerShaderStage", "maxStorageBuffersPerShaderStage", "maxStorageTexturesPerShaderStage",
    "maxUniformBuffersPerShaderStage", "maxUniformBufferBindingSize", "maxStorageBufferBindingSize", "minUniformBufferOffsetAlignment",
    "minStorageBufferOffsetAlignment", "maxVertexBuffers", "maxVertexAttributes", "maxVertexBufferArrayStride", "maxBufferSize",
    "maxColorAttachments", "maxComputeWorkgroupsPerDimension", "maxColorAttachmentBytesPerSample");

/* The number of a word, or `otherwise` where there is none. */
static uint32_t numbered(const json_t *word, const char *const *words, uint32_t otherwise) {
    for (uint32_t at = 0; json_is_string(word) && words[at]; at++)
        if (!strcmp(json_string_value(word), words[at]))
            return at + 1;
    return otherwise;
}

static uint32_t word(const json_t *call, const char *key, const char *const *words, uint32_t otherwise) {
    return numbered(json_object_get(call, key), words, otherwise);
}

static uint64_t number(const json_t *call, const char *key, uint64_t otherwise) {
    const json_t *value = json_object_get(call, key);
    return json_is_integer(value) ? (uint64_t)json_integer_value(value) : otherwise;
}

static uint32_t flag(const json_t *call, const char *key) {
    return json_is_true(json_object_get(call, key));
}

/* Whether a key has the word "none". */
static int is_none(const json_t *call, const char *key) {
    const char *word = json_string_value(json_object_get(call, key));
    return word && !strcmp(word, "none");
}

/* The item of a list of three numbers, or 0. */
static uint32_t third(const json_t *call, const char *key, size_t at) {
    return (uint32_t)json_integer_value(json_array_get(json_object_get(call, key), at));
}

static wethlorn_extent extent(const json_t *call, const char *key) {
    return (wethlorn_extent){third(call, key, 0), third(call, key, 1), third(call, key, 2)};
}

static wethlorn_origin origin(const json_t *call, const char *key) {
    return (wethlorn_origin){third(call, key, 0), third(call, key, 1), third(call, key, 2)};
}

/* What a name stands for, or null where there is no name. */
static named *meant(player *p, const json_t *name) {
    const json_t *at = json_is_string(name) ? json_object_get(p->names, json_string_value(name)) : NULL;
    named *it = at ? &p->all[json_integer_value(at)] : NULL;
    if (it && it->is_dropped)
        p->names_dropped = 1;
    return it;
}

/* The object that a key names, or WETHLORN_NONE. */
static uint64_t object(player *p, const json_t *call, const char *key) {
    const named *it = meant(p, json_object_get(call, key));
    return it ? it->number : WETHLORN_NONE;
}

/* The objects that a list names. */
static const uint64_t *objects(player *p, const json_t *call, const char *key, size_t *count) {
    static uint64_t numbers[ITEMS];
    const json_t *list = json_object_get(call, key);
    *count = json_array_size(list);
    for (size_t at = 0; at < *count; at++) {
        const named *it = meant(p, json_array_get(list, at));
        numbers[at] = it ? it->number : WETHLORN_NONE;
    }
    return numbers;
}

/* The formats that a list names, 0 where it has null. */
static const uint32_t *formats(const json_t *call, const char *key, size_t *count) {
    static uint32_t numbers[ITEMS];
    const json_t *list = json_object_get(call, key);
    *count = json_array_size(list);
    for (size_t at = 0; at < *count; at++)
        numbers[at] = numbered(json_array_get(list, at), FORMATS, 0);
    return numbers;
}

static wethlorn_binding binding(const json_t *entry) {
    wethlorn_binding it = {
        .kind = word(entry, "kind", KINDS, 0),
        .dynamic = flag(entry, "dynamic"),
        .min_size = number(entry, "minSize", 0),
        .sampler = word(entry, "type", SAMPLERS, WETHLORN_FILTERING),
        .sample = word(entry, "sample", SAMPLES, WETHLORN_SAMPLE_FLOAT),
        .dim = word(entry, "dim", VIEW_DIMENSIONS, WETHLORN_VIEW_2D),
        .multi = flag(entry, "multi"),
        .access = word(entry, "access", ACCESSES, WETHLORN_ACCESS_WRITE_ONLY),
        .format = word(entry, "format", FORMATS, 0),
    };
    return it;
}

static const wethlorn_iface_entry *interface(const json_t *call, uint32_t stage, size_t *count) {
    static wethlorn_iface_entry entries[ITEMS];
    const json_t *list = json_object_get(call, "iface");
    *count = json_array_size(list);
    for (size_t at = 0; at < *count; at++) {
        const json_t *entry = json_array_get(list, at);
        entries[at].group = (uint32_t)number(entry, "group", 0);
        entries[at].binding = (uint32_t)number(entry, "binding", 0);
        entries[at].stage = word(entry, "stage", STAGES, stage);
        entries[at].holds = binding(entry);
    }
    return entries;
}

static wethlorn_texel_layout texel_layout(const json_t *call) {
    return (wethlorn_texel_layout){number(call, "offset", 0), number(call, "bytesPerRow", WETHLORN_NONE), number(call, "rowsPerImage", WETHLORN_NONE)};
}

static wethlorn_spot spot(player *p, const json_t *call) {
    wethlorn_spot it = {
        .texture = object(p, call, "texture"),
        .origin = origin(call, "origin"),
        .mip = (uint32_t)number(call, "mip", 0),
        .aspect = word(call, "aspect", ASPECTS, WETHLORN_ASPECT_ALL),
    };
    return it;
}

#define DEVICE &p->device
#define N32(key, otherwise) ((uint32_t)number(call, key, otherwise))
#define SIZE number(call, "size", WETHLORN_NONE)
/* The encoder and the pass, or the encoder alone, that the call stands on. */
#define ON DEVICE, on->encoder, on->pass
#define OUT &p->reply

static void open_device(player *p, const json_t *script, uint64_t serial) {
    static wethlorn_limit limits[ITEMS];
    wethlorn_bad_limit bad;
    size_t count = 0;
    const char *key;
    json_t *value;
    json_object_foreach(json_object_get(script, "limits"), key, value) {
        json_t *name = json_string(key);
        limits[count].name = numbered(name, LIMITS, 0);
        limits[count++].value = (uint64_t)json_integer_value(value);
        json_decref(name);
    }
    CALL(p, wethlorn_open(number(script, "budget", 0), serial, NULL, 0, limits, count, &p->device, &bad));
}

static void create_buffer(player *p, const json_t *call) {
    wethlorn_buffer_desc desc = {SIZE, N32("usage", 0), flag(call, "mapped")};
    CALL(p, wethlorn_create_buffer(DEVICE, &desc, OUT));
}

static void create_texture(player *p, const json_t *call) {
    wethlorn_texture_desc desc = {extent(call, "size"), N32("usage", 0), word(call, "format", FORMATS, 0), word(call, "dim", DIMENSIONS, WETHLORN_2D),
        N32("mips", 1), N32("samples", 1)};
    CALL(p, wethlorn_create_texture(DEVICE, &desc, OUT));
}

static void create_view(player *p, const json_t *call) {
    wethlorn_view_desc desc = {number(call, "mips", WETHLORN_NONE), number(call, "layers", WETHLORN_NONE), word(call, "dim", VIEW_DIMENSIONS, 0),
        word(call, "aspect", ASPECTS, WETHLORN_ASPECT_ALL), N32("baseMip", 0), N32("baseLayer", 0)};
    uint64_t texture = object(p, call, "texture");
    CALL(p, wethlorn_create_view(DEVICE, texture, &desc, OUT));
}

/* Whether a sampler is described, and not told by its kind alone. */
static int is_described(const json_t *call) {
    static const char *const keys[] = {"magFilter", "minFilter", "mipmapFilter", "compare", "lodMinClamp", "lodMaxClamp", "maxAnisotropy",
        "addressModeU", "addressModeV", "addressModeW"};
    for (size_t at = 0; at < sizeof keys / sizeof *keys; at++)
        if (json_object_get(call, keys[at]))
            return 1;
    return 0;
}

static void create_sampler(player *p, const json_t *call) {
    wethlorn_sampler_desc desc = {number(call, "lodMinClamp", 0), number(call, "lodMaxClamp", WETHLORN_LOD_MAX), word(call, "magFilter", MODES, 0),
        word(call, "minFilter", MODES, 0), word(call, "mipmapFilter", MODES, 0), word(call, "compare", COMPARES, 0), N32("maxAnisotropy", 1)};
    if (is_described(call))
        CALL(p, wethlorn_create_described_sampler(DEVICE, &desc, OUT));
    else
        CALL(p, wethlorn_create_sampler(DEVICE, word(call, "kind", SAMPLERS, WETHLORN_FILTERING), OUT));
}

static void create_bind_group_layout(player *p, const json_t *call) {
    static wethlorn_layout_entry entries[ITEMS];
    const json_t *list = json_object_get(call, "entries");
    size_t count = json_array_size(list);
    for (size_t at = 0; at < count; at++) {
        const json_t *entry = json_array_get(list, at);
        entries[at].binding = (uint32_t)number(entry, "binding", 0);
        entries[at].visibility = (uint32_t)number(entry, "visibility", 0);
        entries[at].holds = binding(entry);
    }
    CALL(p, wethlorn_create_bind_group_layout(DEVICE, entries, count, OUT));
}

static void create_pipeline_layout(player *p, const json_t *call) {
    size_t count;
    const uint64_t *layouts = objects(p, call, "layouts", &count);
    CALL(p, wethlorn_create_pipeline_layout(DEVICE, layouts, count, OUT));
}

static void create_bind_group(player *p, const json_t *call) {
    static wethlorn_group_entry entries[ITEMS];
    const json_t *list = json_object_get(call, "entries");
    size_t count = json_array_size(list);
    uint64_t layout = object(p, call, "layout");
    for (size_t at = 0; at < count; at++) {
        const json_t *entry = json_array_get(list, at);
        int is_buffer = !!json_object_get(entry, "buffer"), is_view = !!json_object_get(entry, "view");
        entries[at].object = object(p, entry, is_buffer ? "buffer" : is_view ? "view" : "sampler");
        entries[at].bound = is_buffer ? WETHLORN_BOUND_BUFFER : is_view ? WETHLORN_BOUND_VIEW : WETHLORN_BOUND_SAMPLER;
        entries[at].offset = number(entry, "offset", 0);
        entries[at].size = number(entry, "size", WETHLORN_NONE);
        entries[at].binding = (uint32_t)number(entry, "binding", 0);
    }
    CALL(p, wethlorn_create_bind_group(DEVICE, layout, entries, count, OUT));
}

/* The layout of a pipeline: WETHLORN_NONE where it is the word "auto". */
static uint64_t layout_of(player *p, const json_t *call) {
    const char *name = json_string_value(json_object_get(call, "layout"));
    return name && !strcmp(name, "auto") ? WETHLORN_NONE : object(p, call, "layout");
}

static void create_compute_pipeline(player *p, const json_t *call) {
    size_t count;
    uint64_t layout = layout_of(p, call);
    const wethlorn_iface_entry *iface = interface(call, WETHLORN_STAGE_COMPUTE, &count);
    CALL(p, wethlorn_create_compute_pipeline(DEVICE, layout, iface, count, OUT));
}

/* The attributes of all vertex buffers, which the caller frees. */
static wethlorn_vertex_attribute *attributes(const json_t *buffers, size_t *count) {
    wethlorn_vertex_attribute *all = NULL;
    size_t slot, at;
    json_t *buffer, *one;
    *count = 0;
    json_array_foreach(buffers, slot, buffer)
        *count += json_array_size(json_object_get(buffer, "attributes"));
    all = malloc((*count + 1) * sizeof *all);
    *count = 0;
    json_array_foreach(buffers, slot, buffer)
        json_array_foreach(json_object_get(buffer, "attributes"), at, one) {
            all[*count].buffer = (uint32_t)slot;
            all[*count].format = word(one, "format", ATTRIBUTES, 0);
            all[*count].offset = (uint32_t)number(one, "offset", 0);
            all[(*count)++].location = (uint32_t)number(one, "location", 0);
        }
    return all;
}

static wethlorn_blend blend(const json_t *from) {
    return (wethlorn_blend){word(from, "operation", OPERATIONS, 0), word(from, "srcFactor", FACTORS, 0), word(from, "dstFactor", FACTORS, 0)};
}

/* The color targets of a pipeline, each of which is null, a format alone, or an object. */
static const wethlorn_target *targets_of(const json_t *call, size_t *count) {
    static wethlorn_target targets[ITEMS];
    const json_t *list = json_object_get(call, "targets");
    *count = json_array_size(list);
    for (size_t at = 0; at < *count; at++) {
        const json_t *one = json_array_get(list, at), *blended = json_object_get(one, "blend");
        targets[at].format = json_is_object(one) ? word(one, "format", FORMATS, 0) : numbered(one, FORMATS, 0);
        targets[at].write_mask = (uint32_t)number(one, "writeMask", WETHLORN_COLOR_WRITE_ALL);
        targets[at].blends = json_is_object(blended);
        targets[at].color = blend(json_object_get(blended, "color"));
        targets[at].alpha = blend(json_object_get(blended, "alpha"));
    }
    return targets;
}

static wethlorn_stencil_face face(const json_t *depth, const char *key) {
    const json_t *from = json_object_get(depth, key);
    return (wethlorn_stencil_face){word(from, "compare", COMPARES, 0), word(from, "failOp", CHANGES, 0), word(from, "depthFailOp", CHANGES, 0),
        word(from, "passOp", CHANGES, 0)};
}

static wethlorn_render_desc render_desc(player *p, const json_t *call) {
    const json_t *depth = json_object_get(call, "depth"), *primitive = json_object_get(call, "primitive");
    wethlorn_render_desc desc = {
        .layout = layout_of(p, call),
        .samples = N32("samples", 1),
        .depth_format = word(depth, "format", FORMATS, 0),
        .depth_write = is_none(depth, "depthWrite") ? (uint32_t)WETHLORN_DEPTH_WRITE_LEFT_OUT : flag(depth, "depthWrite"),
        .stencil_write = flag(depth, "stencilWrite"),
        .depth_compare = is_none(depth, "depthCompare") ? 0 : word(depth, "depthCompare", COMPARES, WETHLORN_COMPARE_ALWAYS),
        .biased = flag(depth, "bias"),
        .stencil_write_mask = (uint32_t)number(depth, "stencilWriteMask", WETHLORN_ALL_BITS),
        .stencil_front = face(depth, "stencilFront"),
        .stencil_back = face(depth, "stencilBack"),
        .topology = word(primitive, "topology", TOPOLOGIES, 0),
        .strip_index_format = word(primitive, "stripIndexFormat", INDEXES, 0),
        .cull_mode = word(primitive, "cullMode", CULLS, 0),
        .alpha_to_coverage = flag(call, "alphaToCoverage"),
    };
    return desc;
}

static void create_render_pipeline(player *p, const json_t *call) {
    static wethlorn_vertex_buffer buffers[ITEMS];
    const json_t *list = json_object_get(call, "buffers");
    size_t ifaces, targets, each, count = json_array_size(list);
    wethlorn_render_desc desc = render_desc(p, call);
    const wethlorn_iface_entry *iface = interface(call, 0, &ifaces);
    const wethlorn_target *target = targets_of(call, &targets);
    wethlorn_vertex_attribute *attribute = attributes(list, &each);
    for (size_t at = 0; at < count; at++) {
        const json_t *one = json_array_get(list, at);
        buffers[at].stride = (uint32_t)number(one, "stride", 0);
        buffers[at].step = json_is_null(one) ? 0 : word(one, "step", STEPS, WETHLORN_STEP_PER_VERTEX);
    }
    CALL(p, wethlorn_create_render_pipeline(DEVICE, &desc, iface, ifaces, buffers, count, attribute, each, target, targets, OUT));
    free(attribute);
}

static void get_bind_group_layout(player *p, const json_t *call) {
    uint64_t pipeline = object(p, call, "pipeline");
    CALL(p, wethlorn_get_bind_group_layout(DEVICE, pipeline, N32("index", 0), OUT));
}

static void create_query_set(player *p, const json_t *call) {
    CALL(p, wethlorn_create_query_set(DEVICE, N32("count", 0), OUT));
}

/* The next encoder that will be open. */
#define ENCODER &p->encoders[p->encoder_count]

static void create_encoder(player *p, const json_t *call) {
    (void)call;
    CALL(p, wethlorn_create_encoder(DEVICE, ENCODER, OUT));
    p->encoder_count++;
}

static void create_bundle_encoder(player *p, const json_t *call) {
    size_t count;
    wethlorn_bundle_desc desc = {N32("samples", 1), word(call, "depth", FORMATS, 0), flag(call, "depthReadOnly"), flag(call, "stencilReadOnly")};
    const uint32_t *colors = formats(call, "colors", &count);
    CALL(p, wethlorn_create_bundle_encoder(DEVICE, &desc, colors, count, ENCODER, OUT));
    p->encoder_count++;
}

static void finish(player *p, const json_t *call) {
    const named *on = meant(p, json_object_get(call, "on"));
    CALL(p, wethlorn_finish(DEVICE, on->encoder, OUT));
}

static void submit(player *p, const json_t *call) {
    size_t count;
    const uint64_t *buffers = objects(p, call, "buffers", &count);
    CALL(p, wethlorn_submit(DEVICE, buffers, count, OUT));
}

static void write_buffer(player *p, const json_t *call) {
    uint64_t buffer = object(p, call, "buffer");
    CALL(p, wethlorn_write_buffer(DEVICE, buffer, number(call, "offset", 0), SIZE, OUT));
}

static void write_texture(player *p, const json_t *call) {
    wethlorn_texture_write write = {texel_layout(call), spot(p, call), extent(call, "size"), number(call, "dataSize", 0)};
    CALL(p, wethlorn_write_texture(DEVICE, &write, OUT));
}

static void map_async(player *p, const json_t *call) {
    uint64_t buffer = object(p, call, "buffer");
    CALL(p, wethlorn_map_async(DEVICE, buffer, N32("mode", 0), number(call, "offset", 0), SIZE, OUT));
}

static void unmap(player *p, const json_t *call) {
    uint64_t buffer = object(p, call, "buffer");
    CALL(p, wethlorn_unmap(DEVICE, buffer, OUT));
}

static void destroy(player *p, const json_t *call) {
    uint64_t it = object(p, call, "object");
    CALL(p, wethlorn_destroy(DEVICE, it, OUT));
}

/* What is dropped has no number any longer, and neither have the passes of an encoder. */
static void drop(player *p, const json_t *call) {
    uint64_t it = object(p, call, "object");
    CALL(p, wethlorn_drop(DEVICE, it, OUT));
    for (size_t at = 0; at < p->count; at++)
        if (p->all[at].number == it && !p->all[at].is_canvas)
            p->all[at].is_dropped = 1;
}

static void complete(player *p, const json_t *call) {
    CALL(p, wethlorn_complete(DEVICE, number(call, "op", 0), OUT));
}

static void work_done(player *p, const json_t *call) {
    (void)call;
    CALL(p, wethlorn_work_done(DEVICE, OUT));
}

static void push_error_scope(player *p, const json_t *call) {
    CALL(p, wethlorn_push_error_scope(DEVICE, word(call, "filter", FILTERS, 0), OUT));
}

static void pop_error_scope(player *p, const json_t *call) {
    (void)call;
    CALL(p, wethlorn_pop_error_scope(DEVICE, OUT));
}

static void lose(player *p, const json_t *call) {
    (void)call;
    CALL(p, wethlorn_lose(DEVICE, OUT));
}

/* A call of a canvas with a current texture destroys that, which then is current no more; else there is no call of the device. */
static void leave_texture(player *p, named *canvas) {
    p->word = canvas->is_current ? "destroy" : NULL;
    if (canvas->is_current)
        CALL(p, wethlorn_destroy(DEVICE, canvas->number, OUT));
    canvas->is_current = 0;
}

static void configure_canvas(player *p, const json_t *call) {
    named *canvas = meant(p, json_object_get(call, "canvas"));
    leave_texture(p, canvas);
    canvas->format = word(call, "format", FORMATS, 0);
    canvas->usage = N32("usage", 16);
}

static void present(player *p, const json_t *call) {
    leave_texture(p, meant(p, json_object_get(call, "canvas")));
}

static void current_texture(player *p, const json_t *call) {
    named *canvas = meant(p, json_object_get(call, "canvas"));
    wethlorn_texture_desc desc = {{canvas->width, canvas->height, 1}, canvas->usage, canvas->format, WETHLORN_2D, 1, 1};
    p->word = canvas->is_current ? NULL : "createTexture";
    if (!canvas->is_current)
        CALL(p, wethlorn_create_texture(DEVICE, &desc, OUT));
    if (!canvas->is_current)
        canvas->number = p->reply.number;
    canvas->is_current = 1;
    p->reply.number = canvas->number;
}

/* A command that came late is told to the device, which answers; of one that was kept there is no answer. */
static void noted(player *p, const named *on) {
    if (p->status == WETHLORN_LATE)
        CALL(p, wethlorn_late(DEVICE, on->encoder, OUT));
    else if (p->status == WETHLORN_OK && !p->names_dropped)
        p->word = NULL;
}

#define RECORD(p, on, made) \
    do {                    \
        CALL(p, made);      \
        noted(p, on);       \
    } while (0)

static void copy_buffer_to_buffer(player *p, const json_t *call, const named *on) {
    wethlorn_buffer_copy copy = {object(p, call, "source"), number(call, "sourceOffset", 0), object(p, call, "target"), number(call, "targetOffset", 0), SIZE};
    RECORD(p, on, wethlorn_copy_buffer_to_buffer(DEVICE, on->encoder, &copy));
}

static wethlorn_texel_copy texel_copy(player *p, const json_t *call) {
    return (wethlorn_texel_copy){object(p, call, "buffer"), texel_layout(call), spot(p, call), extent(call, "size")};
}

static void copy_buffer_to_texture(player *p, const json_t *call, const named *on) {
    wethlorn_texel_copy copy = texel_copy(p, call);
    RECORD(p, on, wethlorn_copy_buffer_to_texture(DEVICE, on->encoder, &copy));
}

static void copy_texture_to_buffer(player *p, const json_t *call, const named *on) {
    wethlorn_texel_copy copy = texel_copy(p, call);
    RECORD(p, on, wethlorn_copy_texture_to_buffer(DEVICE, on->encoder, &copy));
}

static void copy_texture_to_texture(player *p, const json_t *call, const named *on) {
    wethlorn_texture_copy copy = {object(p, call, "source"), object(p, call, "target"), origin(call, "sourceOrigin"), origin(call, "targetOrigin"),
        N32("sourceMip", 0), N32("targetMip", 0), extent(call, "size")};
    RECORD(p, on, wethlorn_copy_texture_to_texture(DEVICE, on->encoder, &copy));
}

static void clear_buffer(player *p, const json_t *call, const named *on) {
    uint64_t buffer = object(p, call, "buffer");
    RECORD(p, on, wethlorn_clear_buffer(DEVICE, on->encoder, buffer, number(call, "offset", 0), SIZE));
}

static void resolve_query_set(player *p, const json_t *call, const named *on) {
    uint64_t queries = object(p, call, "queries"), buffer = object(p, call, "buffer");
    RECORD(p, on, wethlorn_resolve_query_set(DEVICE, on->encoder, queries, N32("first", 0), N32("count", 0), buffer, number(call, "offset", 0)));
}

static void begin_compute_pass(player *p, const json_t *call, const named *on) {
    (void)call;
    RECORD(p, on, wethlorn_begin_compute_pass(DEVICE, on->encoder, &p->pass));
}

static void begin_render_pass(player *p, const json_t *call, const named *on) {
    static wethlorn_color colors[ITEMS];
    const json_t *list = json_object_get(call, "colors"), *given = json_object_get(call, "depth");
    size_t count = json_array_size(list);
    uint64_t queries = object(p, call, "queries");
    wethlorn_depth depth = {object(p, given, "view"), word(given, "depthLoad", LOADS, 0), word(given, "depthStore", STORES, 0), flag(given, "depthReadOnly"),
        word(given, "stencilLoad", LOADS, 0), word(given, "stencilStore", STORES, 0), flag(given, "stencilReadOnly"),
        is_none(given, "depthClearValue") ? WETHLORN_NONE : number(given, "depthClearValue", 0)};
    for (size_t at = 0; at < count; at++) {
        const json_t *color = json_array_get(list, at);
        colors[at].view = object(p, color, "view");
        colors[at].depth_slice = number(color, "depthSlice", WETHLORN_NONE);
        colors[at].resolve = object(p, color, "resolve");
        colors[at].load = word(color, "load", LOADS, 0);
        colors[at].store = word(color, "store", STORES, 0);
    }
    RECORD(p, on, wethlorn_begin_render_pass(DEVICE, on->encoder, colors, count, &depth, queries, number(call, "maxDrawCount", WETHLORN_NONE), &p->pass));
}

static void set_pipeline(player *p, const json_t *call, const named *on) {
    uint64_t pipeline = object(p, call, "pipeline");
    RECORD(p, on, wethlorn_set_pipeline(ON, pipeline));
}

static void set_bind_group(player *p, const json_t *call, const named *on) {
    static uint32_t offsets[ITEMS];
    const json_t *list = json_object_get(call, "offsets");
    size_t count = json_array_size(list);
    uint64_t group = object(p, call, "group");
    for (size_t at = 0; at < count; at++)
        offsets[at] = (uint32_t)json_integer_value(json_array_get(list, at));
    RECORD(p, on, wethlorn_set_bind_group(ON, N32("index", 0), group, offsets, count));
}

static void dispatch(player *p, const json_t *call, const named *on) {
    RECORD(p, on, wethlorn_dispatch(ON, N32("x", 0), N32("y", 1), N32("z", 1)));
}

static void set_vertex_buffer(player *p, const json_t *call, const named *on) {
    uint64_t buffer = object(p, call, "buffer");
    RECORD(p, on, wethlorn_set_vertex_buffer(ON, N32("slot", 0), buffer, number(call, "offset", 0), SIZE));
}

static void set_index_buffer(player *p, const json_t *call, const named *on) {
    uint64_t buffer = object(p, call, "buffer");
    RECORD(p, on, wethlorn_set_index_buffer(ON, buffer, word(call, "format", INDEXES, 0), number(call, "offset", 0), SIZE));
}

static void draw(player *p, const json_t *call, const named *on) {
    RECORD(p, on, wethlorn_draw(ON, N32("vertices", 0), N32("instances", 1), N32("firstVertex", 0), N32("firstInstance", 0)));
}

static void draw_indexed(player *p, const json_t *call, const named *on) {
    RECORD(p, on, wethlorn_draw_indexed(ON, N32("indices", 0), N32("instances", 1), N32("firstIndex", 0), N32("firstInstance", 0)));
}

static void set_viewport(player *p, const json_t *call, const named *on) {
    wethlorn_viewport viewport = {number(call, "x", 0), number(call, "y", 0), number(call, "width", 0), number(call, "height", 0),
        number(call, "minDepth", 0), number(call, "maxDepth", WETHLORN_FIXED_ONE), flag(call, "left"), flag(call, "above")};
    RECORD(p, on, wethlorn_set_viewport(ON, &viewport));
}

static void set_scissor_rect(player *p, const json_t *call, const named *on) {
    RECORD(p, on, wethlorn_set_scissor_rect(ON, N32("x", 0), N32("y", 0), N32("width", 0), N32("height", 0)));
}

/* The calls that read their counts from a buffer. */
#define INDIRECT(name, function)                                                \
    static void name(player *p, const json_t *call, const named *on) {          \
        uint64_t buffer = object(p, call, "buffer");                            \
        RECORD(p, on, function(ON, buffer, number(call, "offset", 0)));          \
    }
INDIRECT(dispatch_indirect, wethlorn_dispatch_indirect)
INDIRECT(draw_indirect, wethlorn_draw_indirect)
INDIRECT(draw_indexed_indirect, wethlorn_draw_indexed_indirect)

static void begin_occlusion_query(player *p, const json_t *call, const named *on) {
    RECORD(p, on, wethlorn_begin_occlusion_query(ON, N32("index", 0)));
}

static void execute_bundles(player *p, const json_t *call, const named *on) {
    size_t count;
    const uint64_t *bundles = objects(p, call, "bundles", &count);
    RECORD(p, on, wethlorn_execute_bundles(ON, bundles, count));
}

/* The calls that have no key but what they stand on, or that one at which no rule looks. */
#define BARE(name, function)                                                    \
    static void name(player *p, const json_t *call, const named *on) {          \
        (void)call;                                                             \
        RECORD(p, on, function(ON));                                             \
    }
BARE(end, wethlorn_end)
BARE(end_occlusion_query, wethlorn_end_occlusion_query)
BARE(push_debug_group, wethlorn_push_debug_group)
BARE(pop_debug_group, wethlorn_pop_debug_group)
BARE(insert_debug_marker, wethlorn_insert_debug_marker)
BARE(set_blend_constant, wethlorn_set_blend_constant)
BARE(set_stencil_reference, wethlorn_set_stencil_reference)

static const struct {
    const char *word;
    void (*make)(player *p, const json_t *call);
} CALLS[] = {
    {"createBuffer", create_buffer}, {"createTexture", create_texture}, {"createView", create_view}, {"createSampler", create_sampler},
    {"createBindGroupLayout", create_bind_group_layout}, {"createPipelineLayout", create_pipeline_layout}, {"createBindGroup", create_bind_group},
    {"createComputePipeline", create_compute_pipeline}, {"createRenderPipeline", create_render_pipeline},
    {"getBindGroupLayout", get_bind_group_layout}, {"createQuerySet", create_query_set}, {"createEncoder", create_encoder},
    {"createBundleEncoder", create_bundle_encoder}, {"finish", finish}, {"finishBundle", finish}, {"submit", submit},
    {"writeBuffer", write_buffer}, {"writeTexture", write_texture}, {"mapAsync", map_async}, {"unmap", unmap}, {"destroy", destroy},
    {"drop", drop}, {"complete", complete}, {"workDone", work_done}, {"pushErrorScope", push_error_scope}, {"popErrorScope", pop_error_scope},
    {"lose", lose}, {"configureCanvas", configure_canvas}, {"currentTexture", current_texture}, {"present", present},
};

/* The calls that are recorded, on an encoder, a pass or a bundle encoder. */
static const struct {
    const char *word;
    void (*make)(player *p, const json_t *call, const named *on);
} COMMANDS[] = {
    {"copyBufferToBuffer", copy_buffer_to_buffer}, {"copyBufferToTexture", copy_buffer_to_texture}, {"copyTextureToBuffer", copy_texture_to_buffer},
    {"copyTextureToTexture", copy_texture_to_texture}, {"clearBuffer", clear_buffer}, {"resolveQuerySet", resolve_query_set},
    {"beginComputePass", begin_compute_pass}, {"beginRenderPass", begin_render_pass}, {"setPipeline", set_pipeline},
    {"setBindGroup", set_bind_group}, {"dispatch", dispatch}, {"dispatchIndirect", dispatch_indirect}, {"setVertexBuffer", set_vertex_buffer},
    {"setIndexBuffer", set_index_buffer}, {"draw", draw}, {"drawIndexed", draw_indexed}, {"drawIndirect", draw_indirect},
    {"drawIndexedIndirect", draw_indexed_indirect}, {"beginOcclusionQuery", begin_occlusion_query}, {"endOcclusionQuery", end_occlusion_query},
    {"executeBundles", execute_bundles}, {"end", end}, {"pushDebugGroup", push_debug_group}, {"popDebugGroup", pop_debug_group},
    {"insertDebugMarker", insert_debug_marker}, {"setViewport", set_viewport}, {"setScissorRect", set_scissor_rect},
    {"setBlendConstant", set_blend_constant}, {"setStencilReference", set_stencil_reference},
};

#define COUNT(list) (sizeof(list) / sizeof((list)[0]))

/* Makes the call of a word. False: there is no such word. */
static int make(player *p, const char *word, const json_t *call) {
    for (size_t at = 0; at < COUNT(CALLS); at++)
        if (!strcmp(word, CALLS[at].word)) {
            p->word = word;
            CALLS[at].make(p, call);
            return 1;
        }
    for (size_t at = 0; at < COUNT(COMMANDS); at++)
        if (!strcmp(word, COMMANDS[at].word)) {
            p->word = "late";
            COMMANDS[at].make(p, call, meant(p, json_object_get(call, "on")));
            return 1;
        }
    return !strcmp(word, "createCanvas");
}

/* What a call makes gets its name. A pass has the number of its encoder. */
static void give_name(player *p, const char *word, const json_t *call) {
    const named *on = meant(p, json_object_get(call, "on"));
    named it = {.number = p->reply.number, .pass = WETHLORN_ON_ENCODER, .width = N32("width", 0), .height = N32("height", 0)};
    it.is_canvas = !strcmp(word, "createCanvas");
    if (!strcmp(word, "createEncoder") || !strcmp(word, "createBundleEncoder"))
        it.encoder = &p->encoders[p->encoder_count - 1];
    if (!strcmp(word, "beginComputePass") || !strcmp(word, "beginRenderPass")) {
        it.number = on->number;
        it.encoder = on->encoder;
        it.pass = p->pass;
    }
    json_object_set_new(p->names, json_string_value(json_object_get(call, "as")), json_integer((json_int_t)p->count));
    p->all[p->count++] = it;
}

void play_call(player *p, const json_t *call) {
    const char *word = json_string_value(json_object_get(call, "do"));
    p->word = NULL;
    if (!word || !make(p, word, call))
        p->wrong = "a call of no known word";
    else if (p->word && p->names_dropped && p->status != WETHLORN_NO_OBJECT)
        p->wrong = "what was dropped was taken";
    else if (p->word && !p->names_dropped && p->status != WETHLORN_OK)
        p->wrong = word;
    else if (json_object_get(call, "as") && !p->names_dropped)
        give_name(p, word, call);
}

void play_open(player *p, const json_t *script, uint64_t serial) {
    open_device(p, script, serial);
}
