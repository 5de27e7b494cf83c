/* Samplers by what describes them, and the fixed function of render pipelines: what each rule refuses, what is left out, and values that are
 * none. Status 0, or 1 where something is wrong, which standard error tells. */
#include <wethlorn.h>
#include <inttypes.h>
#include <stdio.h>

enum { SIDE = 4, COLORS = 5 };
#define COUNT(list) (sizeof(list) / sizeof *(list))

static int is_wrong;

static void check(int is_so, const char *what) {
    if (!is_so)
        fprintf(stderr, "%s\n", what);
    is_wrong |= !is_so;
}

static void check_rule(uint32_t found, uint32_t wanted, const char *what) {
    if (found != wanted)
        fprintf(stderr, "%s: rule %" PRIu32 ", and not %" PRIu32 "\n", what, found, wanted);
    is_wrong |= found != wanted;
}

/* The number that a call gives, which has to have been made without a fault. */
static uint64_t given(uint32_t status, const wethlorn_reply *reply, const char *what) {
    check(status == WETHLORN_OK && !reply->fault, what);
    return reply->number;
}

/* A device, on which so many bytes of a sample are asked for, or where these are 0 nothing is. */
static wethlorn_device opened(uint64_t bytes) {
    static uint64_t serial;
    wethlorn_device device = WETHLORN_DEVICE_INIT;
    wethlorn_limit limit = {WETHLORN_MAX_COLOR_ATTACHMENT_BYTES_PER_SAMPLE, bytes};
    wethlorn_bad_limit bad;
    check(wethlorn_open(100000, ++serial, NULL, 0, &limit, bytes ? 1 : 0, &device, &bad) == WETHLORN_OK, "open");
    return device;
}

static void close_it(wethlorn_device *device) {
    wethlorn_left left;
    check(wethlorn_close(device, &left) == WETHLORN_OK, "close");
}

/* ---- Samplers ---- */

/* The rule of a sampler, or UINT32_MAX where one of its values is none. */
static uint32_t rule_of_sampler(wethlorn_sampler_desc desc) {
    wethlorn_device device = opened(0);
    wethlorn_reply reply = {0};
    uint32_t status = wethlorn_create_described_sampler(&device, &desc, &reply);
    check(status == WETHLORN_OK || status == WETHLORN_BAD_VALUE, "createSampler");
    close_it(&device);
    return status == WETHLORN_BAD_VALUE ? UINT32_MAX : reply.rule;
}

static void try_samplers(void) {
    enum { NEAREST = WETHLORN_NEAREST, LINEAR = WETHLORN_LINEAR };
    const wethlorn_sampler_desc zeroed = {0};
    static const struct {
        wethlorn_sampler_desc desc;
        uint32_t rule;
        const char *what;
    } rows[] = {
        {WETHLORN_SAMPLER_DESC_INIT, 0, "the sampler that a descriptor begins with"},
        {{WETHLORN_LOD_MAX, WETHLORN_LOD_MAX, 0, 0, 0, 0, 1}, 0, "levels of detail that are equal"},
        {{WETHLORN_LOD_MAX + 1, WETHLORN_LOD_MAX, 0, 0, 0, 0, 1}, 405, "a least level above the greatest"},
        {{WETHLORN_FIXED_ONE, 0, 0, 0, 0, 0, 0}, 405, "levels that are told before the anisotropy"},
        {{0, UINT64_MAX, LINEAR, LINEAR, LINEAR, WETHLORN_COMPARE_NEVER, UINT32_MAX}, 0, "all that may be"},
        {{0, 0, LINEAR, LINEAR, NEAREST, 0, 2}, 406, "an anisotropy of a filter that is nearest"},
        {{0, 0, LINEAR, LINEAR, 0, 0, 2}, 406, "one of a filter that is left out"},
        {{0, 0, 3, 0, 0, 0, 1}, UINT32_MAX, "a filter that is none"},
        {{0, 0, 0, 3, 0, 0, 1}, UINT32_MAX, "a second filter that is none"},
        {{0, 0, 0, 0, 3, 0, 1}, UINT32_MAX, "a third filter that is none"},
        {{0, 0, 0, 0, 0, WETHLORN_COMPARE_ALWAYS + 1, 1}, UINT32_MAX, "a comparison that is none"},
    };
    check_rule(rule_of_sampler(zeroed), 406, "a sampler that is {0}");
    for (size_t at = 0; at < COUNT(rows); at++)
        check_rule(rule_of_sampler(rows[at].desc), rows[at].rule, rows[at].what);
}

/* The rule of a group that binds a sampler where the layout asks for a kind. */
static uint32_t rule_of_bound(wethlorn_sampler_desc desc, uint32_t kind) {
    wethlorn_device device = opened(0);
    wethlorn_layout_entry entry = WETHLORN_LAYOUT_ENTRY_INIT;
    wethlorn_group_entry bound = WETHLORN_GROUP_ENTRY_INIT;
    wethlorn_reply reply;
    entry.visibility = WETHLORN_VISIBILITY_FRAGMENT;
    entry.holds.kind = WETHLORN_BIND_SAMPLER;
    entry.holds.sampler = kind;
    bound.bound = WETHLORN_BOUND_SAMPLER;
    bound.object = given(wethlorn_create_described_sampler(&device, &desc, &reply), &reply, "createSampler");
    uint64_t layout = given(wethlorn_create_bind_group_layout(&device, &entry, 1, &reply), &reply, "createBindGroupLayout");
    check(wethlorn_create_bind_group(&device, layout, &bound, 1, &reply) == WETHLORN_OK, "createBindGroup");
    close_it(&device);
    return reply.rule;
}

static void try_kinds(void) {
    wethlorn_sampler_desc plain = WETHLORN_SAMPLER_DESC_INIT, mixes = plain, compares = plain;
    mixes.mipmap_filter = WETHLORN_LINEAR;
    compares.compare = WETHLORN_COMPARE_LESS;
    check_rule(rule_of_bound(plain, WETHLORN_NON_FILTERING), 0, "a sampler that does not filter");
    check_rule(rule_of_bound(mixes, WETHLORN_NON_FILTERING), 157, "one that does where that is asked");
    check_rule(rule_of_bound(mixes, WETHLORN_FILTERING), 0, "one that filters");
    check_rule(rule_of_bound(compares, WETHLORN_FILTERING), 157, "one that compares where it is to filter");
    check_rule(rule_of_bound(compares, WETHLORN_COMPARISON), 0, "one that compares");
}

/* ---- Pipelines ---- */

/* The rule of a pipeline of so many targets that are all the same, or UINT32_MAX where one of its values is none. */
static uint32_t rule_on(uint64_t bytes, wethlorn_render_desc desc, wethlorn_target target, size_t count) {
    const wethlorn_target targets[COLORS] = {target, target, target, target, target};
    wethlorn_device device = opened(bytes);
    wethlorn_reply reply = {0};
    uint32_t status = wethlorn_create_render_pipeline(&device, &desc, NULL, 0, NULL, 0, NULL, 0, targets, count, &reply);
    check(status == WETHLORN_OK || status == WETHLORN_BAD_VALUE, "createRenderPipeline");
    close_it(&device);
    return status == WETHLORN_BAD_VALUE ? UINT32_MAX : reply.rule;
}

static wethlorn_target target_of(uint32_t format) {
    wethlorn_target it = WETHLORN_TARGET_INIT;
    it.format = format;
    return it;
}

static void try_targets(void) {
    wethlorn_render_desc desc = WETHLORN_RENDER_DESC_INIT;
    wethlorn_target unit = target_of(WETHLORN_RGBA8_UNORM), exact = target_of(WETHLORN_R32_FLOAT), least = unit, masked = unit, none = {0};
    exact.blends = least.blends = 1;
    least.color.operation = WETHLORN_BLEND_MIN;
    check_rule(rule_on(0, desc, unit, 1), 0, "a target");
    check_rule(rule_on(0, desc, none, 1), 165, "a target that is {0}, and so left out");
    check_rule(rule_on(0, desc, exact, 1), 408, "a blend of a format that may not");
    check_rule(rule_on(0, desc, least, 1), 409, "the lesser of values whose factors are left out");
    least.color.dst_factor = WETHLORN_FACTOR_ONE;
    check_rule(rule_on(0, desc, least, 1), 0, "the lesser of values whose factors are one");
    least.alpha = (wethlorn_blend){WETHLORN_BLEND_MAX, WETHLORN_FACTOR_ONE_MINUS_CONSTANT, WETHLORN_FACTOR_ONE};
    check_rule(rule_on(0, desc, least, 1), 409, "the greater of alphas with a factor");
    least.blends = 0;
    least.alpha.operation = UINT32_MAX;
    check_rule(rule_on(0, desc, least, 1), 0, "what is not looked at where there is no blend");
    masked.write_mask = (wethlorn_color_write)0;
    check_rule(rule_on(0, desc, masked, 1), 0, "a mask that is 0");
    masked.write_mask = (wethlorn_color_write)(WETHLORN_COLOR_WRITE_ALL + 1);
    check_rule(rule_on(0, desc, masked, 1), 410, "a mask with a bit that is none");
    check_rule(rule_on(32, desc, unit, 4), 0, "32 bytes of a sample");
    check_rule(rule_on(32, desc, unit, COLORS), 411, "40 bytes where 32 are asked for");
    check_rule(rule_on(40, desc, unit, COLORS), 0, "40 bytes where as many are");
    check_rule(rule_on(1, desc, unit, 4), 0, "32 bytes where fewer are, which are 32");
    check_rule(rule_on(0, desc, unit, COLORS), 0, "40 bytes where nothing is");
}

static void try_depth(void) {
    const wethlorn_render_desc begun = WETHLORN_RENDER_DESC_INIT;
    const wethlorn_target target = target_of(WETHLORN_RGBA8_UNORM);
    wethlorn_render_desc desc = begun;
    desc.depth_format = WETHLORN_STENCIL8;
    check_rule(rule_on(0, desc, target, 1), 0, "a stencil alone, with nothing of depth");
    desc.depth_compare = WETHLORN_COMPARE_LESS;
    check_rule(rule_on(0, desc, target, 1), 412, "a depth that is compared and not there");
    desc = begun;
    desc.depth_format = WETHLORN_DEPTH32_FLOAT;
    check_rule(rule_on(0, desc, target, 1), 414, "a depth of which nothing is told");
    desc.depth_write = 0;
    check_rule(rule_on(0, desc, target, 1), 0, "one that is not written");
    desc.depth_write = 1;
    check_rule(rule_on(0, desc, target, 1), 415, "one that is written, and by nothing compared");
    desc.depth_compare = WETHLORN_COMPARE_ALWAYS;
    check_rule(rule_on(0, desc, target, 1), 0, "one that is compared by always");
    desc.stencil_back.compare = WETHLORN_COMPARE_EQUAL;
    check_rule(rule_on(0, desc, target, 1), 413, "a stencil that is looked at and not there");
    desc.stencil_write_mask = 0;
    desc.stencil_back = (wethlorn_stencil_face){0, 0, 0, WETHLORN_STENCIL_INVERT};
    check_rule(rule_on(0, desc, target, 1), 413, "one that is changed, whatever the mask");
    desc.stencil_write = 1;
    check_rule(rule_on(0, desc, target, 1), 164, "one that is told to be written alone");
    desc = begun;
    desc.biased = 1;
    desc.topology = WETHLORN_LINE_LIST;
    check_rule(rule_on(0, desc, target, 1), 0, "a bias of no depth");
    desc.depth_format = WETHLORN_DEPTH32_FLOAT;
    desc.depth_write = 0;
    check_rule(rule_on(0, desc, target, 1), 416, "a bias of lines");
}

static void try_whole(void) {
    const wethlorn_render_desc begun = WETHLORN_RENDER_DESC_INIT;
    const wethlorn_target target = target_of(WETHLORN_RGBA8_UNORM), none = {0};
    wethlorn_render_desc desc = begun;
    desc.strip_index_format = WETHLORN_INDEX_UINT16;
    check_rule(rule_on(0, desc, target, 1), 407, "a format of the indexes of strips, and a list of triangles");
    desc.topology = WETHLORN_LINE_STRIP;
    check_rule(rule_on(0, desc, target, 1), 0, "the same of strips");
    desc = begun;
    desc.alpha_to_coverage = 1;
    check_rule(rule_on(0, desc, target, 1), 417, "alphas that cover one sample");
    desc.samples = 4;
    check_rule(rule_on(0, desc, target, 1), 0, "alphas that cover four");
    desc.depth_format = WETHLORN_DEPTH32_FLOAT;
    desc.depth_write = 0;
    check_rule(rule_on(0, desc, none, 1), 417, "alphas of a target that is left out");
}

/* One value that is none in a pipeline that would be made without it. */
static void try_values(void) {
    const wethlorn_target target = target_of(WETHLORN_RGBA8_UNORM);
    const uint32_t odd[] = {3, 2, 9, 2, 9, 9, 6, 3, 4, 2};
    for (size_t at = 0; at < COUNT(odd); at++) {
        wethlorn_render_desc desc = WETHLORN_RENDER_DESC_INIT;
        uint32_t *const fields[] = {&desc.depth_write, &desc.stencil_write, &desc.depth_compare, &desc.biased, &desc.stencil_front.compare,
            &desc.stencil_back.pass_op, &desc.topology, &desc.strip_index_format, &desc.cull_mode, &desc.alpha_to_coverage};
        desc.depth_format = WETHLORN_DEPTH24_PLUS_STENCIL8;
        desc.depth_write = 0;
        check_rule(rule_on(0, desc, target, 1), 0, "a pipeline of values that are ones");
        *fields[at] = odd[at];
        check_rule(rule_on(0, desc, target, 1), UINT32_MAX, "a value that is none in a pipeline");
    }
    for (size_t at = 0; at < 4; at++) {
        wethlorn_render_desc desc = WETHLORN_RENDER_DESC_INIT;
        wethlorn_target blended = target;
        uint32_t *const fields[] = {&blended.color.operation, &blended.color.src_factor, &blended.alpha.dst_factor, &blended.blends};
        blended.blends = 1;
        *fields[at] = WETHLORN_FACTOR_ONE_MINUS_CONSTANT + 1;
        check_rule(rule_on(0, desc, blended, 1), UINT32_MAX, "a value that is none in a target");
    }
}

/* ---- Passes ---- */

/* A render pass that is open on an encoder, with a depth and a stencil, and a buffer of indexes. */
typedef struct begun {
    wethlorn_device device;
    wethlorn_encoder encoder;
    uint32_t pass;
} begun;

static begun begin(uint32_t load, uint64_t clear) {
    begun it = {WETHLORN_DEVICE_INIT, WETHLORN_ENCODER_INIT, 0};
    wethlorn_texture_desc texture = WETHLORN_TEXTURE_DESC_INIT;
    wethlorn_view_desc view = WETHLORN_VIEW_DESC_INIT;
    wethlorn_depth depth = WETHLORN_DEPTH_INIT;
    wethlorn_reply reply;
    it.device = opened(0);
    texture.size.width = texture.size.height = SIDE;
    texture.usage = WETHLORN_TEXTURE_USAGE_RENDER_ATTACHMENT;
    texture.format = WETHLORN_DEPTH24_PLUS_STENCIL8;
    uint64_t made = given(wethlorn_create_texture(&it.device, &texture, &reply), &reply, "createTexture");
    depth.view = given(wethlorn_create_view(&it.device, made, &view, &reply), &reply, "createView");
    depth.depth_load = load;
    depth.depth_store = WETHLORN_STORE;
    depth.depth_clear = clear;
    depth.stencil_read_only = 1;
    given(wethlorn_create_encoder(&it.device, &it.encoder, &reply), &reply, "createCommandEncoder");
    uint32_t status = wethlorn_begin_render_pass(&it.device, &it.encoder, NULL, 0, &depth, WETHLORN_NONE, WETHLORN_NONE, &it.pass);
    check(status == WETHLORN_OK, "beginRenderPass");
    return it;
}

/* Ends the pass, the encoder and the device. Gives the rule that the finish tells, or 0. */
static uint32_t rule_at_end(begun *it) {
    wethlorn_reply reply = {0};
    check(wethlorn_end(&it->device, &it->encoder, it->pass) == WETHLORN_OK, "end");
    check(wethlorn_finish(&it->device, &it->encoder, &reply) == WETHLORN_OK, "finish");
    check(wethlorn_close_encoder(&it->encoder) == WETHLORN_OK, "close of an encoder");
    close_it(&it->device);
    return reply.rule;
}

static uint32_t rule_of_clear(uint32_t load, uint64_t clear) {
    begun it = begin(load, clear);
    return rule_at_end(&it);
}

static void try_clears(void) {
    check_rule(rule_of_clear(WETHLORN_CLEAR, 0), 0, "a clear to 0");
    check_rule(rule_of_clear(WETHLORN_CLEAR, WETHLORN_FIXED_ONE), 0, "a clear to 1");
    check_rule(rule_of_clear(WETHLORN_CLEAR, WETHLORN_FIXED_ONE + 1), 418, "a clear past 1");
    check_rule(rule_of_clear(WETHLORN_CLEAR, WETHLORN_NONE), 418, "a clear to what is left out");
    check_rule(rule_of_clear(WETHLORN_LOAD, WETHLORN_NONE), 0, "no clear, and nothing to which");
    check_rule(rule_of_clear(WETHLORN_LOAD, WETHLORN_NONE - 1), 0, "no clear, and any number");
}

static wethlorn_render_desc desc_in_pass(void) {
    wethlorn_render_desc desc = WETHLORN_RENDER_DESC_INIT;
    desc.depth_format = WETHLORN_DEPTH24_PLUS_STENCIL8;
    desc.depth_write = 0;
    return desc;
}

/* Sets a pipeline that reads the first of two vertex buffers as `step` says, and no second one. */
static void set_pipeline(begun *it, wethlorn_render_desc desc, uint32_t step) {
    const wethlorn_vertex_buffer buffers[] = {{16, step}, {16, 0}};
    wethlorn_reply reply;
    uint32_t status = wethlorn_create_render_pipeline(&it->device, &desc, NULL, 0, buffers, 2, NULL, 0, NULL, 0, &reply);
    uint64_t pipeline = given(status, &reply, "createRenderPipeline");
    check(wethlorn_set_pipeline(&it->device, &it->encoder, it->pass, pipeline) == WETHLORN_OK, "setPipeline");
}

/* The rule of a pass in which stencil is only read, by a pipeline that does so with it. */
static uint32_t rule_of_stencil(uint32_t cull_mode, wethlorn_stencil_face front, uint32_t write_mask) {
    begun it = begin(WETHLORN_LOAD, WETHLORN_NONE);
    wethlorn_render_desc desc = desc_in_pass();
    desc.cull_mode = cull_mode;
    desc.stencil_front = front;
    desc.stencil_write_mask = write_mask;
    set_pipeline(&it, desc, 0);
    return rule_at_end(&it);
}

static void try_stencils(void) {
    const wethlorn_stencil_face writes = {0, 0, 0, WETHLORN_STENCIL_REPLACE}, looks = {WETHLORN_COMPARE_EQUAL, WETHLORN_STENCIL_KEEP, 0, 0};
    check_rule(rule_of_stencil(0, writes, WETHLORN_ALL_BITS), 321, "a front that is written");
    check_rule(rule_of_stencil(WETHLORN_CULL_BACK, writes, 1), 321, "one where backs are not drawn");
    check_rule(rule_of_stencil(WETHLORN_CULL_FRONT, writes, WETHLORN_ALL_BITS), 0, "one that is not drawn");
    check_rule(rule_of_stencil(0, writes, 0), 0, "one of which no bit is written");
    check_rule(rule_of_stencil(0, looks, WETHLORN_ALL_BITS), 0, "one that is looked at");
}

/* The rule of an indexed draw with such a pipeline, and indexes of a format. */
static uint32_t rule_of_strip(uint32_t topology, uint32_t strip, uint32_t format) {
    begun it = begin(WETHLORN_LOAD, WETHLORN_NONE);
    wethlorn_render_desc desc = desc_in_pass();
    wethlorn_buffer_desc buffer = {16, WETHLORN_BUFFER_USAGE_INDEX, 0};
    wethlorn_reply reply;
    desc.topology = topology;
    desc.strip_index_format = strip;
    set_pipeline(&it, desc, 0);
    uint64_t indexes = given(wethlorn_create_buffer(&it.device, &buffer, &reply), &reply, "createBuffer");
    uint32_t status = wethlorn_set_index_buffer(&it.device, &it.encoder, it.pass, indexes, format, 0, WETHLORN_NONE);
    check(status == WETHLORN_OK, "setIndexBuffer");
    check(wethlorn_draw_indexed(&it.device, &it.encoder, it.pass, 3, 1, 0, 0) == WETHLORN_OK, "drawIndexed");
    return rule_at_end(&it);
}

static void try_strips(void) {
    enum { SHORT = WETHLORN_INDEX_UINT16, LONG = WETHLORN_INDEX_UINT32 };
    check_rule(rule_of_strip(WETHLORN_TRIANGLE_STRIP, SHORT, SHORT), 0, "a strip of indexes as it says");
    check_rule(rule_of_strip(WETHLORN_TRIANGLE_STRIP, SHORT, LONG), 419, "a strip of others");
    check_rule(rule_of_strip(WETHLORN_LINE_STRIP, 0, SHORT), 419, "a strip that says none");
    check_rule(rule_of_strip(0, 0, LONG), 0, "a list of triangles");
}

/* A slot that is left out is not asked for by a draw, and has no attributes. */
static void try_slots(void) {
    for (uint32_t step = 0; step <= WETHLORN_STEP_PER_INSTANCE; step++) {
        begun it = begin(WETHLORN_LOAD, WETHLORN_NONE);
        set_pipeline(&it, desc_in_pass(), step);
        check(wethlorn_draw(&it.device, &it.encoder, it.pass, 3, 1, 0, 0) == WETHLORN_OK, "draw");
        check_rule(rule_at_end(&it), step ? 350 : 0, "a draw without a vertex buffer");
    }
    const wethlorn_vertex_buffer none = {0};
    const wethlorn_vertex_attribute one = {0, WETHLORN_VERTEX_FLOAT32, 0, 0};
    wethlorn_render_desc desc = desc_in_pass();
    wethlorn_device device = opened(0);
    wethlorn_reply reply;
    uint32_t status = wethlorn_create_render_pipeline(&device, &desc, NULL, 0, &none, 1, &one, 1, NULL, 0, &reply);
    check(status == WETHLORN_BAD_VALUE, "an attribute of a slot that is left out");
    close_it(&device);
}

int main(void) {
    try_samplers();
    try_kinds();
    try_targets();
    try_depth();
    try_whole();
    try_values();
    try_clears();
    try_stencils();
    try_strips();
    try_slots();
    return is_wrong;
}
