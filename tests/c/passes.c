/* What is set in passes, at its edges: viewports of any numbers, rectangles, null objects, and how often a pass may draw.
 * Status 0, or 1 where something is wrong, which standard error tells. */
#include <wethlorn.h>
#include <inttypes.h>
#include <stdio.h>

enum { SIDE = 4 };
#define TEXELS(count) ((count)*WETHLORN_FIXED_ONE)
/* How far from its attachments a viewport of a device of default limits may begin. */
#define FARTHEST TEXELS(2 * WETHLORN_DEFAULT_MAX_TEXTURE_DIMENSION_2D)

/* A render pass that is open on an encoder, with a depth of SIDE texels a side, and a pipeline that draws to it. */
typedef struct begun {
    wethlorn_device device;
    wethlorn_encoder encoder;
    uint64_t pipeline;
    uint32_t pass;
} begun;

static int is_wrong;

static void check(int is_so, const char *what) {
    if (!is_so)
        fprintf(stderr, "%s\n", what);
    is_wrong |= !is_so;
}

static void check_rule(uint32_t found, uint32_t wanted, const char *what) {
    if (found != wanted)
        fprintf(stderr, "%s: rule %" PRIu32 ", and not %" PRIu32 "\n", what, found, wanted);
    is_wrong |= found != wanted;
}

/* The number that a call gives, which has to have been made without a fault. */
static uint64_t given(uint32_t status, const wethlorn_reply *reply, const char *what) {
    check(status == WETHLORN_OK && !reply->fault, what);
    return reply->number;
}

static void kept(uint32_t status, const char *what) {
    check(status == WETHLORN_OK, what);
}

static void open_device(wethlorn_device *device) {
    static uint64_t serial;
    wethlorn_bad_limit bad;
    check(wethlorn_open(100000, ++serial, NULL, 0, NULL, 0, device, &bad) == WETHLORN_OK, "open");
}

static uint64_t depth_view(wethlorn_device *device) {
    wethlorn_texture_desc texture = WETHLORN_TEXTURE_DESC_INIT;
    wethlorn_view_desc view = WETHLORN_VIEW_DESC_INIT;
    wethlorn_reply reply;
    texture.size.width = texture.size.height = SIDE;
    texture.usage = WETHLORN_TEXTURE_USAGE_RENDER_ATTACHMENT;
    texture.format = WETHLORN_DEPTH32_FLOAT;
    uint64_t made = given(wethlorn_create_texture(device, &texture, &reply), &reply, "createTexture");
    return given(wethlorn_create_view(device, made, &view, &reply), &reply, "createView");
}

/* A pipeline that draws to a depth, and whose layout has one layout that is null. */
static uint64_t depth_pipeline(wethlorn_device *device) {
    static const uint64_t null = WETHLORN_NONE;
    wethlorn_render_desc desc = WETHLORN_RENDER_DESC_INIT;
    wethlorn_reply reply;
    desc.layout = given(wethlorn_create_pipeline_layout(device, &null, 1, &reply), &reply, "createPipelineLayout");
    desc.depth_format = WETHLORN_DEPTH32_FLOAT;
    desc.depth_write = 0;
    uint32_t status = wethlorn_create_render_pipeline(device, &desc, NULL, 0, NULL, 0, NULL, 0, NULL, 0, &reply);
    return given(status, &reply, "createRenderPipeline");
}

static begun begin(uint64_t max_draws) {
    begun it = {WETHLORN_DEVICE_INIT, WETHLORN_ENCODER_INIT, 0, 0};
    wethlorn_depth depth = WETHLORN_DEPTH_INIT;
    wethlorn_reply reply;
    open_device(&it.device);
    depth.view = depth_view(&it.device);
    depth.depth_load = WETHLORN_CLEAR;
    depth.depth_store = WETHLORN_STORE;
    depth.depth_clear = 0;
    it.pipeline = depth_pipeline(&it.device);
    given(wethlorn_create_encoder(&it.device, &it.encoder, &reply), &reply, "createCommandEncoder");
    kept(wethlorn_begin_render_pass(&it.device, &it.encoder, NULL, 0, &depth, WETHLORN_NONE, max_draws, &it.pass), "beginRenderPass");
    return it;
}

/* Ends the pass, the encoder and the device. Gives the rule that the finish tells, or 0. */
static uint32_t rule_at_end(begun *it) {
    wethlorn_reply reply = {0};
    wethlorn_left left;
    kept(wethlorn_end(&it->device, &it->encoder, it->pass), "end");
    check(wethlorn_finish(&it->device, &it->encoder, &reply) == WETHLORN_OK, "finish");
    check(wethlorn_close_encoder(&it->encoder) == WETHLORN_OK, "close of an encoder");
    check(wethlorn_close(&it->device, &left) == WETHLORN_OK, "close");
    return reply.rule;
}

/* Sets a viewport. Gives the rule that the finish tells. */
static uint32_t rule_of_viewport(wethlorn_viewport viewport) {
    begun it = begin(WETHLORN_NONE);
    kept(wethlorn_set_viewport(&it.device, &it.encoder, it.pass, &viewport), "setViewport");
    return rule_at_end(&it);
}

static void try_viewports(void) {
    const wethlorn_viewport whole = {0, 0, TEXELS(SIDE), TEXELS(SIDE), 0, WETHLORN_FIXED_ONE, 0, 0};
    static const struct {
        wethlorn_viewport viewport;
        uint32_t rule;
        const char *what;
    } rows[] = {
        {WETHLORN_VIEWPORT_INIT, 0, "the viewport that a descriptor begins with"},
        {{FARTHEST, 0, 1, 1, 0, 0, 1, 0}, 0, "one that begins as far to the left as may be"},
        {{FARTHEST + 1, 0, 1, 1, 0, 0, 1, 0}, 401, "one that begins farther to the left"},
        {{0, FARTHEST, 1, 1, 0, 0, 0, 1}, 0, "one that begins as far above as may be"},
        {{0, FARTHEST + 1, 1, 1, 0, 0, 0, 1}, 401, "one that begins farther above"},
        {{FARTHEST - WETHLORN_FIXED_ONE - 1, 0, 1, 1, 0, 0, 0, 0}, 0, "one that ends as far to the right as may be"},
        {{FARTHEST - WETHLORN_FIXED_ONE, 0, 1, 1, 0, 0, 0, 0}, 401, "one that ends farther to the right"},
        {{UINT64_MAX, 0, 1, 1, 0, 0, 0, 0}, 401, "one that begins past all"},
        {{0, UINT64_MAX, 1, 1, 0, 0, 0, 1}, 401, "one that begins above all"},
        {{0, 0, UINT64_MAX, 1, 0, 0, 0, 0}, 400, "one of any width"},
        {{0, 0, 1, UINT64_MAX, 0, 0, 0, 0}, 400, "one of any height"},
        {{0, 0, 1, 1, UINT64_MAX, WETHLORN_FIXED_ONE, 0, 0}, 402, "a least depth past all"},
        {{0, 0, 1, 1, 0, UINT64_MAX, 0, 0}, 402, "a greatest depth past all"},
        {{0, 0, 1, 1, 0, WETHLORN_FIXED_ONE + 1, 0, 0}, 402, "a greatest depth past 1"},
        {{0, 0, 1, 1, 2, 1, 0, 0}, 402, "a least depth past the greatest"},
    };
    check_rule(rule_of_viewport(whole), 0, "a viewport over the whole attachment");
    for (size_t at = 0; at < sizeof rows / sizeof *rows; at++)
        check_rule(rule_of_viewport(rows[at].viewport), rows[at].rule, rows[at].what);
}

/* Flags that are none are refused, and nothing is recorded. */
static void try_flags(void) {
    begun it = begin(WETHLORN_NONE);
    wethlorn_viewport viewport = WETHLORN_VIEWPORT_INIT;
    viewport.width = UINT64_MAX;
    viewport.left = 2;
    check(wethlorn_set_viewport(&it.device, &it.encoder, it.pass, &viewport) == WETHLORN_BAD_VALUE, "a flag of 2 is taken");
    viewport.left = 0;
    viewport.above = UINT32_MAX;
    check(wethlorn_set_viewport(&it.device, &it.encoder, it.pass, &viewport) == WETHLORN_BAD_VALUE, "a flag of all ones is taken");
    viewport.above = 1;
    check(wethlorn_set_viewport(&it.device, &it.encoder, 7, &viewport) == WETHLORN_NO_PASS, "a pass that was not begun is set a viewport");
    check_rule(rule_at_end(&it), 0, "what was refused is recorded");
}

static uint32_t rule_of_scissor(uint32_t x, uint32_t y, uint32_t width, uint32_t height) {
    begun it = begin(WETHLORN_NONE);
    kept(wethlorn_set_scissor_rect(&it.device, &it.encoder, it.pass, x, y, width, height), "setScissorRect");
    return rule_at_end(&it);
}

static void try_scissors(void) {
    check_rule(rule_of_scissor(0, 0, SIDE, SIDE), 0, "a rectangle over the whole attachment");
    check_rule(rule_of_scissor(SIDE, SIDE, 0, 0), 0, "one of no texels behind its end");
    check_rule(rule_of_scissor(1, 0, SIDE, SIDE), 403, "one that is past it by a column");
    check_rule(rule_of_scissor(0, 1, SIDE, SIDE), 403, "one that is past it by a row");
    check_rule(rule_of_scissor(UINT32_MAX, 0, UINT32_MAX, 0), 403, "one whose numbers have more than 32 bits together");
}

static uint32_t rule_of_group(uint32_t index, size_t offsets_count) {
    static const uint32_t offsets[] = {0};
    begun it = begin(WETHLORN_NONE);
    uint32_t status = wethlorn_set_bind_group(&it.device, &it.encoder, it.pass, index, WETHLORN_NONE, offsets, offsets_count);
    kept(status, "setBindGroup");
    return rule_at_end(&it);
}

static uint32_t rule_of_buffer(uint32_t slot, uint64_t offset, uint64_t size) {
    begun it = begin(WETHLORN_NONE);
    uint32_t status = wethlorn_set_vertex_buffer(&it.device, &it.encoder, it.pass, slot, WETHLORN_NONE, offset, size);
    kept(status, "setVertexBuffer");
    return rule_at_end(&it);
}

/* The rule that a pipeline layout of so many layouts breaks which are null. */
static uint32_t rule_of_layouts(size_t count) {
    static const uint64_t null[] = {WETHLORN_NONE, WETHLORN_NONE, WETHLORN_NONE, WETHLORN_NONE, WETHLORN_NONE};
    wethlorn_device device = WETHLORN_DEVICE_INIT;
    wethlorn_reply reply;
    wethlorn_left left;
    open_device(&device);
    check(wethlorn_create_pipeline_layout(&device, null, count, &reply) == WETHLORN_OK, "createPipelineLayout");
    check(wethlorn_close(&device, &left) == WETHLORN_OK, "close");
    return reply.rule;
}

/* What is null names nothing, and unsets what is set there. */
static void try_null(void) {
    check_rule(rule_of_group(0, 0), 0, "a null group");
    check_rule(rule_of_group(4, 0), 325, "a null group at an index that is none");
    check_rule(rule_of_group(0, 1), 326, "a null group with an offset");
    check_rule(rule_of_buffer(0, 0, 0), 0, "a null buffer of size 0");
    check_rule(rule_of_buffer(0, 0, WETHLORN_NONE), 0, "a null buffer of no size");
    check_rule(rule_of_buffer(0, 4, WETHLORN_NONE), 333, "a null buffer with an offset");
    check_rule(rule_of_buffer(0, 0, 4), 333, "a null buffer with a size");
    check_rule(rule_of_layouts(4), 0, "four null layouts");
    check_rule(rule_of_layouts(5), 140, "five null layouts");
}

/* The rule of a pass that may draw `most` times, and draws so often. */
static uint32_t rule_of_draws(uint64_t most, int count) {
    begun it = begin(most);
    kept(wethlorn_set_pipeline(&it.device, &it.encoder, it.pass, it.pipeline), "setPipeline");
    for (int draw = 0; draw < count; draw++)
        kept(wethlorn_draw(&it.device, &it.encoder, it.pass, 0, 1, 0, 0), "draw");
    return rule_at_end(&it);
}

static void try_draws(void) {
    check_rule(rule_of_draws(0, 0), 0, "a pass that may not draw");
    check_rule(rule_of_draws(0, 1), 404, "a pass that may not draw, and does");
    check_rule(rule_of_draws(2, 2), 0, "a pass that draws as often as it may");
    check_rule(rule_of_draws(2, 3), 404, "a pass that draws once more");
    check_rule(rule_of_draws(WETHLORN_NONE, 3), 0, "a pass that may draw as often as it will");
}

/* What no rule looks at is taken in a pass, and late behind its end. */
static void try_unread(void) {
    begun it = begin(WETHLORN_NONE);
    wethlorn_device *device = &it.device;
    wethlorn_reply reply;
    kept(wethlorn_set_blend_constant(device, &it.encoder, it.pass), "setBlendConstant");
    kept(wethlorn_set_stencil_reference(device, &it.encoder, it.pass), "setStencilReference");
    kept(wethlorn_insert_debug_marker(device, &it.encoder, it.pass), "insertDebugMarker");
    kept(wethlorn_end(device, &it.encoder, it.pass), "end");
    kept(wethlorn_insert_debug_marker(device, &it.encoder, WETHLORN_ON_ENCODER), "insertDebugMarker of an encoder");
    check(wethlorn_set_blend_constant(device, &it.encoder, it.pass) == WETHLORN_LATE, "a late setBlendConstant");
    check(wethlorn_late(device, &it.encoder, &reply) == WETHLORN_OK, "a late setBlendConstant");
    check_rule(reply.rule, 14, "a late setBlendConstant");
    check(wethlorn_finish(device, &it.encoder, &reply) == WETHLORN_OK, "finish");
    check_rule(reply.rule, 0, "what no rule looks at");
    check(wethlorn_insert_debug_marker(device, &it.encoder, WETHLORN_ON_ENCODER) == WETHLORN_LATE, "a late insertDebugMarker");
    check(wethlorn_late(device, &it.encoder, &reply) == WETHLORN_OK, "a late insertDebugMarker");
    check_rule(reply.rule, 14, "a late insertDebugMarker");
    wethlorn_left left;
    check(wethlorn_close(device, &left) == WETHLORN_OK, "close");
    check(wethlorn_set_stencil_reference(device, &it.encoder, it.pass) == WETHLORN_CLOSED, "a closed device");
    check(wethlorn_close_encoder(&it.encoder) == WETHLORN_OK && !it.encoder.inside, "close of an encoder");
    check(wethlorn_close_encoder(&it.encoder) == WETHLORN_CLOSED, "a closed encoder");
}

int main(void) {
    try_viewports();
    try_flags();
    try_scissors();
    try_null();
    try_draws();
    try_unread();
    return is_wrong;
}
