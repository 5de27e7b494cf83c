/* The realistic frame: a mip level is drawn from the one above it, a shadow map is drawn, a scene with four samples is drawn with
 * both and resolved, a dispatch sums up what was drawn, and the sums are copied and read back. These are the calls of
 * examples/realistic-frame.json, and what is printed is what `wgsim run` prints of that script. */
#include "report.h"
#include <stdlib.h>

/* Every call here is of one caller. */
enum { ME = 0 };

typedef struct frame {
    wethlorn_device device;
    wethlorn_reply reply;
    report report;
    uint64_t vertices, texture, shadow, samples, depth, color, sums, readback;
    uint64_t level0, level1, levels, shadow_view, samples_view, depth_view, color_view;
    uint64_t sampled_layout, shadow_layout, storage_layout, mips, scene, sum, nothing;
    uint64_t level0_group, levels_group, shadow_group, color_group, sums_group;
    uint64_t mip_pipeline, shadow_pipeline, scene_pipeline, sum_pipeline;
    wethlorn_encoder encoder;
    uint64_t commands;
} frame;

/* Goes on after a call, which has to have been made. Gives the number of what it made or queued. An engine that finds no memory gives
 * some back and makes the call again; here the program ends. */
static uint64_t told(frame *it, const char *word, uint32_t status) {
    if (status != WETHLORN_OK || !report_call(&it->report, &it->device, ME, word, &it->reply)) {
        fprintf(stderr, "%s: status %u\n", word, (unsigned)status);
        exit(1);
    }
    return it->reply.number;
}

static uint64_t buffer(frame *it, uint64_t size, wethlorn_buffer_usage usage) {
    wethlorn_buffer_desc desc = {.size = size, .usage = usage};
    return told(it, "createBuffer", wethlorn_create_buffer(&it->device, &desc, &it->reply));
}

static uint64_t texture(frame *it, uint32_t side, wethlorn_texture_usage usage, uint32_t format, uint32_t mips, uint32_t samples) {
    wethlorn_texture_desc desc = {.size = {side, side, 1}, .usage = usage, .format = format, .dim = WETHLORN_2D, .mips = mips, .samples = samples};
    return told(it, "createTexture", wethlorn_create_texture(&it->device, &desc, &it->reply));
}

/* A view of some mip levels, or of all from `base` on where they are WETHLORN_NONE. */
static uint64_t view(frame *it, uint64_t of, uint32_t base, uint64_t mips) {
    wethlorn_view_desc desc = WETHLORN_VIEW_DESC_INIT;
    desc.mips = mips;
    desc.base_mip = base;
    return told(it, "createView", wethlorn_create_view(&it->device, of, &desc, &it->reply));
}

static wethlorn_binding sampled(uint32_t sample) {
    return (wethlorn_binding){.kind = WETHLORN_BIND_TEXTURE, .sample = sample, .dim = WETHLORN_VIEW_2D};
}

static wethlorn_binding storage(void) {
    return (wethlorn_binding){.kind = WETHLORN_BIND_STORAGE};
}

static uint64_t layout(frame *it, wethlorn_visibility visibility, wethlorn_binding holds) {
    wethlorn_layout_entry entry = {.visibility = visibility, .holds = holds};
    return told(it, "createBindGroupLayout", wethlorn_create_bind_group_layout(&it->device, &entry, 1, &it->reply));
}

static uint64_t pipeline_layout(frame *it, const uint64_t *layouts, size_t count) {
    return told(it, "createPipelineLayout", wethlorn_create_pipeline_layout(&it->device, layouts, count, &it->reply));
}

static uint64_t group(frame *it, uint64_t of, uint32_t bound, uint64_t object) {
    wethlorn_group_entry entry = WETHLORN_GROUP_ENTRY_INIT;
    entry.object = object;
    entry.bound = bound;
    return told(it, "createBindGroup", wethlorn_create_bind_group(&it->device, of, &entry, 1, &it->reply));
}

static void make_resources(frame *it) {
    const wethlorn_texture_usage drawn_to = WETHLORN_TEXTURE_USAGE_RENDER_ATTACHMENT;
    const wethlorn_texture_usage sampled_too = drawn_to | WETHLORN_TEXTURE_USAGE_TEXTURE_BINDING;
    it->vertices = buffer(it, 96, WETHLORN_BUFFER_USAGE_COPY_DST | WETHLORN_BUFFER_USAGE_VERTEX);
    it->texture = texture(it, 4, sampled_too | WETHLORN_TEXTURE_USAGE_COPY_DST, WETHLORN_RGBA8_UNORM, 2, 1);
    it->shadow = texture(it, 8, sampled_too, WETHLORN_DEPTH32_FLOAT, 1, 1);
    it->samples = texture(it, 8, drawn_to, WETHLORN_RGBA8_UNORM, 1, 4);
    it->depth = texture(it, 8, drawn_to, WETHLORN_DEPTH24_PLUS, 1, 4);
    it->color = texture(it, 8, sampled_too, WETHLORN_RGBA8_UNORM, 1, 1);
    it->sums = buffer(it, 256, WETHLORN_BUFFER_USAGE_COPY_SRC | WETHLORN_BUFFER_USAGE_STORAGE);
    it->readback = buffer(it, 256, WETHLORN_BUFFER_USAGE_MAP_READ | WETHLORN_BUFFER_USAGE_COPY_DST);
    it->level0 = view(it, it->texture, 0, 1);
    it->level1 = view(it, it->texture, 1, 1);
    it->levels = view(it, it->texture, 0, WETHLORN_NONE);
    it->shadow_view = view(it, it->shadow, 0, WETHLORN_NONE);
    it->samples_view = view(it, it->samples, 0, WETHLORN_NONE);
    it->depth_view = view(it, it->depth, 0, WETHLORN_NONE);
    it->color_view = view(it, it->color, 0, WETHLORN_NONE);
}

static void make_groups(frame *it) {
    it->sampled_layout = layout(it, WETHLORN_VISIBILITY_FRAGMENT | WETHLORN_VISIBILITY_COMPUTE, sampled(WETHLORN_SAMPLE_FLOAT));
    it->shadow_layout = layout(it, WETHLORN_VISIBILITY_FRAGMENT, sampled(WETHLORN_SAMPLE_DEPTH));
    it->storage_layout = layout(it, WETHLORN_VISIBILITY_COMPUTE, storage());
    it->mips = pipeline_layout(it, &it->sampled_layout, 1);
    it->scene = pipeline_layout(it, (uint64_t[]){it->sampled_layout, it->shadow_layout}, 2);
    it->sum = pipeline_layout(it, (uint64_t[]){it->sampled_layout, it->storage_layout}, 2);
    it->nothing = pipeline_layout(it, &it->sampled_layout, 0);
    it->level0_group = group(it, it->sampled_layout, WETHLORN_BOUND_VIEW, it->level0);
    it->levels_group = group(it, it->sampled_layout, WETHLORN_BOUND_VIEW, it->levels);
    it->shadow_group = group(it, it->shadow_layout, WETHLORN_BOUND_VIEW, it->shadow_view);
    it->color_group = group(it, it->sampled_layout, WETHLORN_BOUND_VIEW, it->color_view);
    it->sums_group = group(it, it->storage_layout, WETHLORN_BOUND_BUFFER, it->sums);
}

/* A render pipeline that reads points of 16 bytes, or nothing, and draws to a color, or to none. */
static uint64_t render_pipeline(frame *it, wethlorn_render_desc desc, size_t interfaces, size_t buffers, size_t targets) {
    wethlorn_iface_entry interface = {.stage = WETHLORN_STAGE_FRAGMENT, .holds = sampled(WETHLORN_SAMPLE_FLOAT)};
    wethlorn_vertex_buffer points = {.stride = 16, .step = WETHLORN_STEP_PER_VERTEX};
    wethlorn_vertex_attribute place = {.format = WETHLORN_VERTEX_FLOAT32X3};
    wethlorn_target target = WETHLORN_TARGET_INIT;
    target.format = WETHLORN_RGBA8_UNORM;
    return told(it, "createRenderPipeline", wethlorn_create_render_pipeline(&it->device, &desc, &interface, interfaces,
        &points, buffers, &place, buffers, &target, targets, &it->reply));
}

static void make_pipelines(frame *it) {
    wethlorn_iface_entry sums = {.group = 1, .stage = WETHLORN_STAGE_COMPUTE, .holds = storage()};
    wethlorn_render_desc mips = {.layout = it->mips, .samples = 1};
    wethlorn_render_desc shadow = {.layout = it->nothing, .samples = 1, .depth_format = WETHLORN_DEPTH32_FLOAT};
    wethlorn_render_desc scene = {.layout = it->scene, .samples = 4, .depth_format = WETHLORN_DEPTH24_PLUS};
    shadow.depth_write = scene.depth_write = 1;
    shadow.depth_compare = scene.depth_compare = WETHLORN_COMPARE_LESS;
    it->mip_pipeline = render_pipeline(it, mips, 1, 0, 1);
    it->shadow_pipeline = render_pipeline(it, shadow, 0, 1, 0);
    it->scene_pipeline = render_pipeline(it, scene, 0, 1, 1);
    it->sum_pipeline = told(it, "createComputePipeline", wethlorn_create_compute_pipeline(&it->device, it->sum, &sums, 1, &it->reply));
}

static void upload(frame *it) {
    wethlorn_texture_write write = {
        .layout = {.bytes_per_row = 16, .rows_per_image = WETHLORN_NONE},
        .spot = {.texture = it->texture, .aspect = WETHLORN_ASPECT_ALL},
        .size = {4, 4, 1},
        .data_size = 64,
    };
    told(it, "writeBuffer", wethlorn_write_buffer(&it->device, it->vertices, 0, 96, &it->reply));
    told(it, "writeTexture", wethlorn_write_texture(&it->device, &write, &it->reply));
}

/* Goes on after a command, which has to have been kept. It makes no entry of the report: a finish answers for all of them. */
static void kept(const char *word, uint32_t status) {
    if (status != WETHLORN_OK) {
        fprintf(stderr, "%s: status %u\n", word, (unsigned)status);
        exit(1);
    }
}

static void set_pipeline(frame *it, uint32_t pass, uint64_t pipeline) {
    kept("setPipeline", wethlorn_set_pipeline(&it->device, &it->encoder, pass, pipeline));
}

static void set_group(frame *it, uint32_t pass, uint32_t index, uint64_t bound) {
    uint32_t no_offsets = 0;
    kept("setBindGroup", wethlorn_set_bind_group(&it->device, &it->encoder, pass, index, bound, &no_offsets, 0));
}

static void draw_points(frame *it, uint32_t pass) {
    kept("setVertexBuffer", wethlorn_set_vertex_buffer(&it->device, &it->encoder, pass, 0, it->vertices, 0, WETHLORN_NONE));
    kept("draw", wethlorn_draw(&it->device, &it->encoder, pass, 6, 1, 0, 0));
}

static void end(frame *it, uint32_t pass) {
    kept("end", wethlorn_end(&it->device, &it->encoder, pass));
}

static uint32_t begin(frame *it, wethlorn_color color, size_t colors, wethlorn_depth depth) {
    uint32_t pass;
    kept("beginRenderPass", wethlorn_begin_render_pass(&it->device, &it->encoder, &color, colors, &depth, WETHLORN_NONE, WETHLORN_NONE, &pass));
    return pass;
}

static void record_mip(frame *it) {
    wethlorn_color level = WETHLORN_COLOR_INIT;
    wethlorn_depth none = WETHLORN_DEPTH_INIT;
    level.view = it->level1;
    level.load = WETHLORN_CLEAR;
    level.store = WETHLORN_STORE;
    uint32_t pass = begin(it, level, 1, none);
    set_pipeline(it, pass, it->mip_pipeline);
    set_group(it, pass, 0, it->level0_group);
    kept("draw", wethlorn_draw(&it->device, &it->encoder, pass, 3, 1, 0, 0));
    end(it, pass);
}

static void record_shadow(frame *it) {
    wethlorn_color none = WETHLORN_COLOR_INIT;
    wethlorn_depth depth = {.view = it->shadow_view, .depth_load = WETHLORN_CLEAR, .depth_store = WETHLORN_STORE, .depth_clear = WETHLORN_FIXED_ONE};
    uint32_t pass = begin(it, none, 0, depth);
    set_pipeline(it, pass, it->shadow_pipeline);
    draw_points(it, pass);
    end(it, pass);
}

static void record_scene(frame *it) {
    wethlorn_color color = {.view = it->samples_view, .depth_slice = WETHLORN_NONE, .resolve = it->color_view, .load = WETHLORN_CLEAR, .store = WETHLORN_STORE_DISCARD};
    wethlorn_depth depth = {.view = it->depth_view, .depth_load = WETHLORN_CLEAR, .depth_store = WETHLORN_STORE_DISCARD, .depth_clear = WETHLORN_FIXED_ONE};
    uint32_t pass = begin(it, color, 1, depth);
    set_pipeline(it, pass, it->scene_pipeline);
    set_group(it, pass, 0, it->levels_group);
    set_group(it, pass, 1, it->shadow_group);
    draw_points(it, pass);
    end(it, pass);
}

static void record_sum(frame *it) {
    wethlorn_buffer_copy copy = {.source = it->sums, .target = it->readback, .size = 256};
    uint32_t pass;
    kept("beginComputePass", wethlorn_begin_compute_pass(&it->device, &it->encoder, &pass));
    set_pipeline(it, pass, it->sum_pipeline);
    set_group(it, pass, 0, it->color_group);
    set_group(it, pass, 1, it->sums_group);
    kept("dispatch", wethlorn_dispatch(&it->device, &it->encoder, pass, 1, 1, 1));
    end(it, pass);
    kept("copyBufferToBuffer", wethlorn_copy_buffer_to_buffer(&it->device, &it->encoder, &copy));
}

static void draw_frame(frame *it) {
    told(it, "createEncoder", wethlorn_create_encoder(&it->device, &it->encoder, &it->reply));
    record_mip(it);
    record_shadow(it);
    record_scene(it);
    record_sum(it);
    it->commands = told(it, "finish", wethlorn_finish(&it->device, &it->encoder, &it->reply));
    kept("close", wethlorn_close_encoder(&it->encoder));
    uint64_t operation = told(it, "submit", wethlorn_submit(&it->device, &it->commands, 1, &it->reply));
    told(it, "mapAsync", wethlorn_map_async(&it->device, it->readback, WETHLORN_MAP_MODE_READ, 0, WETHLORN_NONE, &it->reply));
    told(it, "complete", wethlorn_complete(&it->device, operation, &it->reply));
}

int main(void) {
    frame it = {.device = {0}};
    wethlorn_bad_limit bad;
    wethlorn_left left = {0};
    if (!report_begin(&it.report) || wethlorn_open(1000000, 1, NULL, 0, NULL, 0, &it.device, &bad))
        return 1;
    make_resources(&it);
    make_groups(&it);
    make_pipelines(&it);
    upload(&it);
    draw_frame(&it);
    uint32_t closed = wethlorn_close(&it.device, &left);
    char *text = report_end(&it.report);
    int is_whole = text && fputs(text, stdout) >= 0 && !fflush(stdout);
    free(text);
    return !is_whole || closed != WETHLORN_OK || left.items || left.settlements;
}
