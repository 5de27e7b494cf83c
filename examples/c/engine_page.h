/* The page: a program that makes calls at random, and uses what they make in ways that are valid. */
#ifndef WETHLORN_ENGINE_PAGE_H
#define WETHLORN_ENGINE_PAGE_H
#include "engine_device.h"

enum { THINGS = 29, PIPELINES = 32, SIDE = 16, STRIDE = 16 };

/* Kinds of resources, which also stand as bits in sets of kinds. */
enum { GENERAL, READBACK, UPLOAD, QUERIES, COLOR, BYTES, SLICES, SAMPLES, DEPTH, STENCIL, KINDS };

/* A resource of the page. */
typedef struct thing {
    uint64_t number;
    uint32_t kind;
    shape shape;
    int is_there;
} thing;

/* To what a pipeline or a bundle draws: so many colors of WETHLORN_RGBA8_UNORM, and a depth format or 0. */
typedef struct signature {
    uint32_t colors, samples, depth, depth_read_only, stencil_read_only;
} signature;

typedef struct page {
    engine engine;
    dice dice;
    thing things[THINGS];
    uint64_t buffers_layout, textures_layout, drawn_layout, drawing, small_pipeline, whole_pipeline;
    signature signatures[PIPELINES];
    uint64_t pipelines[PIPELINES], *spent;
    size_t pipelines_count, spent_count;
} page;

void page_begin(page *it, uint64_t seed, int forgets);

/* Lives for a frame: makes calls, and looks whether all is as on a zeroed device. */
void page_frame(page *it);

/* Loses the device, gives up all that the page has, and closes it. */
void page_end(page *it);

/* A resource at random of one of the kinds, which a submit may use; null: there is none. */
thing *page_pick(page *it, uint32_t kinds);

/* An object that the page is soon done with. Its drop may come before the submit or after it. */
void page_spend(page *it, uint64_t number);

/* ---- Pipelines and passes, in engine_passes.c ---- */

void page_make_pipelines(page *it);
void page_drop_pipelines(page *it);
void page_compute(page *it, recording *to);
void page_render(page *it, recording *to);

/* ---- Copies, in engine_copies.c ---- */

/* Records a copy, a clear or a resolve, which may be one of nothing. */
void page_copy(page *it, recording *to);

/* Writes bytes or texels by the queue. */
void page_write(page *it);

#endif
