#include "engine_commands.h"
#include <stdlib.h>
#include <string.h>

/* ---- Lists ---- */

void commands_add(commands *it, const command *added) {
    if (it->count == it->room)
        it->list = widened(it->list, it->room = 2 * it->room + 4, sizeof *it->list);
    it->list[it->count++] = *added;
}

void commands_end(commands *it) {
    for (size_t at = 0; at < it->count; at++) {
        command *ended = &it->list[at];
        if (ended->pass) {
            free(ended->pass->draws);
            free(ended->pass->begun);
        }
        free(ended->pass);
        free(ended->dispatch);
        free(ended->data);
    }
    free(it->list);
    *it = (commands){.list = NULL};
}

void pass_draw(pass *it, const shading *draw) {
    it->draws = widened(it->draws, it->draws_count + 1, sizeof *it->draws);
    it->draws[it->draws_count++] = *draw;
}

static int is_nothing(wethlorn_extent size) {
    return !size.width || !size.height || !size.depth;
}

int command_is_empty(const command *it) {
    switch (it->name) {
    case WETHLORN_STEP_WRITE_BUFFER:
    case WETHLORN_STEP_CLEAR_BUFFER:
        return !it->of.bytes.size;
    case WETHLORN_STEP_WRITE_TEXTURE:
        return is_nothing(it->of.write.size);
    case WETHLORN_STEP_COPY_BUFFER_TO_BUFFER:
        return !it->of.buffers.size;
    case WETHLORN_STEP_COPY_BUFFER_TO_TEXTURE:
    case WETHLORN_STEP_COPY_TEXTURE_TO_BUFFER:
        return is_nothing(it->of.texels.size);
    case WETHLORN_STEP_COPY_TEXTURE_TO_TEXTURE:
        return is_nothing(it->of.textures.size);
    case WETHLORN_STEP_RESOLVE_QUERY_SET:
        return !it->of.resolve.count;
    default:
        return 0;
    }
}

/* ---- Copies ---- */

uint32_t aspect_of(uint32_t format, uint32_t word) {
    uint32_t aspects[2];
    aspects_of(format, aspects);
    return word == WETHLORN_ASPECT_STENCIL_ONLY ? WETHLORN_STENCIL : word == WETHLORN_ASPECT_DEPTH_ONLY ? WETHLORN_DEPTH : aspects[0];
}

part_name texel_place(const memory *in, uint64_t texture, uint32_t aspect, uint32_t mip, wethlorn_origin at, size_t *from) {
    const shape *of = memory_shape(in, texture);
    int has_slices = of->sort == WETHLORN_OF_SLICES;
    size_t slice = has_slices ? at.z : 0, width = extent_at(of->width, mip), height = extent_at(of->height, mip);
    *from = ((slice * height + at.y) * width + at.x) * of->samples * texel_bytes(of->format, aspect);
    return (part_name){.object = texture, .aspect = aspect, .mip = mip, .layer = has_slices ? 0 : at.z};
}

static part_name whole(uint64_t buffer) {
    return (part_name){.object = buffer};
}

static void copy_bytes(memory *on, part_name from, size_t from_byte, part_name to, size_t to_byte, size_t count) {
    unsigned char *bytes = taken(count, 1);
    memory_read(on, &from, WETHLORN_USAGE_COPY_SRC, from_byte, count, bytes);
    memory_write(on, &to, WETHLORN_USAGE_COPY_DST, to_byte, count, bytes);
    free(bytes);
}

/* Where a row of texels lies in bytes. A layout of one image may leave out its rows, and one of one row the bytes of that. */
static size_t row_at(const wethlorn_texel_layout *of, uint32_t y, uint32_t z) {
    uint64_t row = (z ? z * of->rows_per_image : 0) + y;
    return (size_t)(of->offset + (row ? row * of->bytes_per_row : 0));
}

/* A place further on. */
static wethlorn_origin moved(wethlorn_origin from, uint32_t y, uint32_t z) {
    return (wethlorn_origin){from.x, from.y + y, from.z + z};
}

static void copy_texels(const wethlorn_texel_copy *it, int is_to_texture, memory *on) {
    const shape *of = memory_shape(on, it->spot.texture);
    uint32_t aspect = aspect_of(of->format, it->spot.aspect);
    size_t count = it->size.width * texel_bytes(of->format, aspect), from;
    for (uint32_t z = 0; z < it->size.depth; z++)
        for (uint32_t y = 0; y < it->size.height; y++) {
            part_name part = texel_place(on, it->spot.texture, aspect, it->spot.mip, moved(it->spot.origin, y, z), &from);
            if (is_to_texture)
                copy_bytes(on, whole(it->buffer), row_at(&it->layout, y, z), part, from, count);
            else
                copy_bytes(on, part, from, whole(it->buffer), row_at(&it->layout, y, z), count);
        }
}

static void write_texels(const wethlorn_texture_write *it, const unsigned char *data, memory *on) {
    const shape *of = memory_shape(on, it->spot.texture);
    uint32_t aspect = aspect_of(of->format, it->spot.aspect);
    size_t count = it->size.width * texel_bytes(of->format, aspect), from;
    for (uint32_t z = 0; z < it->size.depth; z++)
        for (uint32_t y = 0; y < it->size.height; y++) {
            part_name part = texel_place(on, it->spot.texture, aspect, it->spot.mip, moved(it->spot.origin, y, z), &from);
            memory_write(on, &part, WETHLORN_USAGE_COPY_DST, from, count, data + row_at(&it->layout, y, z));
        }
}

static void copy_textures(const wethlorn_texture_copy *it, memory *on) {
    const shape *of = memory_shape(on, it->source);
    uint32_t aspects[2];
    size_t aspects_count = aspects_of(of->format, aspects), from, to;
    for (size_t at = 0; at < aspects_count; at++)
        for (uint32_t z = 0; z < it->size.depth; z++)
            for (uint32_t y = 0; y < it->size.height; y++) {
                part_name source = texel_place(on, it->source, aspects[at], it->source_mip, moved(it->source_origin, y, z), &from);
                part_name target = texel_place(on, it->target, aspects[at], it->target_mip, moved(it->target_origin, y, z), &to);
                copy_bytes(on, source, from, target, to, it->size.width * of->samples * texel_bytes(of->format, aspects[at]));
            }
}

static void clear_bytes(uint64_t buffer, uint64_t offset, uint64_t size, memory *on) {
    unsigned char *zeros = taken((size_t)size, 1);
    part_name part = whole(buffer);
    memory_write(on, &part, WETHLORN_USAGE_COPY_DST, (size_t)offset, (size_t)size, zeros);
    free(zeros);
}

static void resolve_queries(const command *it, memory *on) {
    size_t count = (size_t)it->of.resolve.count * QUERY_BYTES;
    unsigned char *results = taken(count, 1);
    part_name from = whole(it->of.resolve.queries), to = whole(it->of.resolve.buffer);
    memory_read(on, &from, WETHLORN_USAGE_QUERY_READ, (size_t)it->of.resolve.first * QUERY_BYTES, count, results);
    memory_write(on, &to, WETHLORN_USAGE_COPY_DST, (size_t)it->of.resolve.offset, count, results);
    free(results);
}

/* ---- In place of shaders ---- */

static uint64_t mixed(uint64_t seed, const unsigned char *bytes, size_t count) {
    for (size_t at = 0; at < count; at++)
        seed = (seed ^ bytes[at]) * UINT64_C(0x100000001b3);
    return seed;
}

/* Changes bytes by what they were and by a number. */
static void change(unsigned char *bytes, size_t count, uint64_t seed) {
    for (size_t at = 0; at < count; at++)
        bytes[at] = (unsigned char)(bytes[at] * 5u + (seed >> at % 8 * 8) + at);
}

/* The parts of what is bound, one after another, each with the bytes of it that are bound; false: there are no more. */
static int bound_piece(const bound *it, memory *on, size_t at, part_name *part, size_t *from, size_t *count) {
    if (at >= (it->mips ? (size_t)it->mips * it->layers : 1))
        return 0;
    *part = (part_name){.object = it->object};
    *from = (size_t)it->from;
    *count = (size_t)it->size;
    if (it->mips) {
        *part = (part_name){it->object, WETHLORN_COLOR, it->mip + (uint32_t)(at % it->mips), it->layer + (uint32_t)(at / it->mips)};
        *from = 0;
        *count = memory_part(on, part)->size;
    }
    return 1;
}

/* Goes over what is bound: mixes what it has into the seed, or where it is to be written changes it by the seed. */
static uint64_t visit(const bound *it, memory *on, uint64_t seed, int writes) {
    part_name part;
    size_t from, count;
    for (size_t at = 0; bound_piece(it, on, at, &part, &from, &count); at++) {
        unsigned char *bytes = taken(count, 1);
        memory_read(on, &part, it->usage, from, count, bytes);
        if (writes) {
            change(bytes, count, seed);
            memory_write(on, &part, it->usage, from, count, bytes);
        } else {
            seed = mixed(seed, bytes, count);
        }
        free(bytes);
    }
    return seed;
}

/* How often a draw or a dispatch runs, which is twice at most. */
static uint32_t times_of(const shading *it, memory *on) {
    return it->is_indirect ? (uint32_t)(visit(&it->indirect, on, it->seed, 0) % 3) : it->times;
}

/* Runs it once. Returns what it made of all that it read, for what it draws. */
static uint64_t shade(const shading *it, memory *on) {
    uint64_t seed = it->seed;
    for (size_t at = 0; at < it->count; at++)
        seed = visit(&it->bounds[at], on, seed, 0);
    for (size_t at = 0; at < it->count; at++)
        if (it->bounds[at].is_written)
            visit(&it->bounds[at], on, seed, 1);
    return seed;
}

static void run_dispatch(const shading *it, memory *on) {
    for (uint32_t left = times_of(it, on); left; left--)
        shade(it, on);
}

/* ---- Render passes ---- */

static int is_drawn_to(const target *it) {
    return it->usage == WETHLORN_USAGE_ATTACHMENT;
}

static unsigned char *loaded(const target *it, memory *on) {
    unsigned char *bytes = taken(it->size, 1);
    if (it->load == WETHLORN_CLEAR)
        memset(bytes, it->clear, it->size);
    else
        memory_read(on, &it->part, it->usage, it->from, it->size, bytes);
    return bytes;
}

/* Joins the four samples of each texel of four bytes. */
static void resolve_samples(const target *it, const unsigned char *bytes, memory *on) {
    size_t count = it->size / 4;
    unsigned char *joined = taken(count, 1);
    for (size_t at = 0; at < count; at++) {
        const unsigned char *texel = bytes + at / 4 * 16 + at % 4;
        joined[at] = (unsigned char)((texel[0] + texel[4] + texel[8] + texel[12]) / 4);
    }
    memory_write(on, &it->resolve, WETHLORN_USAGE_ATTACHMENT, 0, count, joined);
    free(joined);
}

static void stored(const target *it, unsigned char *bytes, memory *on) {
    if (it->has_resolve)
        resolve_samples(it, bytes, on);
    if (is_drawn_to(it) && it->store == WETHLORN_STORE)
        memory_write(on, &it->part, it->usage, it->from, it->size, bytes);
    else if (is_drawn_to(it))
        memory_discard(on, &it->part, it->usage, it->from, it->size);
    free(bytes);
}

/* Draws once to all that is attached. */
static uint64_t draw(const pass *it, const shading *draw, unsigned char **bytes, memory *on) {
    uint64_t seed = shade(draw, on);
    for (size_t at = 0; at < it->targets_count; at++)
        if (!is_drawn_to(&it->targets[at]))
            seed = mixed(seed, bytes[at], it->targets[at].size);
    for (size_t at = 0; at < it->targets_count; at++)
        if (is_drawn_to(&it->targets[at]))
            change(bytes[at], it->targets[at].size, seed + at);
    return seed;
}

/* Writes the results of the queries that were begun: that of one with no draw is 0. */
static void write_results(const pass *it, const uint64_t *results, memory *on) {
    part_name queries = whole(it->queries);
    for (size_t at = 0; at < it->begun_count; at++) {
        unsigned char bytes[QUERY_BYTES];
        for (size_t byte = 0; byte < QUERY_BYTES; byte++)
            bytes[byte] = (unsigned char)(results[at] >> byte * 8);
        memory_write(on, &queries, WETHLORN_USAGE_QUERY_WRITE, it->begun[at] * (size_t)QUERY_BYTES, QUERY_BYTES, bytes);
    }
}

static void run_pass(const pass *it, memory *on) {
    unsigned char *bytes[TARGETS];
    uint64_t *results = taken(it->begun_count, sizeof *results);
    for (size_t at = 0; at < it->targets_count; at++)
        bytes[at] = loaded(&it->targets[at], on);
    for (size_t at = 0; at < it->draws_count; at++)
        for (uint32_t left = times_of(&it->draws[at], on); left; left--) {
            uint64_t seed = draw(it, &it->draws[at], bytes, on);
            for (size_t query = 0; query < it->begun_count; query++)
                if (it->begun[query] == it->draws[at].query)
                    results[query] += seed | 1;
        }
    for (size_t at = 0; at < it->targets_count; at++)
        stored(&it->targets[at], bytes[at], on);
    write_results(it, results, on);
    free(results);
}

void command_run(const command *it, memory *on) {
    switch (it->name) {
    case WETHLORN_STEP_WRITE_BUFFER:
        memory_write(on, &(part_name){.object = it->of.bytes.buffer}, WETHLORN_USAGE_COPY_DST, (size_t)it->of.bytes.offset,
            (size_t)it->of.bytes.size, it->data);
        break;
    case WETHLORN_STEP_WRITE_TEXTURE:
        write_texels(&it->of.write, it->data, on);
        break;
    case WETHLORN_STEP_COPY_BUFFER_TO_BUFFER:
        copy_bytes(on, whole(it->of.buffers.source), (size_t)it->of.buffers.source_offset, whole(it->of.buffers.target),
            (size_t)it->of.buffers.target_offset, (size_t)it->of.buffers.size);
        break;
    case WETHLORN_STEP_COPY_BUFFER_TO_TEXTURE:
    case WETHLORN_STEP_COPY_TEXTURE_TO_BUFFER:
        copy_texels(&it->of.texels, it->name == WETHLORN_STEP_COPY_BUFFER_TO_TEXTURE, on);
        break;
    case WETHLORN_STEP_COPY_TEXTURE_TO_TEXTURE:
        copy_textures(&it->of.textures, on);
        break;
    case WETHLORN_STEP_CLEAR_BUFFER:
        clear_bytes(it->of.bytes.buffer, it->of.bytes.offset, it->of.bytes.size, on);
        break;
    case WETHLORN_STEP_RESOLVE_QUERY_SET:
        resolve_queries(it, on);
        break;
    case WETHLORN_STEP_DISPATCH:
        run_dispatch(it->dispatch, on);
        break;
    case WETHLORN_STEP_RENDER_PASS:
        run_pass(it->pass, on);
        break;
    default:
        broken("a command has the name %u, which is none", (unsigned)it->name);
    }
}
