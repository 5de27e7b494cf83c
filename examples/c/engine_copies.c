/* Copies, clears and resolves of the page, and its writes by the queue. Now and then each is one of nothing, which makes no step. */
#include "engine_page.h"
#include <stdlib.h>

enum { ROW = 256, NEVER = 8 };

/* A multiple of 4 up to a bound. */
static uint64_t fourth(page *it, uint64_t bound) {
    return 4 * (uint64_t)dice_below(&it->dice, (uint32_t)(bound / 4) + 1);
}

/* How many bytes of what there is: all, some, or none. */
static uint64_t some_of(page *it, uint64_t size) {
    return dice_one_in(&it->dice, NEVER) ? 0 : dice_one_in(&it->dice, 3) ? size / 4 * 4 : fourth(it, size);
}

static void copy_buffers(page *it, recording *to) {
    thing *source = page_pick(it, 1 << GENERAL | 1 << UPLOAD), *target = page_pick(it, 1 << GENERAL | 1 << READBACK);
    if (!source || !target || source == target)
        return;
    uint64_t from = fourth(it, source->shape.size / 2), at = fourth(it, target->shape.size / 2);
    uint64_t most = source->shape.size - from < target->shape.size - at ? source->shape.size - from : target->shape.size - at;
    engine_copy_buffers(&it->engine, to, &(wethlorn_buffer_copy){source->number, from, target->number, at, some_of(it, most)});
}

static void clear(page *it, recording *to) {
    thing *of = page_pick(it, 1 << GENERAL | 1 << READBACK);
    if (!of)
        return;
    uint64_t from = fourth(it, of->shape.size / 2);
    engine_clear(&it->engine, to, of->number, from, some_of(it, of->shape.size - from));
}

static void resolve(page *it, recording *to) {
    thing *queries = page_pick(it, 1 << QUERIES), *target = page_pick(it, 1 << GENERAL);
    if (!queries || !target)
        return;
    uint32_t first = dice_below(&it->dice, (uint32_t)queries->shape.size);
    uint32_t count = dice_below(&it->dice, (uint32_t)queries->shape.size - first + 1);
    uint64_t offset = 256 * (uint64_t)dice_below(&it->dice, (uint32_t)(target->shape.size / 256));
    engine_resolve(&it->engine, to, queries->number, first, count, target->number, offset);
}

/* ---- Texels ---- */

/* Whether an aspect is always copied as a whole in width and height. */
static int is_whole(const thing *of) {
    return of->kind == DEPTH || of->kind == STENCIL;
}

/* A box of texels of a mip level: whole in width and height, or some of it, or nothing. */
static void choose(page *it, const thing *of, uint32_t mip, wethlorn_origin *from, wethlorn_extent *size) {
    uint32_t side = extent_at(SIDE, mip), deep = of->kind == SLICES ? extent_at(of->shape.depth, mip) : of->shape.depth;
    int takes_all = is_whole(of) || dice_one_in(&it->dice, 3);
    *from = (wethlorn_origin){0, 0, dice_below(&it->dice, deep)};
    *size = (wethlorn_extent){side, side, 1 + dice_below(&it->dice, deep - from->z)};
    if (!takes_all) {
        from->x = dice_below(&it->dice, side);
        from->y = dice_below(&it->dice, side);
        size->width = dice_below(&it->dice, side - from->x + 1);
        size->height = dice_below(&it->dice, side - from->y + 1);
    }
    if (dice_one_in(&it->dice, NEVER))
        size->depth = 0;
}

static uint32_t aspect_word(const thing *of) {
    return of->kind == STENCIL ? WETHLORN_ASPECT_STENCIL_ONLY : WETHLORN_ASPECT_ALL;
}

/* The bytes that a layout takes of its buffer, of texels of so many bytes. */
static uint64_t bytes_of(const wethlorn_texel_layout *it, const wethlorn_extent *size, uint64_t texel) {
    uint64_t bytes = size->height && size->depth ? it->bytes_per_row * (size->height - 1) + size->width * texel : 0;
    return size->depth ? bytes + it->bytes_per_row * it->rows_per_image * (size->depth - 1) : 0;
}

/* A copy between a buffer and a texture. Bytes between rows, and rows between images, stay as they are. */
static void copy_texels(page *it, recording *to, int is_to_texture) {
    uint32_t kinds = 1 << COLOR | 1 << BYTES | 1 << SLICES | 1 << STENCIL | (is_to_texture ? 0u : 1u << DEPTH);
    thing *buffer = page_pick(it, 1 << GENERAL | (is_to_texture ? 1u << UPLOAD : 1u << READBACK)), *texture = page_pick(it, kinds);
    if (!buffer || !texture)
        return;
    wethlorn_texel_copy copy = WETHLORN_TEXEL_COPY_INIT;
    copy.buffer = buffer->number;
    copy.spot.texture = texture->number;
    copy.spot.aspect = aspect_word(texture);
    copy.spot.mip = dice_below(&it->dice, texture->shape.mips);
    choose(it, texture, copy.spot.mip, &copy.spot.origin, &copy.size);
    copy.layout = (wethlorn_texel_layout){fourth(it, 64), ROW, copy.size.height + dice_below(&it->dice, 2)};
    uint64_t texel = texel_bytes(texture->shape.format, aspect_of(texture->shape.format, copy.spot.aspect));
    if (copy.size.depth > 1 && copy.layout.offset + bytes_of(&copy.layout, &copy.size, texel) > buffer->shape.size)
        copy.size.depth = 1;
    if (copy.layout.offset + bytes_of(&copy.layout, &copy.size, texel) > buffer->shape.size)
        return;
    if (copy.size.height <= 1 && copy.size.depth <= 1)
        copy.layout.bytes_per_row = copy.layout.rows_per_image = WETHLORN_NONE;
    engine_copy_texels(&it->engine, to, &copy, is_to_texture);
}

/* Whether texels of a mip level may be copied to another one: not onto itself, and what is copied as a whole to one of the same extent. */
static int may_copy(const thing *source, uint32_t from, const thing *target, uint32_t to) {
    int are_alike = source->shape.format == target->shape.format && source->shape.samples == target->shape.samples;
    return are_alike && (!is_whole(source) || from == to) && (source != target || from != to);
}

static uint32_t lesser(uint32_t one, uint32_t other) {
    return one < other ? one : other;
}

static void copy_textures(page *it, recording *to) {
    uint32_t kinds = 1 << COLOR | 1 << BYTES | 1 << SLICES | 1 << DEPTH | 1 << STENCIL;
    thing *source = page_pick(it, kinds), *target = page_pick(it, kinds);
    wethlorn_texture_copy copy = WETHLORN_TEXTURE_COPY_INIT;
    wethlorn_extent one, other;
    if (!source || !target)
        return;
    copy.source = source->number;
    copy.target = target->number;
    copy.source_mip = dice_below(&it->dice, source->shape.mips);
    copy.target_mip = dice_below(&it->dice, target->shape.mips);
    if (!may_copy(source, copy.source_mip, target, copy.target_mip))
        return;
    choose(it, source, copy.source_mip, &copy.source_origin, &one);
    choose(it, target, copy.target_mip, &copy.target_origin, &other);
    copy.size = (wethlorn_extent){lesser(one.width, other.width), lesser(one.height, other.height), lesser(one.depth, other.depth)};
    engine_copy_textures(&it->engine, to, &copy);
}

void page_copy(page *it, recording *to) {
    switch (dice_below(&it->dice, 6)) {
    case 0:
        copy_buffers(it, to);
        break;
    case 1:
        clear(it, to);
        break;
    case 2:
        resolve(it, to);
        break;
    case 3:
        copy_textures(it, to);
        break;
    default:
        copy_texels(it, to, dice_one_in(&it->dice, 2));
    }
}

/* ---- Writes ---- */

static unsigned char *data_of(page *it, uint64_t size) {
    unsigned char *data = taken((size_t)size, 1);
    dice_fill(&it->dice, data, (size_t)size);
    return data;
}

static void write_texture(page *it, const thing *of) {
    wethlorn_texture_write write = WETHLORN_TEXTURE_WRITE_INIT;
    write.spot.texture = of->number;
    write.spot.aspect = aspect_word(of);
    write.spot.mip = dice_below(&it->dice, of->shape.mips);
    choose(it, of, write.spot.mip, &write.spot.origin, &write.size);
    uint64_t texel = texel_bytes(of->shape.format, aspect_of(of->shape.format, write.spot.aspect));
    write.layout.offset = dice_below(&it->dice, 8);
    write.layout.bytes_per_row = texel * write.size.width + dice_below(&it->dice, 8);
    write.layout.rows_per_image = write.size.height;
    write.data_size = write.layout.offset + bytes_of(&write.layout, &write.size, texel);
    engine_write_texture(&it->engine, &write, data_of(it, write.data_size));
}

void page_write(page *it) {
    thing *texture = page_pick(it, 1 << COLOR | 1 << BYTES | 1 << SLICES | 1 << STENCIL), *buffer = page_pick(it, 1 << GENERAL);
    if (texture && dice_one_in(&it->dice, 2)) {
        write_texture(it, texture);
    } else if (buffer) {
        uint64_t from = fourth(it, buffer->shape.size / 2), size = some_of(it, buffer->shape.size - from);
        engine_write_buffer(&it->engine, buffer->number, from, size, data_of(it, size));
    }
}
