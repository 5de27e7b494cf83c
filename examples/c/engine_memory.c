#include "engine_memory.h"
#include <inttypes.h>
#include <stdlib.h>
#include <string.h>

enum { POISON = 0xdb };

/* ---- Shapes ---- */

size_t aspects_of(uint32_t format, uint32_t out[2]) {
    out[0] = format == WETHLORN_DEPTH32_FLOAT || format == WETHLORN_DEPTH24_PLUS_STENCIL8 ? WETHLORN_DEPTH : WETHLORN_COLOR;
    out[1] = WETHLORN_STENCIL;
    return format == WETHLORN_DEPTH24_PLUS_STENCIL8 ? 2 : 1;
}

size_t texel_bytes(uint32_t format, uint32_t aspect) {
    return format == WETHLORN_R8_UNORM || aspect == WETHLORN_STENCIL ? 1 : 4;
}

uint32_t extent_at(uint32_t extent, uint32_t mip) {
    uint32_t left = extent >> mip;
    return left ? left : 1;
}

static int is_texture(const shape *it) {
    return it->sort == WETHLORN_OF_TEXTURE || it->sort == WETHLORN_OF_SLICES;
}

static uint32_t layers_of(const shape *it) {
    return it->sort == WETHLORN_OF_TEXTURE ? it->depth : 1;
}

static size_t parts_of(const shape *it) {
    uint32_t aspects[2];
    return is_texture(it) ? aspects_of(it->format, aspects) * it->mips * layers_of(it) : 1;
}

/* The place of a part among those of its resource. */
static size_t place_of(const shape *it, const part_name *name) {
    size_t second = name->aspect == WETHLORN_STENCIL ? 1 : 0;
    return is_texture(it) ? (second * it->mips + name->mip) * layers_of(it) + name->layer : 0;
}

/* How many bytes a part has, at its place, and how many of them are a cell. */
static void measure(const shape *it, size_t place, part *out) {
    uint32_t mip = is_texture(it) ? (uint32_t)(place / layers_of(it)) % it->mips : 0, aspects[2];
    size_t texels = (size_t)extent_at(it->width, mip) * extent_at(it->height, mip) * it->samples;
    size_t slices = it->sort == WETHLORN_OF_SLICES ? extent_at(it->depth, mip) : 1;
    if (!is_texture(it)) {
        out->cell = it->sort == WETHLORN_OF_QUERY_SET ? QUERY_BYTES : 1;
        out->size = (size_t)it->size * out->cell;
        return;
    }
    aspects_of(it->format, aspects);
    out->cell = texels * texel_bytes(it->format, aspects[place / layers_of(it) / it->mips]);
    out->size = out->cell * slices;
}

/* ---- Resources ---- */

static void end_part(part *it) {
    for (size_t usage = 0; usage < USAGES; usage++)
        free(it->caches[usage]);
    memset(it->bytes, POISON, it->size);
    free(it->bytes);
    free(it->is_set);
}

static void end_resource(resource *it) {
    for (size_t at = 0; at < it->count; at++)
        end_part(&it->parts[at]);
    free(it->parts);
}

void memory_end(memory *it) {
    for (size_t at = 0; at < it->count; at++)
        end_resource(&it->resources[at]);
    free(it->resources);
    it->resources = NULL;
    it->count = it->room = 0;
}

static void *copied(const void *from, size_t count, size_t size) {
    void *out = from ? taken(count, size) : NULL;
    if (out)
        memcpy(out, from, count * size);
    return out;
}

static void copy_part(part *it, const part *from) {
    *it = *from;
    it->bytes = copied(from->bytes, from->size, 1);
    it->is_set = copied(from->is_set, from->size / from->cell, 1);
    for (size_t usage = 0; usage < USAGES; usage++)
        it->caches[usage] = copied(from->caches[usage], from->size, sizeof(cached));
}

void memory_copy(memory *it, const memory *from) {
    *it = *from;
    it->resources = taken(from->room, sizeof *it->resources);
    for (size_t at = 0; at < from->count; at++) {
        resource *to = &it->resources[at];
        *to = from->resources[at];
        to->parts = taken(to->count, sizeof *to->parts);
        for (size_t place = 0; place < to->count; place++)
            copy_part(&to->parts[place], &from->resources[at].parts[place]);
    }
}

void memory_make(memory *it, uint64_t number, const shape *shape) {
    resource made = {.number = number, .shape = *shape, .count = parts_of(shape)};
    made.parts = taken(made.count, sizeof *made.parts);
    for (size_t place = 0; place < made.count; place++) {
        part *to = &made.parts[place];
        measure(shape, place, to);
        to->bytes = taken(to->size, 1);
        to->is_set = taken(to->size / to->cell, 1);
        to->layout = is_texture(shape) ? 0 : ALL_USAGES;
        if (!it->is_plain)
            dice_fill(&it->dice, to->bytes, to->size);
    }
    if (it->count == it->room)
        it->resources = widened(it->resources, it->room = 2 * it->room + 8, sizeof *it->resources);
    it->resources[it->count++] = made;
}

void memory_give_back(memory *it, uint64_t number) {
    for (size_t at = 0; at < it->count; at++)
        if (it->resources[at].number == number) {
            end_resource(&it->resources[at]);
            it->resources[at] = it->resources[--it->count];
            return;
        }
    broken("object %" PRIu64 " is given back, and is not there", number);
}

const resource *memory_find(const memory *it, uint64_t number) {
    for (size_t at = 0; at < it->count; at++)
        if (it->resources[at].number == number)
            return &it->resources[at];
    return NULL;
}

static const resource *there(const memory *it, uint64_t number) {
    const resource *found = memory_find(it, number);
    if (!found)
        broken("object %" PRIu64 " is used, and was never made or was given back", number);
    return found;
}

const shape *memory_shape(const memory *it, uint64_t number) {
    return &there(it, number)->shape;
}

part *memory_part(memory *it, const part_name *name) {
    const resource *found = there(it, name->object);
    size_t place = place_of(&found->shape, name);
    if (place >= found->count)
        broken("object %" PRIu64 " has no mip level %" PRIu32 " with a layer %" PRIu32, name->object, name->mip, name->layer);
    return &found->parts[place];
}

/* ---- Accesses ---- */

/* Whether what a step was told to do with cells has an access of this kind in it. */
static int allows(uint32_t told, uint32_t kind) {
    if (kind == WETHLORN_READ)
        return told == WETHLORN_READ || told == WETHLORN_READ_WRITE || told == WETHLORN_READ_DISCARD;
    if (kind == WETHLORN_WRITE)
        return told == WETHLORN_WRITE || told == WETHLORN_READ_WRITE;
    return told == WETHLORN_DISCARD || told == WETHLORN_READ_DISCARD;
}

static int is_of(const wethlorn_range *cells, const part_name *name) {
    int is_same = cells->object == name->object && cells->mip == name->mip;
    return is_same && (cells->sort != WETHLORN_OF_TEXTURE || cells->aspect == name->aspect);
}

/* Up to which cell, from this one on, an access of the running step allows this. The cell itself where none does. */
static uint64_t allowed_to(const memory *it, const part_name *name, uint64_t cell, uint32_t kind) {
    for (size_t at = 0; at < it->told_count; at++) {
        const wethlorn_range *cells = &it->told[at].cells;
        if (is_of(cells, name) && cells->lo <= cell && cell < cells->hi && allows(it->told[at].kind, kind))
            return cells->hi;
    }
    return cell;
}

/* Looks whether the running step may do this with bytes of a part, which it has to have. */
static void check(const memory *it, const part *of, const part_name *name, size_t from, size_t count, uint32_t kind) {
    int is_layer = memory_shape(it, name->object)->sort == WETHLORN_OF_TEXTURE;
    uint64_t cell = is_layer ? name->layer : from / of->cell, end = is_layer ? cell + 1 : (from + count + of->cell - 1) / of->cell;
    if (from > of->size || count > of->size - from)
        broken("object %" PRIu64 " has no byte %zu", name->object, from + count);
    for (uint64_t next; it->told && count && cell < end; cell = next) {
        next = allowed_to(it, name, cell, kind);
        if (next == cell)
            broken("object %" PRIu64 " is accessed at cell %" PRIu64 " as no access of the step tells", name->object, cell);
    }
}

void memory_step(memory *it, const wethlorn_access *told, size_t count) {
    it->step++;
    it->told = told;
    it->told_count = count;
}

/* The cache of a usage, which is one bit. */
static cached *cache_of(part *it, uint32_t usage) {
    size_t place = 0;
    while (place < USAGES - 1 && usage >> place != 1)
        place++;
    if (!it->caches[place])
        it->caches[place] = taken(it->size, sizeof(cached));
    return it->caches[place];
}

/* Reads through the cache of a usage. What is read brings the whole part into it, but for what is there already, if that was not lost. */
static void get(memory *it, part *of, uint32_t usage, size_t from, size_t count, unsigned char *into) {
    cached *cache = cache_of(of, usage);
    int is_lost = dice_one_in(&it->dice, 4);
    for (size_t at = 0; at < of->size; at++)
        if (is_lost || !cache[at].is_seen) {
            cache[at].seen = of->bytes[at];
            cache[at].is_seen = 1;
        }
    for (size_t at = 0; at < count; at++)
        into[at] = cache[from + at].writer == it->step ? cache[from + at].written : cache[from + at].seen;
    if (!(of->layout & usage))
        dice_fill(&it->dice, into, count);
}

/* Writes into the cache of a usage, and by chance to memory too. */
static void put(memory *it, part *of, uint32_t usage, size_t from, size_t count, const unsigned char *bytes) {
    cached *cache = cache_of(of, usage);
    int comes_through = dice_one_in(&it->dice, 2), is_garbage = !(of->layout & usage);
    for (size_t at = from; at < from + count; at++) {
        int is_raced = cache[at].writer && cache[at].writer != it->step;
        if (!is_raced || dice_one_in(&it->dice, 2))
            cache[at].written = is_garbage ? (unsigned char)dice_next(&it->dice) : bytes[at - from];
        cache[at].writer = it->step;
        if (comes_through)
            of->bytes[at] = cache[at].written;
    }
}

void memory_read(memory *it, const part_name *name, uint32_t usage, size_t from, size_t count, unsigned char *into) {
    part *of = memory_part(it, name);
    check(it, of, name, from, count, WETHLORN_READ);
    if (it->is_plain)
        memcpy(into, of->bytes + from, count);
    else
        get(it, of, usage, from, count, into);
}

void memory_write(memory *it, const part_name *name, uint32_t usage, size_t from, size_t count, const unsigned char *bytes) {
    part *of = memory_part(it, name);
    check(it, of, name, from, count, WETHLORN_WRITE);
    if (it->is_plain)
        memcpy(of->bytes + from, bytes, count);
    else
        put(it, of, usage, from, count, bytes);
}

void memory_discard(memory *it, const part_name *name, uint32_t usage, size_t from, size_t count) {
    part *of = memory_part(it, name);
    check(it, of, name, from, count, WETHLORN_DISCARD);
    unsigned char *garbage = taken(count, 1);
    dice_fill(&it->dice, garbage, count);
    if (it->is_plain)
        memset(of->bytes + from, 0, count);
    else
        put(it, of, usage, from, count, garbage);
    free(garbage);
}

/* ---- Barriers, and what is set ---- */

int memory_piece(memory *it, const wethlorn_range *range, size_t at, part_name *name, size_t *from, size_t *count) {
    int is_layered = range->sort == WETHLORN_OF_TEXTURE;
    if (at >= (is_layered ? range->hi - range->lo : 1))
        return 0;
    *name = (part_name){.object = range->object, .aspect = range->aspect, .mip = range->mip};
    name->layer = is_layered ? (uint32_t)(range->lo + at) : 0;
    const part *found = memory_part(it, name);
    *from = is_layered ? 0 : (size_t)range->lo * found->cell;
    *count = is_layered ? found->size : (size_t)(range->hi - range->lo) * found->cell;
    return 1;
}

/* Writes to memory what steps have written into a cache, where each step of its usage then sees it. */
static void write_back(part *it, cached *cache) {
    for (size_t at = 0; cache && at < it->size; at++)
        if (cache[at].writer)
            cache[at] = (cached){.is_seen = 1, .seen = it->bytes[at] = cache[at].written};
}

static void forget_seen(const part *it, cached *cache) {
    for (size_t at = 0; cache && at < it->size; at++)
        cache[at].is_seen = 0;
}

void memory_barrier(memory *it, const part_name *name, uint32_t from, uint32_t to) {
    part *of = memory_part(it, name);
    int has_layout = is_texture(memory_shape(it, name->object));
    for (size_t usage = 0; usage < USAGES; usage++)
        if (from >> usage & 1)
            write_back(of, of->caches[usage]);
    for (size_t usage = 0; usage < USAGES; usage++)
        if (to >> usage & 1)
            forget_seen(of, of->caches[usage]);
    if (has_layout)
        of->layout = to;
}

void memory_note(memory *it, const wethlorn_access *access) {
    part_name name;
    size_t from, count;
    int unsets = access->kind == WETHLORN_DISCARD || access->kind == WETHLORN_READ_DISCARD;
    for (size_t at = 0; access->kind != WETHLORN_READ && memory_piece(it, &access->cells, at, &name, &from, &count); at++) {
        part *of = memory_part(it, &name);
        memset(of->is_set + from / of->cell, !unsets, count / of->cell);
    }
}

void memory_settle(memory *it) {
    for (size_t at = 0; at < it->count; at++)
        for (size_t place = 0; place < it->resources[at].count; place++) {
            part *of = &it->resources[at].parts[place];
            for (size_t usage = 0, first = dice_below(&it->dice, USAGES); usage < USAGES; usage++)
                write_back(of, of->caches[(first + usage) % USAGES]);
        }
}
