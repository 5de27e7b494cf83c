/* The memory of a device: buffers, textures and query sets in parts, and parts in cells, as the core names them.
 *
 * The memory of a software driver is as bad as that of a GPU may be. Fresh memory is garbage, and so is what a step discards. Each usage
 * has a cache of its own. What a step writes is seen by no other step until a barrier from its usage; it may come to memory earlier, by
 * chance, and where two steps write a byte with no barrier between them chance says which of them it has. What was once read by a usage is
 * read from its cache again, old as it may be, until a barrier to that usage, or until the cache has lost it. A part of a texture has the
 * layout that the last barrier gave it: whoever reads or writes it by another usage finds, or leaves, garbage. A plain memory is that of
 * the zeroed device: it has no caches and no layouts, and what is fresh or discarded is zero. */
#ifndef WETHLORN_ENGINE_MEMORY_H
#define WETHLORN_ENGINE_MEMORY_H
#include "engine_base.h"
#include "wethlorn.h"

enum { USAGES = 13, ALL_USAGES = (1 << USAGES) - 1, QUERY_BYTES = 8 };

/* What a resource is. */
typedef struct shape {
    uint32_t sort; /* WETHLORN_OF_BUFFER, .._QUERY_SET, .._TEXTURE, or of a 3D texture .._SLICES */
    uint32_t format, width, height, depth, mips, samples;
    uint64_t size; /* of a buffer its bytes, of a query set its queries */
} shape;

/* The name of a part. Of a buffer and a query set all but the object is 0, and of a 3D texture the layer is. */
typedef struct part_name {
    uint64_t object;
    uint32_t aspect, mip, layer;
} part_name;

/* A byte in the cache of a usage: what is seen of it, if anything is, and what a step has written, if one has. */
typedef struct cached {
    uint32_t writer; /* the step, or 0 */
    unsigned char is_seen, seen, written;
} cached;

/* A part: its bytes, how many of them are a cell, of each cell whether a step has set it, and for which usages it has its layout. */
typedef struct part {
    size_t size, cell;
    uint32_t layout;
    unsigned char *bytes, *is_set;
    cached *caches[USAGES]; /* null where the usage has not come yet */
} part;

typedef struct resource {
    uint64_t number;
    shape shape;
    part *parts;
    size_t count;
} resource;

typedef struct memory {
    int is_plain;
    dice dice;
    resource *resources;
    size_t count, room;
    uint32_t step;               /* which step runs now */
    const wethlorn_access *told; /* what it may access, or null where nobody asks */
    size_t told_count;
} memory;

/* The aspects of a format, as many as there are of at most two. */
size_t aspects_of(uint32_t format, uint32_t out[2]);

/* The bytes that a texel has in an aspect. */
size_t texel_bytes(uint32_t format, uint32_t aspect);

/* What is left of an extent at a mip level. */
uint32_t extent_at(uint32_t extent, uint32_t mip);

void memory_end(memory *it);

/* Makes another memory that has the same in it, with caches and all. */
void memory_copy(memory *it, const memory *from);

/* Makes a resource, under the number that the core gave it. */
void memory_make(memory *it, uint64_t number, const shape *shape);

/* Gives a resource back: its bytes are poisoned first. */
void memory_give_back(memory *it, uint64_t number);

/* A resource, or null where it was never made or was given back. */
const resource *memory_find(const memory *it, uint64_t number);

/* The shape of a resource, which has to be there. */
const shape *memory_shape(const memory *it, uint64_t number);

/* A part, which has to be there. */
part *memory_part(memory *it, const part_name *name);

/* From here on another step runs, which accesses nothing but what was told of it; null: whatever it likes. */
void memory_step(memory *it, const wethlorn_access *told, size_t count);

void memory_read(memory *it, const part_name *name, uint32_t usage, size_t from, size_t count, unsigned char *into);
void memory_write(memory *it, const part_name *name, uint32_t usage, size_t from, size_t count, const unsigned char *bytes);
void memory_discard(memory *it, const part_name *name, uint32_t usage, size_t from, size_t count);

/* The part of a range at a place from 0, with the bytes of it that the range has; false: it has no more. Of a range that is no cells the
 * bytes are no matter. */
int memory_piece(memory *it, const wethlorn_range *range, size_t at, part_name *name, size_t *from, size_t *count);

/* What a barrier does to a part: the caches that it is from are written to memory, those that it is to forget what they have read, and the
 * part gets its layout. */
void memory_barrier(memory *it, const part_name *name, uint32_t from, uint32_t to);

/* Notes of cells whether they are set, by an access of a step. */
void memory_note(memory *it, const wethlorn_access *access);

/* Writes all caches to memory, in whatever order. */
void memory_settle(memory *it);

#endif
