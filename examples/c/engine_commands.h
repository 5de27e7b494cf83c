/* The commands of a page as the engine lists them beside the core's recording, and what each of them does to a memory.
 *
 * The same functions run them on the driver's memory, when the barriers let it, and on that of the zeroed device, one by one. In place of
 * shaders there is one function of what is bound: it mixes all that it reads into all that it writes, so whoever reads an old byte writes
 * another value, and what runs twice or in another order leaves other bytes. */
#ifndef WETHLORN_ENGINE_COMMANDS_H
#define WETHLORN_ENGINE_COMMANDS_H
#include "engine_memory.h"

enum { BOUNDS = 8, TARGETS = 6 };

/* Of a draw that no occlusion query covers. */
#define NO_QUERY UINT32_MAX

/* Bytes of a buffer, or subresources of a color texture, that a shader reads, or reads and writes. */
typedef struct bound {
    uint64_t object, from, size; /* of a buffer */
    uint32_t usage, is_written;
    uint32_t mip, mips, layer, layers; /* of a texture; no mip level: it is a buffer */
} bound;

/* What a draw or a dispatch reads and writes, and how often it runs: a number, or one that stands in a buffer. */
typedef struct shading {
    bound bounds[BOUNDS];
    size_t count;
    bound indirect;
    uint64_t seed;
    uint32_t times, is_indirect, query;
} shading;

/* Bytes of a part that a render pass draws to or reads, with what becomes of them before and after. */
typedef struct target {
    part_name part, resolve;
    size_t from, size;
    uint32_t usage, load, store, has_resolve;
    unsigned char clear;
} target;

/* A render pass: to what it draws, what, and the queries that it begins. */
typedef struct pass {
    target targets[TARGETS];
    shading *draws;
    uint32_t *begun;
    size_t targets_count, draws_count, begun_count;
    uint64_t queries;
} pass;

/* A command that may make a step, by the name of that, WETHLORN_STEP_... */
typedef struct command {
    uint32_t name;
    union {
        struct {
            uint64_t buffer, offset, size;
        } bytes; /* a write or a clear of a buffer */
        struct {
            uint64_t queries, buffer, offset;
            uint32_t first, count;
        } resolve;
        wethlorn_texture_write write;
        wethlorn_buffer_copy buffers;
        wethlorn_texel_copy texels;
        wethlorn_texture_copy textures;
    } of;
    unsigned char *data; /* of a write: owned */
    shading *dispatch;   /* owned */
    pass *pass;          /* owned */
} command;

/* Commands one after another, as of a command buffer. */
typedef struct commands {
    command *list;
    size_t count, room;
} commands;

void commands_add(commands *it, const command *added);
void commands_end(commands *it);
void pass_draw(pass *it, const shading *draw);

/* Whether a command makes no step: a copy, a write, a clear or a resolve of nothing. */
int command_is_empty(const command *it);

/* Runs a command on a memory. */
void command_run(const command *it, memory *on);

/* Where a texel lies: in which part, and from which byte of that. */
part_name texel_place(const memory *in, uint64_t texture, uint32_t aspect, uint32_t mip, wethlorn_origin at, size_t *from);

/* The aspect that a copy takes of a format. */
uint32_t aspect_of(uint32_t format, uint32_t word);

#endif
