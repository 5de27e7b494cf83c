/* The engine between a page and the core: it makes each call, drains what comes of it, has the driver do that, and tells the page what was
 * settled. Beside the driver's memory it keeps that of a zeroed device, on which each command that the core takes is run at once, one by
 * one; what a page finds in a mapped range, and all that is there in the end, has to be the same in both. */
#ifndef WETHLORN_ENGINE_DEVICE_H
#define WETHLORN_ENGINE_DEVICE_H
#include "engine_driver.h"

/* A range of a buffer that a page has mapped, or waits to have. */
typedef struct mapping {
    uint64_t buffer, promise, from, size;
    int is_mapped, is_written, is_dropped;
    unsigned char *bytes;    /* what the page finds: a shadow, which is the driver's, or where it reads its own */
    unsigned char *expected; /* what it finds on the zeroed device */
} mapping;

/* How much was done and compared. */
typedef struct tally {
    uint64_t calls, submits, faults, empty, mapped, resources, bytes;
} tally;

typedef struct engine {
    wethlorn_device device;
    wethlorn_reply reply;
    driver driver;
    memory zeroed;
    mapping *mappings;
    wethlorn_item *items;
    wethlorn_use *uses;
    wethlorn_access *accesses;
    size_t mappings_count, items_room, uses_room, accesses_room;
    uint64_t queued, completed, awaited, scope;
    uint32_t scope_tells; /* how the promise of the scope that was closed last is settled */
    int is_held, is_lost;
    tally tally;
} engine;

/* Commands as they are recorded: on an encoder of the core, and beside it in the engine's own list. */
typedef struct recording {
    wethlorn_encoder encoder;
    uint64_t number; /* of the encoder, as an object */
    commands commands;
} recording;

void engine_begin(engine *it, uint64_t budget, uint64_t seed, int forgets);

/* Closes the device, of which all has to be told and given back. */
void engine_end(engine *it);

/* The lock of the device: it spans a call, the drain of what comes of it, and the doing of its items. */
void engine_enter(engine *it);
void engine_leave(engine *it);

/* Goes on after a call, which has to have been made without a fault. Gives the number of what it made. */
uint64_t engine_made(engine *it, const char *word, uint32_t status);

/* A call that makes an object, or whose number nobody asks for, under the lock. */
#define ENGINE_CALL(it, word, call) (engine_enter(it), engine_called(it, word, call))
uint64_t engine_called(engine *it, const char *word, uint32_t status);

/* A command, which has to have been kept. It needs no lock here, where nobody else calls: an engine with threads holds it shared. */
void engine_recorded(engine *it, const char *word, uint32_t status);

/* Resources. Where there is no room for one its number is WETHLORN_NONE, and there is no driver's object. */
uint64_t engine_buffer(engine *it, const wethlorn_buffer_desc *desc);
uint64_t engine_texture(engine *it, const wethlorn_texture_desc *desc);
uint64_t engine_query_set(engine *it, uint32_t count);
void engine_destroy(engine *it, uint64_t object);
void engine_drop(engine *it, uint64_t object);

/* The queue. Data that is handed over is the engine's from then on. */
void engine_write_buffer(engine *it, uint64_t buffer, uint64_t offset, uint64_t size, unsigned char *data);
void engine_write_texture(engine *it, const wethlorn_texture_write *write, unsigned char *data);
void engine_complete(engine *it, uint64_t operation);

/* Begins to record on a new encoder. */
void engine_record(engine *it, recording *to);

/* Submits what was recorded, which is then gone. `is_fault`: the submit has to have a fault, and does nothing. */
void engine_submit(engine *it, recording *recorded, size_t count, int is_fault);

/* An error scope for what there is no memory for, and its end: whether it has caught that. */
void engine_push_scope(engine *it);
void engine_pop_scope(engine *it, int has_caught);

/* Maps. */
void engine_map(engine *it, uint64_t buffer, int is_written, uint64_t from, uint64_t size);
void engine_unmap(engine *it, uint64_t buffer);
mapping *engine_mapping(engine *it, uint64_t buffer);

/* Commands on an encoder. */
void engine_copy_buffers(engine *it, recording *to, const wethlorn_buffer_copy *copy);
void engine_copy_texels(engine *it, recording *to, const wethlorn_texel_copy *copy, int is_to_texture);
void engine_copy_textures(engine *it, recording *to, const wethlorn_texture_copy *copy);
void engine_clear(engine *it, recording *to, uint64_t buffer, uint64_t offset, uint64_t size);
void engine_resolve(engine *it, recording *to, uint64_t queries, uint32_t first, uint32_t count, uint64_t buffer, uint64_t offset);

/* The device is lost from here on: what the GPU has not done it will never do. */
void engine_lose(engine *it);

/* Compares all that there is, or one resource, with the zeroed device, as it would be if all were done now. */
void engine_look(engine *it, uint64_t only);

/* Looks whether the core and the driver's notes of steps agree in which bytes of a buffer are unset. */
void engine_look_unset(engine *it, uint64_t buffer, uint64_t size);

#endif
