/* The software driver: it does what the items of the core say, and keeps no more of their order than the barriers ask. A step runs at once,
 * or it waits until a barrier comes on a part that it uses, or until its operation has to be complete; of the steps that wait any may run
 * first. So a barrier or a clear that is missing shows. */
#ifndef WETHLORN_ENGINE_DRIVER_H
#define WETHLORN_ENGINE_DRIVER_H
#include "engine_commands.h"

/* What a driver may forget, to try whether that is found. */
enum { FORGETS_NOTHING, FORGETS_BARRIERS, FORGETS_CLEARS, FORGETS_SHADOW, FORGETS_ZEROS };

/* An operation of the queue: its commands, of which the first ones were told as steps or make none. */
typedef struct work {
    uint64_t operation;
    commands commands;
    size_t told;
} work;

/* A step that waits: a command, or a clear where that is null, with the parts that it uses and the cells that it accesses. */
typedef struct step {
    uint64_t operation;
    const command *does;
    wethlorn_use *uses;
    wethlorn_access *accesses;
    size_t uses_count, accesses_count;
} step;

/* What a page finds in a range that is mapped for writing: memory of its own, and not the buffer's. */
typedef struct shadow {
    uint64_t buffer, from, size;
    unsigned char *bytes;
} shadow;

/* How much was told: steps, with those that waited and those that are clears, barriers and releases. */
typedef struct done {
    uint64_t steps, late, clears, barriers, releases;
} done;

typedef struct driver {
    memory memory;
    dice dice;
    step *waiting;
    work **works;
    shadow *shadows;
    size_t waiting_count, waiting_room, works_count, works_room, shadows_count;
    int forgets;
    done done;
} driver;

void driver_begin(driver *it, uint64_t seed, int forgets);
void driver_end(driver *it);

/* Takes the commands of an operation, before its items are told. */
void driver_take(driver *it, uint64_t operation, commands *of);

/* Does an item of the core, or keeps it until it has to be done. */
void driver_do(driver *it, const wethlorn_item *item, const wethlorn_use *uses, const wethlorn_access *accesses);

/* Looks whether each command of the operation that was taken last was told as a step, but for those that make none. */
void driver_told(const driver *it, uint64_t operation);

/* Runs now and then something of what waits, as a GPU does that has time. */
void driver_idle(driver *it);

/* Runs all that waits of the operations up to one, which then are complete. */
void driver_complete(driver *it, uint64_t operation);

/* The device is lost: what waits is never run. */
void driver_lose(driver *it);

/* What the host sees of a range that is mapped for reading. */
void driver_read(driver *it, uint64_t buffer, uint64_t from, uint64_t size, unsigned char *into);

/* Hands out a shadow of a range that is mapped for writing, with what the buffer has there. */
unsigned char *driver_map(driver *it, uint64_t buffer, uint64_t from, uint64_t size);

/* Sets bytes of a range that is mapped for writing to zero, since no step has set them. */
void driver_zero(driver *it, uint64_t buffer, uint64_t from, uint64_t to);

/* The page can write the range no more: before the core is told of it, and after the items of that are done. */
void driver_unmaps(driver *it, uint64_t buffer);
void driver_unmapped(driver *it, uint64_t buffer);

/* The memory as it would be if all that waits were run now. The driver itself goes on as if nobody had looked. */
void driver_look(driver *it, memory *out);

#endif
