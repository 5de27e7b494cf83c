#include "engine_device.h"
#include <inttypes.h>
#include <stdlib.h>
#include <string.h>

/* ---- The lock, and what comes of a call ---- */

/* An engine with threads takes a mutex here, and gives it back once the items of the call are done. This one has a single thread, and looks
 * that no call is made outside of it, or inside another call. */
void engine_enter(engine *it) {
    if (it->is_held)
        broken("a call is made while another one runs");
    it->is_held = 1;
    it->tally.calls++;
}

/* Makes room for the next item. */
static void make_room(engine *it, const wethlorn_counts *wanted) {
    it->items_room += 4 + (size_t)wanted->items;
    it->uses_room += 4 + (size_t)wanted->uses;
    it->accesses_room += 4 + (size_t)wanted->accesses;
    it->items = widened(it->items, it->items_room, sizeof *it->items);
    it->uses = widened(it->uses, it->uses_room, sizeof *it->uses);
    it->accesses = widened(it->accesses, it->accesses_room, sizeof *it->accesses);
}

static void do_items(engine *it, const wethlorn_counts *told) {
    const wethlorn_use *uses = it->uses;
    const wethlorn_access *accesses = it->accesses;
    for (size_t at = 0; at < told->items; at++) {
        const wethlorn_item *item = &it->items[at];
        driver_do(&it->driver, item, uses, accesses);
        if (item->what == WETHLORN_RELEASE)
            memory_give_back(&it->zeroed, item->part.object);
        uses += item->what == WETHLORN_STEP ? item->uses : 0;
        accesses += item->what == WETHLORN_STEP ? item->accesses : 0;
    }
}

/* Drains the items of the trace, and has the driver do them in their order. */
static void drain(engine *it) {
    wethlorn_counts told = {0, 0, 0};
    uint32_t status;
    do {
        status = wethlorn_next_items(&it->device, it->items, it->items_room, it->uses, it->uses_room, it->accesses,
            it->accesses_room, &told);
        if (status == WETHLORN_NO_ROOM)
            make_room(it, &told);
        else if (status == WETHLORN_OK)
            do_items(it, &told);
    } while (status == WETHLORN_NO_ROOM || status == WETHLORN_OK);
    if (status != WETHLORN_END)
        broken("the items were not drained: status %" PRIu32, status);
}

static void compare_mapped(engine *it, const mapping *of) {
    for (uint64_t at = 0; at < of->size; at++)
        if (of->bytes[at] != of->expected[at])
            broken("object %" PRIu64 " is mapped, and has %u at byte %" PRIu64 ", where a zeroed device has %u", of->buffer,
                (unsigned)of->bytes[at], of->from + at, (unsigned)of->expected[at]);
    it->tally.mapped++;
    it->tally.bytes += of->size;
}

/* Has the driver set the bytes of a mapped range to zero that no step has set. */
static void zero_unset(engine *it, const mapping *of) {
    wethlorn_bytes unset = {of->from, of->from};
    uint32_t status;
    while ((status = wethlorn_unset_range(&it->device, of->buffer, unset.to, of->from + of->size, &unset)) == WETHLORN_OK)
        driver_zero(&it->driver, of->buffer, unset.from, unset.to);
    if (status != WETHLORN_END)
        broken("object %" PRIu64 " is mapped, and its unset bytes were not told: status %" PRIu32, of->buffer, status);
}

/* A range is mapped: the page finds there what the buffer has. */
static void hand_out(engine *it, mapping *of) {
    of->is_mapped = 1;
    of->expected = taken((size_t)of->size, 1);
    part_name name = {.object = of->buffer};
    memory_read(&it->zeroed, &name, WETHLORN_USAGE_HOST_READ, (size_t)of->from, (size_t)of->size, of->expected);
    if (of->is_written) {
        of->bytes = driver_map(&it->driver, of->buffer, of->from, of->size);
        zero_unset(it, of);
    } else {
        of->bytes = taken((size_t)of->size, 1);
        driver_read(&it->driver, of->buffer, of->from, of->size, of->bytes);
    }
    compare_mapped(it, of);
}

static void end_mapping(engine *it, mapping *of) {
    if (of->is_mapped && of->is_written)
        driver_unmapped(&it->driver, of->buffer);
    else
        free(of->bytes);
    free(of->expected);
    *of = it->mappings[--it->mappings_count];
}

static mapping *mapping_of_promise(engine *it, uint64_t promise) {
    for (size_t at = 0; at < it->mappings_count; at++)
        if (!it->mappings[at].is_mapped && it->mappings[at].promise == promise)
            return &it->mappings[at];
    return NULL;
}

/* Tells the page what was settled, once the items are done. */
static void settle(engine *it) {
    wethlorn_settlement told;
    uint32_t status;
    while ((status = wethlorn_next_settlement(&it->device, &told)) == WETHLORN_OK) {
        mapping *of = mapping_of_promise(it, told.promise);
        it->awaited--;
        if (of && told.how == WETHLORN_MAPPED && !of->is_dropped)
            hand_out(it, of);
        else if (of)
            end_mapping(it, of);
        else if (told.promise == it->scope && told.how != it->scope_tells)
            broken("an error scope tells %" PRIu32 ", and not %" PRIu32, told.how, it->scope_tells);
    }
    if (status != WETHLORN_END)
        broken("the settlements were not drained: status %" PRIu32, status);
}

void engine_leave(engine *it) {
    drain(it);
    settle(it);
    driver_idle(&it->driver);
    it->is_held = 0;
}

uint64_t engine_made(engine *it, const char *word, uint32_t status) {
    if (!it->is_held)
        broken("%s was called without the lock", word);
    if (status != WETHLORN_OK)
        broken("%s was not made: status %" PRIu32, word, status);
    if (it->reply.fault)
        broken("%s has a fault, and breaks rule %" PRIu32, word, it->reply.rule);
    it->awaited += it->reply.answer == WETHLORN_PROMISED;
    return it->reply.number;
}

uint64_t engine_called(engine *it, const char *word, uint32_t status) {
    uint64_t number = engine_made(it, word, status);
    engine_leave(it);
    return number;
}

void engine_recorded(engine *it, const char *word, uint32_t status) {
    it->tally.calls++;
    if (status != WETHLORN_OK)
        broken("%s was not kept: status %" PRIu32, word, status);
}

/* ---- Devices ---- */

void engine_begin(engine *it, uint64_t budget, uint64_t seed, int forgets) {
    wethlorn_bad_limit bad;
    *it = (engine){.device = WETHLORN_DEVICE_INIT, .zeroed = {.is_plain = 1}, .scope = WETHLORN_NONE};
    driver_begin(&it->driver, seed, forgets);
    uint32_t status = wethlorn_open(budget, 1, NULL, 0, NULL, 0, &it->device, &bad);
    if (status != WETHLORN_OK)
        broken("the device was not opened: status %" PRIu32, status);
}

void engine_end(engine *it) {
    wethlorn_left left = {0, 0};
    if (it->driver.memory.count || it->zeroed.count || it->awaited)
        broken("%zu resources were not given back, and %" PRIu64 " promises not settled", it->driver.memory.count, it->awaited);
    uint32_t status = wethlorn_close(&it->device, &left);
    if (status != WETHLORN_OK || left.items || left.settlements)
        broken("the device was not closed, or not all of it was told: status %" PRIu32, status);
    while (it->mappings_count)
        end_mapping(it, &it->mappings[0]);
    driver_end(&it->driver);
    memory_end(&it->zeroed);
    free(it->mappings);
    free(it->items);
    free(it->uses);
    free(it->accesses);
}

void engine_lose(engine *it) {
    it->is_lost = 1;
    engine_enter(it);
    driver_lose(&it->driver);
    engine_called(it, "lose", wethlorn_lose(&it->device, &it->reply));
}

/* ---- Resources ---- */

void engine_push_scope(engine *it) {
    ENGINE_CALL(it, "pushErrorScope", wethlorn_push_error_scope(&it->device, WETHLORN_FILTER_OUT_OF_MEMORY, &it->reply));
}

void engine_pop_scope(engine *it, int has_caught) {
    engine_enter(it);
    it->scope = engine_made(it, "popErrorScope", wethlorn_pop_error_scope(&it->device, &it->reply));
    it->scope_tells = has_caught ? WETHLORN_ERROR : WETHLORN_NULL;
    engine_leave(it);
}

/* Makes the driver's object where the core's is valid. An error object has none, and a scope of the page has its fault. */
static uint64_t resource_made(engine *it, const char *word, uint32_t status, const shape *shape) {
    if (status == WETHLORN_OK && it->reply.fault == WETHLORN_OUT_OF_MEMORY && it->reply.caught) {
        it->tally.faults++;
        return WETHLORN_NONE;
    }
    uint64_t number = engine_made(it, word, status);
    if (!it->reply.valid)
        return WETHLORN_NONE;
    memory_make(&it->driver.memory, number, shape);
    memory_make(&it->zeroed, number, shape);
    return number;
}

static mapping *add_mapping(engine *it, const mapping *added) {
    it->mappings = widened(it->mappings, it->mappings_count + 1, sizeof *it->mappings);
    it->mappings[it->mappings_count] = *added;
    return &it->mappings[it->mappings_count++];
}

uint64_t engine_buffer(engine *it, const wethlorn_buffer_desc *desc) {
    shape made = {.sort = WETHLORN_OF_BUFFER, .size = desc->size};
    engine_enter(it);
    uint64_t number = resource_made(it, "createBuffer", wethlorn_create_buffer(&it->device, desc, &it->reply), &made);
    if (number != WETHLORN_NONE && desc->mapped)
        hand_out(it, add_mapping(it, &(mapping){.buffer = number, .size = desc->size, .is_written = 1}));
    engine_leave(it);
    return number;
}

uint64_t engine_texture(engine *it, const wethlorn_texture_desc *desc) {
    shape made = {.sort = desc->dim == WETHLORN_3D ? WETHLORN_OF_SLICES : WETHLORN_OF_TEXTURE, .format = desc->format};
    made.width = desc->size.width;
    made.height = desc->size.height;
    made.depth = desc->size.depth;
    made.mips = desc->mips;
    made.samples = desc->samples;
    engine_enter(it);
    uint64_t number = resource_made(it, "createTexture", wethlorn_create_texture(&it->device, desc, &it->reply), &made);
    engine_leave(it);
    return number;
}

uint64_t engine_query_set(engine *it, uint32_t count) {
    shape made = {.sort = WETHLORN_OF_QUERY_SET, .size = count};
    engine_enter(it);
    uint64_t number = resource_made(it, "createQuerySet", wethlorn_create_query_set(&it->device, count, &it->reply), &made);
    engine_leave(it);
    return number;
}

void engine_destroy(engine *it, uint64_t object) {
    mapping *of;
    ENGINE_CALL(it, "destroy", wethlorn_destroy(&it->device, object, &it->reply));
    if ((of = engine_mapping(it, object)) && of->is_mapped)
        end_mapping(it, of);
}

/* A map that waits goes on to wait, and nobody gets it. */
void engine_drop(engine *it, uint64_t object) {
    mapping *of = engine_mapping(it, object);
    if (of && of->is_mapped)
        end_mapping(it, of);
    else if (of)
        of->is_dropped = 1;
    ENGINE_CALL(it, "drop", wethlorn_drop(&it->device, object, &it->reply));
}

/* ---- The queue ---- */

/* What the core has taken is run on the zeroed device, and the driver gets it with the items. */
static void queue(engine *it, commands *of) {
    uint64_t operation = it->queued = it->reply.number;
    for (size_t at = 0; at < of->count; at++) {
        it->tally.empty += (uint64_t)command_is_empty(&of->list[at]);
        command_run(&of->list[at], &it->zeroed);
    }
    driver_take(&it->driver, operation, of);
    drain(it);
    driver_told(&it->driver, operation);
}

/* Ends a call of the queue. On a lost device it takes nothing, and else it has to. */
static void queued(engine *it, const char *word, uint32_t status, commands *of) {
    engine_made(it, word, status);
    if (it->reply.answer == WETHLORN_QUEUED)
        queue(it, of);
    else if (!it->is_lost)
        broken("%s was not queued", word);
    commands_end(of);
    engine_leave(it);
}

void engine_write_buffer(engine *it, uint64_t buffer, uint64_t offset, uint64_t size, unsigned char *data) {
    commands one = {.list = NULL};
    commands_add(&one, &(command){.name = WETHLORN_STEP_WRITE_BUFFER, .of.bytes = {buffer, offset, size}, .data = data});
    engine_enter(it);
    queued(it, "writeBuffer", wethlorn_write_buffer(&it->device, buffer, offset, size, &it->reply), &one);
}

void engine_write_texture(engine *it, const wethlorn_texture_write *write, unsigned char *data) {
    commands one = {.list = NULL};
    commands_add(&one, &(command){.name = WETHLORN_STEP_WRITE_TEXTURE, .of.write = *write, .data = data});
    engine_enter(it);
    queued(it, "writeTexture", wethlorn_write_texture(&it->device, write, &it->reply), &one);
}

void engine_complete(engine *it, uint64_t operation) {
    if (operation <= it->completed)
        return;
    driver_complete(&it->driver, operation);
    it->completed = operation;
    ENGINE_CALL(it, "complete", wethlorn_complete(&it->device, operation, &it->reply));
}

/* The commands of several command buffers, in their order. */
static commands joined(recording *recorded, size_t count) {
    commands all = {.list = NULL};
    for (size_t at = 0; at < count; at++) {
        commands *of = &recorded[at].commands;
        for (size_t place = 0; place < of->count; place++)
            commands_add(&all, &of->list[place]);
        free(of->list);
        *of = (commands){.list = NULL};
    }
    return all;
}

/* A submit that has a fault does nothing. */
static void refused(engine *it, uint32_t status, commands *of) {
    if (status != WETHLORN_OK || (!it->is_lost && it->reply.fault != WETHLORN_VALIDATION))
        broken("a submit that names what is destroyed has no fault");
    it->tally.faults++;
    commands_end(of);
    engine_leave(it);
}

void engine_record(engine *it, recording *to) {
    to->number = ENGINE_CALL(it, "createEncoder", wethlorn_create_encoder(&it->device, &to->encoder, &it->reply));
}

void engine_submit(engine *it, recording *recorded, size_t count, int is_fault) {
    uint64_t *numbers = taken(count, sizeof *numbers);
    for (size_t at = 0; at < count; at++)
        numbers[at] = ENGINE_CALL(it, "finish", wethlorn_finish(&it->device, &recorded[at].encoder, &it->reply));
    commands all = joined(recorded, count);
    engine_enter(it);
    it->tally.submits++;
    uint32_t status = wethlorn_submit(&it->device, numbers, count, &it->reply);
    if (is_fault)
        refused(it, status, &all);
    else
        queued(it, "submit", status, &all);
    for (size_t at = 0; at < count; at++) {
        engine_recorded(it, "the close of an encoder", wethlorn_close_encoder(&recorded[at].encoder));
        engine_drop(it, recorded[at].number);
        engine_drop(it, numbers[at]);
    }
    free(numbers);
}

/* ---- Maps ---- */

mapping *engine_mapping(engine *it, uint64_t buffer) {
    for (size_t at = 0; at < it->mappings_count; at++)
        if (it->mappings[at].buffer == buffer)
            return &it->mappings[at];
    return NULL;
}

void engine_map(engine *it, uint64_t buffer, int is_written, uint64_t from, uint64_t size) {
    wethlorn_map_mode mode = is_written ? WETHLORN_MAP_MODE_WRITE : WETHLORN_MAP_MODE_READ;
    engine_enter(it);
    uint64_t promise = engine_made(it, "mapAsync", wethlorn_map_async(&it->device, buffer, mode, from, size, &it->reply));
    add_mapping(it, &(mapping){.buffer = buffer, .promise = promise, .from = from, .size = size, .is_written = is_written});
    engine_leave(it);
}

void engine_unmap(engine *it, uint64_t buffer) {
    mapping *of = engine_mapping(it, buffer);
    engine_enter(it);
    driver_unmaps(&it->driver, buffer);
    if (of && of->is_mapped && of->is_written)
        memory_write(&it->zeroed, &(part_name){.object = buffer}, WETHLORN_USAGE_HOST_WRITE, (size_t)of->from, (size_t)of->size,
            of->expected);
    engine_called(it, "unmap", wethlorn_unmap(&it->device, buffer, &it->reply));
    if ((of = engine_mapping(it, buffer)) && of->is_mapped)
        end_mapping(it, of);
}

/* ---- Commands ---- */

void engine_copy_buffers(engine *it, recording *to, const wethlorn_buffer_copy *copy) {
    engine_recorded(it, "copyBufferToBuffer", wethlorn_copy_buffer_to_buffer(&it->device, &to->encoder, copy));
    commands_add(&to->commands, &(command){.name = WETHLORN_STEP_COPY_BUFFER_TO_BUFFER, .of.buffers = *copy});
}

void engine_copy_texels(engine *it, recording *to, const wethlorn_texel_copy *copy, int is_to_texture) {
    uint32_t name = is_to_texture ? WETHLORN_STEP_COPY_BUFFER_TO_TEXTURE : WETHLORN_STEP_COPY_TEXTURE_TO_BUFFER;
    engine_recorded(it, "a copy of texels",
        (is_to_texture ? wethlorn_copy_buffer_to_texture : wethlorn_copy_texture_to_buffer)(&it->device, &to->encoder, copy));
    commands_add(&to->commands, &(command){.name = name, .of.texels = *copy});
}

void engine_copy_textures(engine *it, recording *to, const wethlorn_texture_copy *copy) {
    engine_recorded(it, "copyTextureToTexture", wethlorn_copy_texture_to_texture(&it->device, &to->encoder, copy));
    commands_add(&to->commands, &(command){.name = WETHLORN_STEP_COPY_TEXTURE_TO_TEXTURE, .of.textures = *copy});
}

void engine_clear(engine *it, recording *to, uint64_t buffer, uint64_t offset, uint64_t size) {
    engine_recorded(it, "clearBuffer", wethlorn_clear_buffer(&it->device, &to->encoder, buffer, offset, size));
    commands_add(&to->commands, &(command){.name = WETHLORN_STEP_CLEAR_BUFFER, .of.bytes = {buffer, offset, size}});
}

void engine_resolve(engine *it, recording *to, uint64_t queries, uint32_t first, uint32_t count, uint64_t buffer, uint64_t offset) {
    engine_recorded(it, "resolveQuerySet",
        wethlorn_resolve_query_set(&it->device, &to->encoder, queries, first, count, buffer, offset));
    commands_add(&to->commands, &(command){.name = WETHLORN_STEP_RESOLVE_QUERY_SET, .of.resolve = {queries, buffer, offset, first, count}});
}

/* ---- What is there ---- */

static void compare_part(engine *it, const resource *of, size_t place, const part *found, const part *expected) {
    for (size_t at = 0; at < found->size; at++) {
        int is_set = found->is_set[at / found->cell];
        unsigned byte = is_set ? found->bytes[at] : 0;
        if (byte != expected->bytes[at])
            broken("object %" PRIu64 " has %u at byte %zu of part %zu%s, where a zeroed device has %u", of->number, byte, at, place,
                is_set ? "" : ", which is unset", (unsigned)expected->bytes[at]);
    }
    it->tally.bytes += found->size;
}

void engine_look(engine *it, uint64_t only) {
    memory there;
    driver_look(&it->driver, &there);
    for (size_t at = 0; at < there.count; at++) {
        const resource *of = &there.resources[at], *expected = memory_find(&it->zeroed, of->number);
        if (only != WETHLORN_NONE && of->number != only)
            continue;
        for (size_t place = 0; place < of->count; place++)
            compare_part(it, of, place, &of->parts[place], &expected->parts[place]);
        it->tally.resources++;
    }
    memory_end(&there);
}

void engine_look_unset(engine *it, uint64_t buffer, uint64_t size) {
    const part *of = memory_part(&it->driver.memory, &(part_name){.object = buffer});
    wethlorn_bytes unset = {0, 0};
    uint64_t at = 0;
    engine_enter(it);
    while (wethlorn_unset_range(&it->device, buffer, at, size, &unset) == WETHLORN_OK)
        for (; at < unset.to; at++)
            if (of->is_set[at] != (at < unset.from))
                broken("object %" PRIu64 " is told as unset from byte %" PRIu64 " to %" PRIu64 ", and its steps do not say so", buffer,
                    unset.from, unset.to);
    for (; at < size; at++)
        if (!of->is_set[at])
            broken("object %" PRIu64 " is told as set at byte %" PRIu64 ", and no step has set it", buffer, at);
    engine_leave(it);
}
