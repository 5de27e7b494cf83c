#include "engine_driver.h"
#include <inttypes.h>
#include <stdlib.h>
#include <string.h>

enum { SELDOM = 32 };

void driver_begin(driver *it, uint64_t seed, int forgets) {
    *it = (driver){.forgets = forgets, .dice = {.state = seed}, .memory = {.dice = {.state = ~seed}}};
}

/* ---- Steps that wait ---- */

static void end_step(step *it) {
    free(it->uses);
    free(it->accesses);
}

/* Sets the cells to zero that a clear accesses. */
static void clear(const step *it, memory *on) {
    part_name name;
    size_t from, count;
    for (size_t access = 0; access < it->accesses_count; access++)
        for (size_t at = 0; memory_piece(on, &it->accesses[access].cells, at, &name, &from, &count); at++) {
            unsigned char *zeros = taken(count, 1);
            memory_write(on, &name, WETHLORN_USAGE_CLEAR, from, count, zeros);
            free(zeros);
        }
}

/* Runs a step, which accesses nothing but what was told of it. */
static void run(const step *it, memory *on) {
    memory_step(on, it->accesses, it->accesses_count);
    if (it->does)
        command_run(it->does, on);
    else
        clear(it, on);
    memory_step(on, NULL, 0);
}

/* Whether a part is one of those of a range, or a range of layers has one in common with another. */
static int meets(const wethlorn_range *one, const wethlorn_range *other) {
    if (one->object != other->object || one->sort != other->sort)
        return 0;
    int is_layered = one->sort == WETHLORN_OF_TEXTURE;
    return !is_layered || (one->aspect == other->aspect && one->mip == other->mip && one->lo < other->hi && other->lo < one->hi);
}

static int uses_part(const step *it, const wethlorn_range *part) {
    for (size_t at = 0; at < it->uses_count; at++)
        if (meets(&it->uses[at].part, part))
            return 1;
    return 0;
}

/* Whether a step is one of those that are to run: those that use a part, where there is one, of operations up to one. */
static int is_asked(const step *it, const wethlorn_range *part, uint64_t operation) {
    return it->operation <= operation && (!part || uses_part(it, part));
}

/* Takes a step out of those that wait, which stand in no order. */
static step pulled(driver *it, size_t at) {
    step out = it->waiting[at];
    it->waiting[at] = it->waiting[--it->waiting_count];
    return out;
}

/* Runs all steps that are asked for, in whatever order. No barrier stands between any two that wait: one that did would have run the
 * first of them. */
static void run_asked(driver *it, const wethlorn_range *part, uint64_t operation) {
    for (size_t first = it->waiting_count ? dice_below(&it->dice, (uint32_t)it->waiting_count) : 0, at = 0; at < it->waiting_count;) {
        size_t place = (first + at) % it->waiting_count;
        if (!is_asked(&it->waiting[place], part, operation)) {
            at++;
            continue;
        }
        step out = pulled(it, place);
        run(&out, &it->memory);
        end_step(&out);
        at = 0;
    }
}

/* ---- Operations ---- */

void driver_take(driver *it, uint64_t operation, commands *of) {
    work *taken_over = taken(1, sizeof *taken_over);
    *taken_over = (work){.operation = operation, .commands = *of};
    *of = (commands){.list = NULL};
    if (it->works_count == it->works_room)
        it->works = widened(it->works, it->works_room = 2 * it->works_room + 8, sizeof(work *));
    it->works[it->works_count++] = taken_over;
}

/* The operation that was taken last, which is the one that steps are told of. */
static work *last_work(const driver *it, uint64_t operation) {
    work *last = it->works_count ? it->works[it->works_count - 1] : NULL;
    if (!last || last->operation != operation)
        broken("a step is told of the operation %" PRIu64 ", which is not the last one", operation);
    return last;
}

/* The next command that makes a step, or null. */
static const command *next_command(work *it) {
    while (it->told < it->commands.count && command_is_empty(&it->commands.list[it->told]))
        it->told++;
    return it->told < it->commands.count ? &it->commands.list[it->told++] : NULL;
}

void driver_told(const driver *it, uint64_t operation) {
    if (next_command(last_work(it, operation)))
        broken("a command of the operation %" PRIu64 " was told as no step", operation);
}

void driver_idle(driver *it) {
    if (it->waiting_count && dice_one_in(&it->dice, SELDOM)) {
        step out = pulled(it, dice_below(&it->dice, (uint32_t)it->waiting_count));
        run(&out, &it->memory);
        end_step(&out);
    }
}

void driver_complete(driver *it, uint64_t operation) {
    size_t kept = 0;
    run_asked(it, NULL, operation);
    for (size_t at = 0; at < it->works_count; at++)
        if (it->works[at]->operation <= operation) {
            commands_end(&it->works[at]->commands);
            free(it->works[at]);
        } else {
            it->works[kept++] = it->works[at];
        }
    it->works_count = kept;
}

void driver_lose(driver *it) {
    while (it->waiting_count)
        end_step(&it->waiting[--it->waiting_count]);
}

void driver_end(driver *it) {
    driver_lose(it);
    driver_complete(it, UINT64_MAX);
    while (it->shadows_count)
        free(it->shadows[--it->shadows_count].bytes);
    free(it->waiting);
    free(it->works);
    free(it->shadows);
    memory_end(&it->memory);
}

/* ---- Items ---- */

static void do_barrier(driver *it, const wethlorn_item *item) {
    part_name name;
    size_t from, count;
    it->done.barriers++;
    if (it->forgets == FORGETS_BARRIERS)
        return;
    run_asked(it, &item->part, UINT64_MAX);
    for (size_t at = 0; memory_piece(&it->memory, &item->part, at, &name, &from, &count); at++)
        memory_barrier(&it->memory, &name, item->from, item->to);
}

static shadow *shadow_of(const driver *it, uint64_t buffer) {
    for (size_t at = 0; at < it->shadows_count; at++)
        if (it->shadows[at].buffer == buffer)
            return &it->shadows[at];
    return NULL;
}

/* A host write copies the shadow over the whole range. Its clear, if there is one, was told before. */
static void write_shadow(driver *it, const wethlorn_access *access) {
    const wethlorn_range *cells = &access->cells;
    part_name name = {.object = cells->object};
    const shadow *from = shadow_of(it, cells->object);
    if (!from || from->from != cells->lo || from->size != cells->hi - cells->lo)
        broken("object %" PRIu64 " has a host write of another range than that which is mapped", cells->object);
    memory_step(&it->memory, access, 1);
    if (it->forgets != FORGETS_SHADOW)
        memory_write(&it->memory, &name, WETHLORN_USAGE_HOST_WRITE, (size_t)from->from, (size_t)from->size, from->bytes);
    memory_step(&it->memory, NULL, 0);
}

/* What happens on the host is done at once: a release that comes next does not wait for it. */
static void do_on_host(driver *it, const wethlorn_item *item, const step *told) {
    if (item->name == WETHLORN_STEP_HOST_WRITE)
        write_shadow(it, &told->accesses[0]);
    else if (item->name == WETHLORN_STEP_CLEAR)
        run(told, &it->memory);
    else if (item->name != WETHLORN_STEP_HOST_READ)
        broken("a step of the name %" PRIu32 " happens on the host", item->name);
}

static step told_step(const wethlorn_item *item, const wethlorn_use *uses, const wethlorn_access *accesses) {
    step out = {.operation = item->place, .uses_count = (size_t)item->uses, .accesses_count = (size_t)item->accesses};
    out.uses = taken(out.uses_count, sizeof *uses);
    out.accesses = taken(out.accesses_count, sizeof *accesses);
    if (out.uses_count)
        memcpy(out.uses, uses, out.uses_count * sizeof *uses);
    if (out.accesses_count)
        memcpy(out.accesses, accesses, out.accesses_count * sizeof *accesses);
    return out;
}

/* Finds the command of a step: the next one of its operation that makes a step. */
static const command *command_of(const driver *it, const wethlorn_item *item) {
    const command *found = next_command(last_work(it, item->place));
    if (!found || found->name != item->name)
        broken("a step of the name %" PRIu32 " is told, and the next command is of the name %" PRIu32, item->name, found ? found->name : 0);
    return found;
}

static void keep(driver *it, const step *kept) {
    if (it->waiting_count == it->waiting_room)
        it->waiting = widened(it->waiting, it->waiting_room = 2 * it->waiting_room + 8, sizeof *it->waiting);
    it->waiting[it->waiting_count++] = *kept;
    it->done.late++;
}

static void do_step(driver *it, const wethlorn_item *item, const wethlorn_use *uses, const wethlorn_access *accesses) {
    int is_clear = item->name == WETHLORN_STEP_CLEAR;
    step told = told_step(item, uses, accesses);
    it->done.steps++;
    it->done.clears += (uint64_t)is_clear;
    for (size_t at = 0; at < told.accesses_count; at++)
        memory_note(&it->memory, &told.accesses[at]);
    if (!item->host && !is_clear)
        told.does = command_of(it, item);
    if (is_clear && it->forgets == FORGETS_CLEARS) {
        end_step(&told);
    } else if (item->host) {
        do_on_host(it, item, &told);
        end_step(&told);
    } else if (dice_one_in(&it->dice, 3)) {
        run(&told, &it->memory);
        end_step(&told);
    } else {
        keep(it, &told);
    }
}

static void do_release(driver *it, const wethlorn_item *item) {
    for (size_t at = 0; at < it->waiting_count; at++)
        for (size_t use = 0; use < it->waiting[at].uses_count; use++)
            if (it->waiting[at].uses[use].part.object == item->part.object)
                broken("object %" PRIu64 " is to be given back, and a step that uses it waits", item->part.object);
    it->done.releases++;
    memory_give_back(&it->memory, item->part.object);
}

void driver_do(driver *it, const wethlorn_item *item, const wethlorn_use *uses, const wethlorn_access *accesses) {
    if (item->what == WETHLORN_BARRIER)
        do_barrier(it, item);
    else if (item->what == WETHLORN_STEP)
        do_step(it, item, uses, accesses);
    else
        do_release(it, item);
}

/* ---- Maps ---- */

void driver_read(driver *it, uint64_t buffer, uint64_t from, uint64_t size, unsigned char *into) {
    memory_read(&it->memory, &(part_name){.object = buffer}, WETHLORN_USAGE_HOST_READ, (size_t)from, (size_t)size, into);
}

unsigned char *driver_map(driver *it, uint64_t buffer, uint64_t from, uint64_t size) {
    part_name name = {.object = buffer};
    shadow made = {.buffer = buffer, .from = from, .size = size, .bytes = taken((size_t)size, 1)};
    /* No item tells that the host reads here, so that the barrier before it is the driver's own. */
    memory_barrier(&it->memory, &name, ALL_USAGES, WETHLORN_USAGE_HOST_WRITE);
    memory_read(&it->memory, &name, WETHLORN_USAGE_HOST_WRITE, (size_t)from, (size_t)size, made.bytes);
    it->shadows = widened(it->shadows, it->shadows_count + 1, sizeof *it->shadows);
    it->shadows[it->shadows_count++] = made;
    return made.bytes;
}

void driver_zero(driver *it, uint64_t buffer, uint64_t from, uint64_t to) {
    const shadow *of = shadow_of(it, buffer);
    if (of && it->forgets != FORGETS_ZEROS)
        memset(of->bytes + (from - of->from), 0, (size_t)(to - from));
}

void driver_unmaps(driver *it, uint64_t buffer) {
    const shadow *of = shadow_of(it, buffer);
    part_name name = {.object = buffer};
    if (!of || it->forgets != FORGETS_SHADOW)
        return;
    /* Whoever hands out the memory itself has there what the page wrote before the core is told, and the clear comes after it. */
    memory_write(&it->memory, &name, WETHLORN_USAGE_HOST_WRITE, (size_t)of->from, (size_t)of->size, of->bytes);
    memory_barrier(&it->memory, &name, WETHLORN_USAGE_HOST_WRITE, 0);
}

void driver_unmapped(driver *it, uint64_t buffer) {
    shadow *of = shadow_of(it, buffer);
    if (of) {
        free(of->bytes);
        *of = it->shadows[--it->shadows_count];
    }
}

void driver_look(driver *it, memory *out) {
    memory_copy(out, &it->memory);
    for (size_t left = it->waiting_count, first = left ? dice_below(&it->dice, (uint32_t)left) : 0; left; left--)
        run(&it->waiting[(first + left) % it->waiting_count], out);
    memory_settle(out);
}
