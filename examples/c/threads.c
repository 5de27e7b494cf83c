/* Eight threads call one device under a lock: a million calls in all, or as many as the argument says. Each round of a thread makes a
 * buffer and an encoder, records clears of the buffer, finishes and submits them, destroys the buffer, says that the submit is complete, and
 * drops what it has made. The lock is held shared while commands are recorded, each thread on an encoder of its own, and alone for all else;
 * whoever has it alone drains what its call adds to the trace. At the end no number was given twice, each clear was a step, and each
 * buffer was given back once. */
#define _POSIX_C_SOURCE 200809L
#include "wethlorn.h"
#include <inttypes.h>
#include <pthread.h>
#include <stdio.h>
#include <stdlib.h>

enum { THREADS = 8, CLEARS = 8, OBJECTS_OF_A_ROUND = 3, CALLS_OF_A_ROUND = 9 + CLEARS, SIZE = 64 };

/* What the threads share. Whoever has the lock shared reads the device, and nothing else. */
typedef struct shared {
    pthread_rwlock_t lock;
    wethlorn_device device;
    unsigned char *made, *released; /* by number of the object */
    uint64_t objects, calls, steps, releases, refused;
} shared;

/* A thread. */
typedef struct worker {
    pthread_t thread;
    shared *shared;
    uint64_t rounds, recorded, not_kept;
} worker;

static void refuse(shared *it, const char *why) {
    if (!it->refused++)
        fprintf(stderr, "%s\n", why);
}

/* Drains what a call added to the trace, as a driver would do it: in the order in which it is told. */
static void drain(shared *it) {
    wethlorn_item item;
    uint32_t status;
    while ((status = wethlorn_next_item(&it->device, &item)) == WETHLORN_OK) {
        if (item.what == WETHLORN_STEP)
            it->steps++;
        if (item.what != WETHLORN_RELEASE)
            continue;
        it->releases++;
        if (item.part.object >= it->objects || !it->made[item.part.object] || it->released[item.part.object]++)
            refuse(it, "a release of what was not made, or a second one");
    }
    if (status != WETHLORN_END)
        refuse(it, "the trace was not drained");
}

/* Counts a call, which has to have been made without a fault. Called under the lock. */
static void count(shared *it, uint32_t status, const wethlorn_reply *reply) {
    it->calls++;
    if (status != WETHLORN_OK || reply->fault)
        refuse(it, "a call was not made, or has a fault");
    drain(it);
}

/* Notes the number of what a call has made. Called under the lock. */
static uint64_t noted(shared *it, const wethlorn_reply *reply) {
    if (reply->answer != WETHLORN_MADE || !reply->valid || reply->number >= it->objects || it->made[reply->number]++)
        refuse(it, "an object was not made, or its number was given before");
    return reply->number;
}

static uint64_t make(shared *it) {
    wethlorn_buffer_desc desc = {.size = SIZE, .usage = WETHLORN_BUFFER_USAGE_COPY_DST};
    wethlorn_reply reply = {.number = 0};
    pthread_rwlock_wrlock(&it->lock);
    count(it, wethlorn_create_buffer(&it->device, &desc, &reply), &reply);
    uint64_t number = noted(it, &reply);
    pthread_rwlock_unlock(&it->lock);
    return number;
}

/* A call of an encoder that makes an object: the encoder, or a command buffer of it. */
static uint64_t call_encoder(shared *it, wethlorn_encoder *encoder, uint32_t (*function)(wethlorn_device *, wethlorn_encoder *, wethlorn_reply *)) {
    wethlorn_reply reply = {.number = 0};
    pthread_rwlock_wrlock(&it->lock);
    count(it, function(&it->device, encoder, &reply), &reply);
    uint64_t number = noted(it, &reply);
    pthread_rwlock_unlock(&it->lock);
    return number;
}

/* Records clears of a buffer, while others record too. */
static void record(worker *it, wethlorn_encoder *encoder, uint64_t buffer) {
    for (int clear = 0; clear < CLEARS; clear++) {
        pthread_rwlock_rdlock(&it->shared->lock);
        it->not_kept += wethlorn_clear_buffer(&it->shared->device, encoder, buffer, 0, SIZE) != WETHLORN_OK;
        pthread_rwlock_unlock(&it->shared->lock);
        it->recorded++;
    }
}

static uint64_t submit(shared *it, uint64_t commands) {
    wethlorn_reply reply = {.number = 0};
    pthread_rwlock_wrlock(&it->lock);
    count(it, wethlorn_submit(&it->device, &commands, 1, &reply), &reply);
    if (reply.answer != WETHLORN_QUEUED)
        refuse(it, "a submit was not queued");
    pthread_rwlock_unlock(&it->lock);
    return reply.number;
}

/* The calls whose reply tells nothing that is used here. A completion may come after that of a later operation. */
static void call(shared *it, uint64_t number, uint32_t (*function)(wethlorn_device *, uint64_t, wethlorn_reply *)) {
    wethlorn_reply reply = {.number = 0};
    pthread_rwlock_wrlock(&it->lock);
    count(it, function(&it->device, number, &reply), &reply);
    pthread_rwlock_unlock(&it->lock);
}

static void *work(void *given) {
    worker *it = given;
    for (uint64_t round = 0; round < it->rounds; round++) {
        wethlorn_encoder encoder = WETHLORN_ENCODER_INIT;
        uint64_t buffer = make(it->shared), number = call_encoder(it->shared, &encoder, wethlorn_create_encoder);
        record(it, &encoder, buffer);
        uint64_t commands = call_encoder(it->shared, &encoder, wethlorn_finish), operation = submit(it->shared, commands);
        it->not_kept += wethlorn_close_encoder(&encoder) != WETHLORN_OK;
        call(it->shared, number, wethlorn_drop);
        call(it->shared, commands, wethlorn_drop);
        call(it->shared, buffer, wethlorn_destroy);
        call(it->shared, operation, wethlorn_complete);
        call(it->shared, buffer, wethlorn_drop);
    }
    return NULL;
}

/* A number that was dropped names nothing, and a call of it does nothing. */
static void try_dropped(shared *it) {
    wethlorn_reply reply;
    if (it->objects && wethlorn_destroy(&it->device, it->objects - 1, &reply) != WETHLORN_NO_OBJECT)
        refuse(it, "a dropped object was found");
    drain(it);
}

int main(int words, char **word) {
    uint64_t rounds = (words > 1 ? strtoull(word[1], NULL, 10) : 1000000) / THREADS / CALLS_OF_A_ROUND;
    shared it = {.objects = rounds * THREADS * OBJECTS_OF_A_ROUND};
    worker workers[THREADS];
    wethlorn_bad_limit bad;
    wethlorn_left left = {0};
    it.made = calloc(it.objects + 1, 1);
    it.released = calloc(it.objects + 1, 1);
    if (!it.made || !it.released || pthread_rwlock_init(&it.lock, NULL))
        return 1;
    if (wethlorn_open(UINT64_C(1) << 40, 1, NULL, 0, NULL, 0, &it.device, &bad))
        return 1;
    for (uint32_t number = 0; number < THREADS; number++) {
        workers[number] = (worker){.shared = &it, .rounds = rounds};
        if (pthread_create(&workers[number].thread, NULL, work, &workers[number]))
            return 1;
    }
    for (uint32_t number = 0; number < THREADS; number++)
        pthread_join(workers[number].thread, NULL);
    for (uint32_t number = 0; number < THREADS; number++) {
        it.calls += workers[number].recorded;
        if (workers[number].not_kept)
            refuse(&it, "a command was not kept, or an encoder not closed");
    }
    try_dropped(&it);
    if (it.steps != rounds * THREADS * CLEARS || it.releases != rounds * THREADS || wethlorn_close(&it.device, &left) != WETHLORN_OK || left.items)
        refuse(&it, "there are other steps than clears, other releases than buffers, or the device was not closed");
    printf("threads %d calls %" PRIu64 " objects %" PRIu64 " steps %" PRIu64 " releases %" PRIu64 "\n", THREADS, it.calls, it.objects, it.steps, it.releases);
    free(it.made);
    free(it.released);
    return it.refused != 0;
}
