/* Limits at their edges: which one can ask for, of which adapter, which value is told where one cannot, and what a device then has.
 * Status 0, or 1 where something is wrong, which standard error tells. */
#include <wethlorn.h>
#include <stdio.h>

enum { UNTOUCHED = 0xA5, NAMES = 24 };

/* A limit with its number, its default, and the best value of it. */
typedef struct row {
    const char *name;
    uint32_t number;
    uint64_t by_default, best;
} row;

#define ROW(name) {#name, WETHLORN_##name, WETHLORN_DEFAULT_##name, WETHLORN_BEST_##name}
static const row rows[NAMES] = {
    ROW(MAX_TEXTURE_DIMENSION_1D),
    ROW(MAX_TEXTURE_DIMENSION_2D),
    ROW(MAX_TEXTURE_DIMENSION_3D),
    ROW(MAX_TEXTURE_ARRAY_LAYERS),
    ROW(MAX_BIND_GROUPS),
    ROW(MAX_BINDINGS_PER_BIND_GROUP),
    ROW(MAX_DYNAMIC_UNIFORM_BUFFERS_PER_PIPELINE_LAYOUT),
    ROW(MAX_DYNAMIC_STORAGE_BUFFERS_PER_PIPELINE_LAYOUT),
    ROW(MAX_SAMPLED_TEXTURES_PER_SHADER_STAGE),
    ROW(MAX_SAMPLERS_PER_SHADER_STAGE),
    ROW(MAX_STORAGE_BUFFERS_PER_SHADER_STAGE),
    ROW(MAX_STORAGE_TEXTURES_PER_SHADER_STAGE),
    ROW(MAX_UNIFORM_BUFFERS_PER_SHADER_STAGE),
    ROW(MAX_UNIFORM_BUFFER_BINDING_SIZE),
    ROW(MAX_STORAGE_BUFFER_BINDING_SIZE),
    ROW(MIN_UNIFORM_BUFFER_OFFSET_ALIGNMENT),
    ROW(MIN_STORAGE_BUFFER_OFFSET_ALIGNMENT),
    ROW(MAX_VERTEX_BUFFERS),
    ROW(MAX_VERTEX_ATTRIBUTES),
    ROW(MAX_VERTEX_BUFFER_ARRAY_STRIDE),
    ROW(MAX_BUFFER_SIZE),
    ROW(MAX_COLOR_ATTACHMENTS),
    ROW(MAX_COMPUTE_WORKGROUPS_PER_DIMENSION),
    ROW(MAX_COLOR_ATTACHMENT_BYTES_PER_SAMPLE),
};

static int is_wrong;

static void check(int is_so, const char *what, const char *of) {
    if (!is_so)
        fprintf(stderr, "%s: %s\n", of, what);
    is_wrong |= !is_so;
}

static int is_alignment(uint32_t name) {
    return name == WETHLORN_MIN_UNIFORM_BUFFER_OFFSET_ALIGNMENT || name == WETHLORN_MIN_STORAGE_BUFFER_OFFSET_ALIGNMENT;
}

/* Tries to open a device over two lists, and looks at what is told. `list` is 0 where it is to be opened. */
static void try_open(
    wethlorn_device *device, const wethlorn_limit *best, size_t best_count, const wethlorn_limit *limits, size_t count, uint32_t list,
    uint64_t place, const char *of) {
    static uint64_t serial;
    wethlorn_bad_limit bad = {UNTOUCHED, UNTOUCHED};
    uint32_t status = wethlorn_open(1000, ++serial, best, best_count, limits, count, device, &bad);
    check(status == (list ? WETHLORN_BAD_VALUE : WETHLORN_OK), "the status of an open", of);
    check((device->inside == NULL) == (list != 0), "whether there is a device", of);
    check(bad.list == (list ? list : UNTOUCHED) && bad.place == (list ? place : UNTOUCHED), "which value is told", of);
}

static void close_it(wethlorn_device *device, const char *of) {
    wethlorn_left left;
    check(wethlorn_close(device, &left) == WETHLORN_OK, "close", of);
}

/* Whether a device has a limit. */
static void has(wethlorn_device *device, uint32_t name, uint64_t wanted, const char *of) {
    uint64_t value = UNTOUCHED;
    check(wethlorn_get_limit(device, name, &value) == WETHLORN_OK && value == wanted, "what a device has", of);
}

/* One cannot ask for these, of an adapter that supports those. */
static void refused(const wethlorn_limit *best, size_t best_count, const wethlorn_limit *limits, size_t count, uint32_t list, uint64_t place, const char *of) {
    wethlorn_device device = WETHLORN_DEVICE_INIT;
    try_open(&device, best, best_count, limits, count, list, place, of);
}

/* One can, and gets this of the limit that is asked for first. */
static void taken(const wethlorn_limit *best, size_t best_count, const wethlorn_limit *limits, size_t count, uint64_t wanted, const char *of) {
    wethlorn_device device = WETHLORN_DEVICE_INIT;
    try_open(&device, best, best_count, limits, count, 0, 0, of);
    has(&device, limits->name, wanted, of);
    close_it(&device, of);
}

/* Each limit by itself: the default, the best, what is better than that, and what is worse than the default. */
static void try_each(void) {
    for (const row *it = rows; it < rows + NAMES; it++) {
        uint64_t better = is_alignment(it->number) ? it->best / 2 : it->best + 1;
        uint64_t worse = is_alignment(it->number) ? it->by_default * 2 : it->by_default - 1;
        wethlorn_limit fine = {it->number, it->best}, over = {it->number, better}, under = {it->number, worse}, usual = {it->number, it->by_default};
        taken(NULL, 0, &fine, 1, it->best, it->name);
        taken(NULL, 0, &under, 1, it->by_default, it->name);
        refused(NULL, 0, &over, 1, WETHLORN_IN_LIMITS, 0, it->name);
        taken(&over, 1, &fine, 1, it->best, it->name);
        refused(&over, 1, &over, 1, WETHLORN_IN_LIMITS, 0, it->name);
        taken(&usual, 1, &usual, 1, it->by_default, it->name);
        refused(&under, 1, NULL, 0, WETHLORN_IN_BEST, 0, it->name);
        if (it->best != it->by_default)
            refused(&usual, 1, &fine, 1, WETHLORN_IN_LIMITS, 0, it->name);
    }
}

/* Which of several values is told, and which of several counts. */
static void try_several(void) {
    enum { SIZE = WETHLORN_MAX_BUFFER_SIZE, LAYERS = WETHLORN_MAX_TEXTURE_ARRAY_LAYERS, ALIGNMENT = WETHLORN_MIN_STORAGE_BUFFER_OFFSET_ALIGNMENT };
    static const wethlorn_limit best[] = {{LAYERS, 1024}, {SIZE, 300000000}, {LAYERS, 512}};
    static const wethlorn_limit fits[] = {{LAYERS, 1024}, {SIZE, 300000000}, {LAYERS, 700}};
    static const wethlorn_limit over[] = {{LAYERS, 700}, {SIZE, 300000001}, {LAYERS, 1025}};
    static const wethlorn_limit none[] = {{SIZE, 300000000}, {NAMES + 1, 1}, {0, 1}};
    static const wethlorn_limit odd[] = {{SIZE, 300000000}, {ALIGNMENT, 300}}, finer[] = {{ALIGNMENT, 96}}, zero[] = {{ALIGNMENT, 0}};
    static const wethlorn_limit wide[] = {{ALIGNMENT, UINT64_C(1) << 32}}, widest[] = {{ALIGNMENT, UINT64_C(1) << 31}};
    taken(best, 3, fits, 3, 1024, "the first of two values");
    refused(best, 3, over, 3, WETHLORN_IN_LIMITS, 1, "the first of two that are not supported");
    refused(NULL, 0, none, 3, WETHLORN_IN_LIMITS, 1, "a name that is none");
    refused(none, 3, over, 3, WETHLORN_IN_BEST, 1, "a name that is none of what is supported");
    refused(NULL, 0, odd, 2, WETHLORN_IN_LIMITS, 1, "an alignment that is no power of two");
    refused(finer, 1, NULL, 0, WETHLORN_IN_BEST, 0, "one of what is supported");
    refused(zero, 1, NULL, 0, WETHLORN_IN_BEST, 0, "an alignment of 0");
    refused(NULL, 0, wide, 1, WETHLORN_IN_LIMITS, 0, "an alignment of 2^32");
    taken(NULL, 0, widest, 1, WETHLORN_DEFAULT_MIN_STORAGE_BUFFER_OFFSET_ALIGNMENT, "an alignment of 2^31");
}

/* What a device tells of its limits where it is closed, where nothing was asked, and by a name that is none. */
static void try_defaults(void) {
    wethlorn_device device = WETHLORN_DEVICE_INIT;
    wethlorn_bad_limit bad = {UNTOUCHED, UNTOUCHED};
    uint64_t value = UNTOUCHED;
    check(wethlorn_get_limit(&device, 1, &value) == WETHLORN_CLOSED && value == UNTOUCHED, "a closed device", "get_limit");
    try_open(&device, NULL, 0, NULL, 0, 0, 0, "the defaults");
    for (const row *it = rows; it < rows + NAMES; it++) {
        check(it->number == (uint32_t)(it - rows) + 1, "its number", it->name);
        has(&device, it->number, it->by_default, it->name);
    }
    check(wethlorn_get_limit(&device, 0, &value) == WETHLORN_BAD_VALUE && value == UNTOUCHED, "the name 0", "get_limit");
    check(wethlorn_get_limit(&device, NAMES + 1, &value) == WETHLORN_BAD_VALUE && value == UNTOUCHED, "a name past the last", "get_limit");
    check(wethlorn_open(1, 1, NULL, 0, NULL, 0, &device, &bad) == WETHLORN_IS_OPEN && bad.list == UNTOUCHED, "an open of what is open", "open");
    close_it(&device, "the defaults");
}

int main(void) {
    try_defaults();
    try_each();
    try_several();
    return is_wrong;
}
