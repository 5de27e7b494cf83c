/* The device core of WebGPU, for callers in C (C99) and C++ (C++17).
 *
 * It answers which calls are valid and what error each makes, and it tells which barriers and clears a
 * driver has to do, and when memory may be given back. It has no driver in it. docs/embedding.md says how
 * to build and link it, and how an engine uses it; docs/rules.md what each rule number says.
 *
 * Device. A wethlorn_device is one pointer. Set it to {0} before wethlorn_open. C never writes, reads or
 * copies it otherwise. What lies behind it belongs to it, until wethlorn_close. Each call tests whether it
 * is open, and answers WETHLORN_CLOSED where it is not.
 *
 * Encoder. A wethlorn_encoder is one pointer too, {0} before the call that makes it, and what was recorded on it lies
 * behind it until wethlorn_close_encoder. Its object has a number as all have. It may go to other threads, and is used
 * by one call at a time.
 *
 * Objects. An object goes by its number, which the reply to the call that makes it gives. Numbers of a
 * device count up from 0, and none is given twice. They are no pointers: a number that was never given, or
 * that was let go by wethlorn_drop, is answered by WETHLORN_NO_OBJECT, and one that stands for another kind
 * of object by a fault, as WebGPU does. A number says nothing of its device: one that another device gave
 * is taken for this device's own object of that number, and no fault comes of it. That each number goes to
 * the device that gave it is the caller's to see to. A caller has nothing to free but the device.
 *
 * Memory. Nothing is kept of a call. Of an object that was dropped, that nothing else holds and that was
 * released, if it is a resource, nothing is kept but some 200 bytes for 4,096 such objects behind an older one
 * that stays (docs/costs.md has what was measured). An object that is not dropped is kept.
 *
 * Status. Each call returns a status. WETHLORN_OK: it was made, and `out` has the answer. Otherwise nothing
 * was made: the device is as it was before the call, and `out` is not written, but by WETHLORN_NO_ROOM, and by
 * WETHLORN_BAD_VALUE of wethlorn_open. After WETHLORN_NO_MEMORY the call may be made again.
 *
 * Faults. A call that WebGPU refuses has the status WETHLORN_OK, and its reply has the fault: an error is
 * an answer like others.
 *
 * Pointers. All are needed, and none may be null but that of a list of 0 elements, which is not looked at. What
 * `const` pointers point to stays the caller's: it is read during the call and not kept. What `out` points to
 * is the caller's too, and may not overlap anything else that the call is given.
 *
 * Threads. Any thread may call. Calls that take the device as `const` only read it: they record, and many may be made
 * at once, each on an encoder of its own, while no other call of the device is. All other calls of a device are made
 * one at a time. The caller's own lock sees to that, which is held shared by the first and alone by the others, or a
 * thread's start or join. Two devices have nothing in common. No call waits, and none may be made from a signal handler
 * or a forked child.
 *
 * One lock spans a call, the drain of what comes of it, and the doing of its items, be it that they are put
 * into the driver's own queue in that order. A lock that is let go in between orders the calls alone: another
 * thread may then drain the next items and do them first, and the barriers hold of the order in which they
 * are told. What waits in the drains is the device's and not the call's: whoever drains does what others left.
 *
 * Values. An enumerated value that is left out is 0, and that is allowed where a comment says so; it then is what
 * WebGPU has by default, if it has that. A flag is 0 or 1. A number or an object that may be left out, or that is null,
 * is WETHLORN_NONE. Whatever else is out of range, also a number above 2^32 - 1 where one of 32 bits is asked for, has
 * the status WETHLORN_BAD_VALUE. What no rule looks at is not given, as the data of a write, a label, a blend constant,
 * how a sampler addresses what lies outside of a texture, the front face and the mask of samples of a pipeline, the
 * mask by which it reads the stencil, a stencil reference, the base vertex of an indexed draw, or the color and the
 * stencil to which an attachment is cleared.
 *
 * Fixed numbers. There are no floats. A number that is fixed stands for itself over WETHLORN_FIXED_ONE: that is 1. A
 * float of a page is given by the nearest such number, of two the even one.
 *
 * Descriptors. Begin each with its WETHLORN_.._INIT and set what is asked for: the objects and sizes that are
 * left out are then WETHLORN_NONE, and all else is as WebGPU has it by default. A descriptor that is set to
 * {0} names the object 0 wherever it may name one.
 */
#ifndef WETHLORN_H
#define WETHLORN_H
/* The version, which is that of the file VERSION; CHANGELOG.md says what each has. */
#define WETHLORN_VERSION "0.4.0"
#define WETHLORN_VERSION_MAJOR 0
#define WETHLORN_VERSION_MINOR 4
#define WETHLORN_VERSION_PATCH 0
/* What wethlorn_version of the library of this version gives: 10,000 times MAJOR, 100 times MINOR, and PATCH. */
#define WETHLORN_VERSION_NUMBER \
    (WETHLORN_VERSION_MAJOR * 10000 + WETHLORN_VERSION_MINOR * 100 + WETHLORN_VERSION_PATCH)
#include <stddef.h>
#include <stdint.h>
#ifdef __cplusplus
extern "C" {
#endif

/* An enumerated type that has 32 bits in C++ too, whatever its value. */
#ifdef __cplusplus
#define WETHLORN_ENUM(name) enum name : uint32_t
#else
#define WETHLORN_ENUM(name) enum name
#endif

/* A device: null before wethlorn_open and after wethlorn_close. */
typedef struct wethlorn_device {
    void *inside;
} wethlorn_device;

/* An encoder: null before it is made and after wethlorn_close_encoder. */
typedef struct wethlorn_encoder {
    void *inside;
} wethlorn_encoder;

/* What is left out: a number, a size (which is then what remains) or an object. */
#define WETHLORN_NONE UINT64_MAX
/* What 1 is in fixed numbers. */
#define WETHLORN_FIXED_ONE UINT64_C(65536)
/* The greatest level of detail of a sampler that leaves it out: 32, as a fixed number. */
#define WETHLORN_LOD_MAX UINT64_C(2097152)
/* As the mask by which a pipeline writes the stencil: all bits. */
#define WETHLORN_ALL_BITS UINT32_MAX
/* As the pass on which a command stands: none, the command stands on the encoder or bundle encoder itself. */
#define WETHLORN_ON_ENCODER UINT32_MAX

/* What calls return. */
enum {
    WETHLORN_OK = 0,
    WETHLORN_NO_MEMORY = 1, /* no memory on the host: nothing has changed, and the call may be made again */
    WETHLORN_NO_OBJECT = 2, /* a number that was never given, or was let go by a drop: nothing was sent */
    WETHLORN_CLOSED = 3,    /* the device, or the encoder, is not open */
    WETHLORN_BAD_VALUE = 4, /* a value out of its range: nothing was sent */
    WETHLORN_NO_PASS = 5,   /* no pass with this number was begun on the encoder */
    WETHLORN_END = 6,       /* of a drain: all was told */
    WETHLORN_IS_OPEN = 7,   /* of a call that opens a device or an encoder: that is open already */
    WETHLORN_NO_ROOM = 8,   /* of wethlorn_next_items: no room for the next item; `out` has what it takes */
    WETHLORN_LATE = 9       /* of a command: it came after the end of the encoder or of the pass, and was not kept */
};

/* What a reply says. */
enum {
    WETHLORN_MADE = 1,           /* the object `number` was made, `valid` or not */
    WETHLORN_QUEUED = 2,         /* the operation `number` was queued; they count from 1 */
    WETHLORN_PROMISED = 3,       /* the promise `number` was made */
    WETHLORN_PLAIN = 4,          /* none of these */
    WETHLORN_BAD_COMPLETION = 5  /* of operations that are complete already, or were never queued */
};

/* Kinds of faults; also of what an error scope received. What a rule asks is told in words by wethlorn_rules.h. */
enum { WETHLORN_NO_FAULT = 0, WETHLORN_VALIDATION = 1, WETHLORN_OUT_OF_MEMORY = 2 };

/* Which faults an error scope catches. No fault is internal. */
enum { WETHLORN_FILTER_VALIDATION = 1, WETHLORN_FILTER_OUT_OF_MEMORY = 2, WETHLORN_FILTER_INTERNAL = 3 };

/* How a promise was settled. */
enum {
    WETHLORN_MAPPED = 1,
    WETHLORN_DONE = 2,
    WETHLORN_ABORTED = 3,
    WETHLORN_REJECTED = 4,
    WETHLORN_NULL = 5, /* of an error scope that received nothing */
    WETHLORN_ERROR = 6 /* of an error scope, with the fault and the rule that it received first */
};

/* What an item of the trace is. */
enum { WETHLORN_BARRIER = 1, WETHLORN_STEP = 2, WETHLORN_RELEASE = 3 };

/* What a step is. */
enum {
    WETHLORN_STEP_CLEAR = 1, /* sets fresh memory to zero */
    WETHLORN_STEP_WRITE_BUFFER = 2,
    WETHLORN_STEP_WRITE_TEXTURE = 3,
    WETHLORN_STEP_COPY_BUFFER_TO_BUFFER = 4,
    WETHLORN_STEP_COPY_BUFFER_TO_TEXTURE = 5,
    WETHLORN_STEP_COPY_TEXTURE_TO_BUFFER = 6,
    WETHLORN_STEP_COPY_TEXTURE_TO_TEXTURE = 7,
    WETHLORN_STEP_CLEAR_BUFFER = 8,
    WETHLORN_STEP_RESOLVE_QUERY_SET = 9,
    WETHLORN_STEP_DISPATCH = 10,
    WETHLORN_STEP_RENDER_PASS = 11,
    WETHLORN_STEP_HOST_READ = 12,
    WETHLORN_STEP_HOST_WRITE = 13
};

/* What a range is of. */
enum {
    WETHLORN_OF_BUFFER = 1,    /* a part: the whole buffer. Cells: its bytes from `lo` to below `hi` */
    WETHLORN_OF_QUERY_SET = 2, /* a part: the whole query set. Cells: its queries from `lo` to below `hi` */
    WETHLORN_OF_TEXTURE = 3,   /* the layers from `lo` to below `hi` of one aspect and mip level */
    WETHLORN_OF_SLICES = 4     /* cells of a 3D texture: the slices from `lo` to below `hi` of a mip level, with the aspect
                                * WETHLORN_COLOR */
};
enum { WETHLORN_COLOR = 1, WETHLORN_DEPTH = 2, WETHLORN_STENCIL = 3 };

/* How a step accesses cells. */
enum {
    WETHLORN_READ = 1,
    WETHLORN_WRITE = 2,
    WETHLORN_READ_WRITE = 3, /* reads and then writes */
    WETHLORN_DISCARD = 4,    /* leaves them unset, and reads nothing */
    WETHLORN_READ_DISCARD = 5 /* reads and then leaves them unset */
};

/* Usages of parts of memory, of which a barrier and a use have sets: a bit each. */
enum {
    WETHLORN_USAGE_INPUT = 1,
    WETHLORN_USAGE_CONSTANT = 2,
    WETHLORN_USAGE_STORAGE = 4,
    WETHLORN_USAGE_STORAGE_READ = 8,
    WETHLORN_USAGE_ATTACHMENT = 16,
    WETHLORN_USAGE_ATTACHMENT_READ = 32,
    WETHLORN_USAGE_COPY_SRC = 64,
    WETHLORN_USAGE_COPY_DST = 128,
    WETHLORN_USAGE_QUERY_WRITE = 256,
    WETHLORN_USAGE_QUERY_READ = 512,
    WETHLORN_USAGE_HOST_READ = 1024,
    WETHLORN_USAGE_HOST_WRITE = 2048,
    WETHLORN_USAGE_CLEAR = 4096
};

/* Limits that one can ask for, and that wethlorn_get_limit tells. */
enum {
    WETHLORN_MAX_TEXTURE_DIMENSION_1D = 1,
    WETHLORN_MAX_TEXTURE_DIMENSION_2D = 2,
    WETHLORN_MAX_TEXTURE_DIMENSION_3D = 3,
    WETHLORN_MAX_TEXTURE_ARRAY_LAYERS = 4,
    WETHLORN_MAX_BIND_GROUPS = 5,
    WETHLORN_MAX_BINDINGS_PER_BIND_GROUP = 6,
    WETHLORN_MAX_DYNAMIC_UNIFORM_BUFFERS_PER_PIPELINE_LAYOUT = 7,
    WETHLORN_MAX_DYNAMIC_STORAGE_BUFFERS_PER_PIPELINE_LAYOUT = 8,
    WETHLORN_MAX_SAMPLED_TEXTURES_PER_SHADER_STAGE = 9,
    WETHLORN_MAX_SAMPLERS_PER_SHADER_STAGE = 10,
    WETHLORN_MAX_STORAGE_BUFFERS_PER_SHADER_STAGE = 11,
    WETHLORN_MAX_STORAGE_TEXTURES_PER_SHADER_STAGE = 12,
    WETHLORN_MAX_UNIFORM_BUFFERS_PER_SHADER_STAGE = 13,
    WETHLORN_MAX_UNIFORM_BUFFER_BINDING_SIZE = 14,
    WETHLORN_MAX_STORAGE_BUFFER_BINDING_SIZE = 15,
    WETHLORN_MIN_UNIFORM_BUFFER_OFFSET_ALIGNMENT = 16,
    WETHLORN_MIN_STORAGE_BUFFER_OFFSET_ALIGNMENT = 17,
    WETHLORN_MAX_VERTEX_BUFFERS = 18,
    WETHLORN_MAX_VERTEX_ATTRIBUTES = 19,
    WETHLORN_MAX_VERTEX_BUFFER_ARRAY_STRIDE = 20,
    WETHLORN_MAX_BUFFER_SIZE = 21,
    WETHLORN_MAX_COLOR_ATTACHMENTS = 22,
    WETHLORN_MAX_COMPUTE_WORKGROUPS_PER_DIMENSION = 23,
    WETHLORN_MAX_COLOR_ATTACHMENT_BYTES_PER_SAMPLE = 24 /* a device is held to it where it was asked for, be it by the
                                                         * default, and else not: then the default is told of it */
};

/* The limits of a device of which nothing is asked, and which each adapter supports. Of a MAX the greater value is
 * the better one, of a MIN the smaller. */
#define WETHLORN_DEFAULT_MAX_TEXTURE_DIMENSION_1D UINT64_C(8192)
#define WETHLORN_DEFAULT_MAX_TEXTURE_DIMENSION_2D UINT64_C(8192)
#define WETHLORN_DEFAULT_MAX_TEXTURE_DIMENSION_3D UINT64_C(2048)
#define WETHLORN_DEFAULT_MAX_TEXTURE_ARRAY_LAYERS UINT64_C(256)
#define WETHLORN_DEFAULT_MAX_BIND_GROUPS UINT64_C(4)
#define WETHLORN_DEFAULT_MAX_BINDINGS_PER_BIND_GROUP UINT64_C(1000)
#define WETHLORN_DEFAULT_MAX_DYNAMIC_UNIFORM_BUFFERS_PER_PIPELINE_LAYOUT UINT64_C(8)
#define WETHLORN_DEFAULT_MAX_DYNAMIC_STORAGE_BUFFERS_PER_PIPELINE_LAYOUT UINT64_C(4)
#define WETHLORN_DEFAULT_MAX_SAMPLED_TEXTURES_PER_SHADER_STAGE UINT64_C(16)
#define WETHLORN_DEFAULT_MAX_SAMPLERS_PER_SHADER_STAGE UINT64_C(16)
#define WETHLORN_DEFAULT_MAX_STORAGE_BUFFERS_PER_SHADER_STAGE UINT64_C(8)
#define WETHLORN_DEFAULT_MAX_STORAGE_TEXTURES_PER_SHADER_STAGE UINT64_C(4)
#define WETHLORN_DEFAULT_MAX_UNIFORM_BUFFERS_PER_SHADER_STAGE UINT64_C(12)
#define WETHLORN_DEFAULT_MAX_UNIFORM_BUFFER_BINDING_SIZE UINT64_C(65536)
#define WETHLORN_DEFAULT_MAX_STORAGE_BUFFER_BINDING_SIZE UINT64_C(134217728)
#define WETHLORN_DEFAULT_MIN_UNIFORM_BUFFER_OFFSET_ALIGNMENT UINT64_C(256)
#define WETHLORN_DEFAULT_MIN_STORAGE_BUFFER_OFFSET_ALIGNMENT UINT64_C(256)
#define WETHLORN_DEFAULT_MAX_VERTEX_BUFFERS UINT64_C(8)
#define WETHLORN_DEFAULT_MAX_VERTEX_ATTRIBUTES UINT64_C(16)
#define WETHLORN_DEFAULT_MAX_VERTEX_BUFFER_ARRAY_STRIDE UINT64_C(2048)
#define WETHLORN_DEFAULT_MAX_BUFFER_SIZE UINT64_C(268435456)
#define WETHLORN_DEFAULT_MAX_COLOR_ATTACHMENTS UINT64_C(8)
#define WETHLORN_DEFAULT_MAX_COMPUTE_WORKGROUPS_PER_DIMENSION UINT64_C(65535)
#define WETHLORN_DEFAULT_MAX_COLOR_ATTACHMENT_BYTES_PER_SAMPLE UINT64_C(32)
/* The best limits that this library knows, whatever an adapter supports. */
#define WETHLORN_BEST_MAX_TEXTURE_DIMENSION_1D UINT64_C(16384)
#define WETHLORN_BEST_MAX_TEXTURE_DIMENSION_2D UINT64_C(16384)
#define WETHLORN_BEST_MAX_TEXTURE_DIMENSION_3D UINT64_C(4096)
#define WETHLORN_BEST_MAX_TEXTURE_ARRAY_LAYERS UINT64_C(2048)
#define WETHLORN_BEST_MAX_BIND_GROUPS UINT64_C(4)
#define WETHLORN_BEST_MAX_BINDINGS_PER_BIND_GROUP UINT64_C(4000)
#define WETHLORN_BEST_MAX_DYNAMIC_UNIFORM_BUFFERS_PER_PIPELINE_LAYOUT UINT64_C(16)
#define WETHLORN_BEST_MAX_DYNAMIC_STORAGE_BUFFERS_PER_PIPELINE_LAYOUT UINT64_C(8)
#define WETHLORN_BEST_MAX_SAMPLED_TEXTURES_PER_SHADER_STAGE UINT64_C(64)
#define WETHLORN_BEST_MAX_SAMPLERS_PER_SHADER_STAGE UINT64_C(32)
#define WETHLORN_BEST_MAX_STORAGE_BUFFERS_PER_SHADER_STAGE UINT64_C(32)
#define WETHLORN_BEST_MAX_STORAGE_TEXTURES_PER_SHADER_STAGE UINT64_C(16)
#define WETHLORN_BEST_MAX_UNIFORM_BUFFERS_PER_SHADER_STAGE UINT64_C(24)
#define WETHLORN_BEST_MAX_UNIFORM_BUFFER_BINDING_SIZE UINT64_C(1048576)
#define WETHLORN_BEST_MAX_STORAGE_BUFFER_BINDING_SIZE UINT64_C(4294967296)
#define WETHLORN_BEST_MIN_UNIFORM_BUFFER_OFFSET_ALIGNMENT UINT64_C(256)
#define WETHLORN_BEST_MIN_STORAGE_BUFFER_OFFSET_ALIGNMENT UINT64_C(256)
#define WETHLORN_BEST_MAX_VERTEX_BUFFERS UINT64_C(8)
#define WETHLORN_BEST_MAX_VERTEX_ATTRIBUTES UINT64_C(32)
#define WETHLORN_BEST_MAX_VERTEX_BUFFER_ARRAY_STRIDE UINT64_C(8192)
#define WETHLORN_BEST_MAX_BUFFER_SIZE UINT64_C(4294967296)
#define WETHLORN_BEST_MAX_COLOR_ATTACHMENTS UINT64_C(8)
#define WETHLORN_BEST_MAX_COMPUTE_WORKGROUPS_PER_DIMENSION UINT64_C(65535)
#define WETHLORN_BEST_MAX_COLOR_ATTACHMENT_BYTES_PER_SAMPLE UINT64_C(128)

/* Formats of textures. 0 where a format may be left out. */
enum {
    WETHLORN_R8_UNORM = 1,
    WETHLORN_RG8_UNORM = 2,
    WETHLORN_RGBA8_UNORM = 3,
    WETHLORN_RGBA8_UNORM_SRGB = 4,
    WETHLORN_BGRA8_UNORM = 5,
    WETHLORN_R32_UINT = 6,
    WETHLORN_R32_FLOAT = 7,
    WETHLORN_RGBA16_FLOAT = 8,
    WETHLORN_RGBA32_FLOAT = 9,
    WETHLORN_DEPTH16_UNORM = 10,
    WETHLORN_DEPTH24_PLUS = 11,
    WETHLORN_DEPTH24_PLUS_STENCIL8 = 12,
    WETHLORN_DEPTH32_FLOAT = 13,
    WETHLORN_STENCIL8 = 14
};

/* Dimensions of textures, and of views, of which 0 is that of the texture. */
enum { WETHLORN_1D = 1, WETHLORN_2D = 2, WETHLORN_3D = 3 };
enum {
    WETHLORN_VIEW_1D = 1,
    WETHLORN_VIEW_2D = 2,
    WETHLORN_VIEW_2D_ARRAY = 3,
    WETHLORN_VIEW_CUBE = 4,
    WETHLORN_VIEW_CUBE_ARRAY = 5,
    WETHLORN_VIEW_3D = 6
};

/* Aspects that a view or a copy takes. */
enum { WETHLORN_ASPECT_ALL = 1, WETHLORN_ASPECT_DEPTH_ONLY = 2, WETHLORN_ASPECT_STENCIL_ONLY = 3 };

/* Kinds of samplers, and what a binding asks of one. */
enum { WETHLORN_FILTERING = 1, WETHLORN_NON_FILTERING = 2, WETHLORN_COMPARISON = 3 };

/* How texels or mip levels that lie beside one another are sampled. */
enum { WETHLORN_NEAREST = 1, WETHLORN_LINEAR = 2 };

/* How a value is compared with another. */
enum {
    WETHLORN_COMPARE_NEVER = 1,
    WETHLORN_COMPARE_LESS = 2,
    WETHLORN_COMPARE_EQUAL = 3,
    WETHLORN_COMPARE_LESS_EQUAL = 4,
    WETHLORN_COMPARE_GREATER = 5,
    WETHLORN_COMPARE_NOT_EQUAL = 6,
    WETHLORN_COMPARE_GREATER_EQUAL = 7,
    WETHLORN_COMPARE_ALWAYS = 8
};

/* What a binding holds. */
enum {
    WETHLORN_BIND_UNIFORM = 1,           /* a buffer, with `dynamic` and `min_size` */
    WETHLORN_BIND_STORAGE = 2,           /* the same */
    WETHLORN_BIND_READ_ONLY_STORAGE = 3, /* the same */
    WETHLORN_BIND_SAMPLER = 4,           /* with `sampler` */
    WETHLORN_BIND_TEXTURE = 5,           /* with `sample`, `dim` and `multi` */
    WETHLORN_BIND_STORAGE_TEXTURE = 6    /* with `access`, `format` and `dim` */
};
enum {
    WETHLORN_SAMPLE_FLOAT = 1,
    WETHLORN_SAMPLE_UNFILTERABLE_FLOAT = 2,
    WETHLORN_SAMPLE_DEPTH = 3,
    WETHLORN_SAMPLE_SINT = 4,
    WETHLORN_SAMPLE_UINT = 5
};
enum { WETHLORN_ACCESS_READ_ONLY = 1, WETHLORN_ACCESS_WRITE_ONLY = 2, WETHLORN_ACCESS_READ_WRITE = 3 };

/* ---- Flags, and what may be taken for them. These have types of their own, so that none stands for another
 * by mistake: in C a compiler warns where one does (-Wenum-conversion), and in C++ it refuses. Flags are
 * joined by |. A number that comes from elsewhere becomes one of them in C as it is, and in C++ by a cast.
 * Each has the 32 bits of a uint32_t, and is passed as one. ---- */

/* Usages of a buffer: flags. */
typedef WETHLORN_ENUM(wethlorn_buffer_usage) {
    WETHLORN_BUFFER_USAGE_NONE = 0,
    WETHLORN_BUFFER_USAGE_MAP_READ = 1,
    WETHLORN_BUFFER_USAGE_MAP_WRITE = 2,
    WETHLORN_BUFFER_USAGE_COPY_SRC = 4,
    WETHLORN_BUFFER_USAGE_COPY_DST = 8,
    WETHLORN_BUFFER_USAGE_INDEX = 16,
    WETHLORN_BUFFER_USAGE_VERTEX = 32,
    WETHLORN_BUFFER_USAGE_UNIFORM = 64,
    WETHLORN_BUFFER_USAGE_STORAGE = 128,
    WETHLORN_BUFFER_USAGE_INDIRECT = 256,
    WETHLORN_BUFFER_USAGE_QUERY_RESOLVE = 512
} wethlorn_buffer_usage;

/* Usages of a texture: flags. */
typedef WETHLORN_ENUM(wethlorn_texture_usage) {
    WETHLORN_TEXTURE_USAGE_NONE = 0,
    WETHLORN_TEXTURE_USAGE_COPY_SRC = 1,
    WETHLORN_TEXTURE_USAGE_COPY_DST = 2,
    WETHLORN_TEXTURE_USAGE_TEXTURE_BINDING = 4,
    WETHLORN_TEXTURE_USAGE_STORAGE_BINDING = 8,
    WETHLORN_TEXTURE_USAGE_RENDER_ATTACHMENT = 16
} wethlorn_texture_usage;

/* To which stages a binding is visible: flags. */
typedef WETHLORN_ENUM(wethlorn_visibility) {
    WETHLORN_VISIBILITY_NONE = 0,
    WETHLORN_VISIBILITY_VERTEX = 1,
    WETHLORN_VISIBILITY_FRAGMENT = 2,
    WETHLORN_VISIBILITY_COMPUTE = 4
} wethlorn_visibility;

/* The stage of a shader: one, and no flags. NONE has the status WETHLORN_BAD_VALUE. */
typedef WETHLORN_ENUM(wethlorn_stage) {
    WETHLORN_STAGE_NONE = 0,
    WETHLORN_STAGE_VERTEX = 1,
    WETHLORN_STAGE_FRAGMENT = 2,
    WETHLORN_STAGE_COMPUTE = 3
} wethlorn_stage;

/* For what a buffer is mapped: flags, of which a mapAsync takes one. */
typedef WETHLORN_ENUM(wethlorn_map_mode) {
    WETHLORN_MAP_MODE_NONE = 0,
    WETHLORN_MAP_MODE_READ = 1,
    WETHLORN_MAP_MODE_WRITE = 2
} wethlorn_map_mode;

/* Which channels of a color target a pipeline writes: flags. */
typedef WETHLORN_ENUM(wethlorn_color_write) {
    WETHLORN_COLOR_WRITE_NONE = 0,
    WETHLORN_COLOR_WRITE_RED = 1,
    WETHLORN_COLOR_WRITE_GREEN = 2,
    WETHLORN_COLOR_WRITE_BLUE = 4,
    WETHLORN_COLOR_WRITE_ALPHA = 8,
    WETHLORN_COLOR_WRITE_ALL = 15
} wethlorn_color_write;

/* Whether they have 32 bits each, which a compiler may be told to change. */
typedef char wethlorn_types_have_32_bits[sizeof(wethlorn_buffer_usage) == 4 &&
    sizeof(wethlorn_texture_usage) == 4 && sizeof(wethlorn_visibility) == 4 && sizeof(wethlorn_stage) == 4 &&
    sizeof(wethlorn_map_mode) == 4 && sizeof(wethlorn_color_write) == 4 ? 1 : -1];

/* What an entry of a bind group binds. */
enum { WETHLORN_BOUND_BUFFER = 1, WETHLORN_BOUND_VIEW = 2, WETHLORN_BOUND_SAMPLER = 3 };

enum { WETHLORN_STEP_PER_VERTEX = 1, WETHLORN_STEP_PER_INSTANCE = 2 };
enum {
    WETHLORN_VERTEX_UINT8X2 = 1,
    WETHLORN_VERTEX_UINT8X4 = 2,
    WETHLORN_VERTEX_UNORM8X4 = 3,
    WETHLORN_VERTEX_UINT16X2 = 4,
    WETHLORN_VERTEX_FLOAT16X2 = 5,
    WETHLORN_VERTEX_FLOAT32 = 6,
    WETHLORN_VERTEX_UINT32 = 7,
    WETHLORN_VERTEX_SINT32 = 8,
    WETHLORN_VERTEX_FLOAT16X4 = 9,
    WETHLORN_VERTEX_FLOAT32X2 = 10,
    WETHLORN_VERTEX_FLOAT32X3 = 11,
    WETHLORN_VERTEX_FLOAT32X4 = 12
};
enum { WETHLORN_INDEX_UINT16 = 1, WETHLORN_INDEX_UINT32 = 2 };

/* What vertices make. */
enum {
    WETHLORN_POINT_LIST = 1,
    WETHLORN_LINE_LIST = 2,
    WETHLORN_LINE_STRIP = 3,
    WETHLORN_TRIANGLE_LIST = 4,
    WETHLORN_TRIANGLE_STRIP = 5
};

/* Which faces are not drawn. */
enum { WETHLORN_CULL_NONE = 1, WETHLORN_CULL_FRONT = 2, WETHLORN_CULL_BACK = 3 };

/* How two values are blended, and by what each is multiplied before. */
enum {
    WETHLORN_BLEND_ADD = 1,
    WETHLORN_BLEND_SUBTRACT = 2,
    WETHLORN_BLEND_REVERSE_SUBTRACT = 3,
    WETHLORN_BLEND_MIN = 4,
    WETHLORN_BLEND_MAX = 5
};
enum {
    WETHLORN_FACTOR_ZERO = 1,
    WETHLORN_FACTOR_ONE = 2,
    WETHLORN_FACTOR_SRC = 3,
    WETHLORN_FACTOR_ONE_MINUS_SRC = 4,
    WETHLORN_FACTOR_SRC_ALPHA = 5,
    WETHLORN_FACTOR_ONE_MINUS_SRC_ALPHA = 6,
    WETHLORN_FACTOR_DST = 7,
    WETHLORN_FACTOR_ONE_MINUS_DST = 8,
    WETHLORN_FACTOR_DST_ALPHA = 9,
    WETHLORN_FACTOR_ONE_MINUS_DST_ALPHA = 10,
    WETHLORN_FACTOR_SRC_ALPHA_SATURATED = 11,
    WETHLORN_FACTOR_CONSTANT = 12,
    WETHLORN_FACTOR_ONE_MINUS_CONSTANT = 13
};

/* What becomes of a value of the stencil. */
enum {
    WETHLORN_STENCIL_KEEP = 1,
    WETHLORN_STENCIL_ZERO = 2,
    WETHLORN_STENCIL_REPLACE = 3,
    WETHLORN_STENCIL_INVERT = 4,
    WETHLORN_STENCIL_INCREMENT_CLAMP = 5,
    WETHLORN_STENCIL_DECREMENT_CLAMP = 6,
    WETHLORN_STENCIL_INCREMENT_WRAP = 7,
    WETHLORN_STENCIL_DECREMENT_WRAP = 8
};

/* As the `depth_write` of a pipeline, besides 0 and 1: whether it writes depth is left out. */
enum { WETHLORN_DEPTH_WRITE_LEFT_OUT = 2 };
enum { WETHLORN_LOAD = 1, WETHLORN_CLEAR = 2 };
enum { WETHLORN_STORE = 1, WETHLORN_STORE_DISCARD = 2 };

/* The reply to a call. What its answer does not need is 0. */
typedef struct wethlorn_reply {
    uint64_t entry;  /* the number of the call's entry in the history, from 0 */
    uint64_t number; /* of the object, the operation or the promise; a promise goes by its entry */
    uint64_t scope;  /* which error scope caught the fault, 0 being the outermost, where `caught` is 1 */
    uint64_t settles; /* how many promises it settles, which wethlorn_next_settlement tells */
    uint32_t answer;
    uint32_t valid;  /* of a MADE: 1 where the object is valid */
    uint32_t fault;  /* the kind of the fault, or WETHLORN_NO_FAULT */
    uint32_t rule;   /* the number of the first rule that was broken (wethlorn_rules.h, docs/rules.md) */
    uint32_t caught; /* 1: an error scope caught the fault; 0: none did, and it is an uncaptured error */
} wethlorn_reply;

/* A promise that was settled. */
typedef struct wethlorn_settlement {
    uint64_t promise;
    uint32_t how, fault, rule;
} wethlorn_settlement;

/* Parts or cells of memory. What its sort does not need is 0. */
typedef struct wethlorn_range {
    uint64_t object, lo, hi;
    uint32_t sort, aspect, mip;
} wethlorn_range;

/* An item of the trace. What it does not need is 0.
 * A BARRIER: of `part`, from the set of usages `from`, or from none where `fresh` is 1, to `to`.
 * A STEP: `name`; in the operation `place`, or where `host` is 1 on the host at the entry `place`; with so
 * many uses and accesses, which wethlorn_item_use and wethlorn_item_access tell.
 * A RELEASE: of the object and the sort of `part`. */
typedef struct wethlorn_item {
    uint32_t what, name;
    wethlorn_range part;
    uint32_t from, to, fresh, host;
    uint64_t place, uses, accesses;
} wethlorn_item;

/* How a step uses a part: the set of its usages. */
typedef struct wethlorn_use {
    wethlorn_range part;
    uint32_t usages;
} wethlorn_use;

/* How a step accesses cells. */
typedef struct wethlorn_access {
    wethlorn_range cells;
    uint32_t kind;
} wethlorn_access;

/* What was not told of a device that was closed. */
typedef struct wethlorn_left {
    uint64_t items, settlements; /* of each how many, at most 2^64 - 1 */
} wethlorn_left;

/* Bytes of a buffer, from the first up to but not including the second. */
typedef struct wethlorn_bytes {
    uint64_t from, to;
} wethlorn_bytes;

/* How many items, with how many uses and accesses. */
typedef struct wethlorn_counts {
    uint64_t items, uses, accesses;
} wethlorn_counts;

typedef struct wethlorn_limit {
    uint32_t name;
    uint64_t value;
} wethlorn_limit;

/* In which list of wethlorn_open a limit stands. */
enum {
    WETHLORN_IN_BEST = 1,  /* what the adapter supports */
    WETHLORN_IN_LIMITS = 2 /* what is asked */
};

/* The first limit with which a device cannot be opened: its list, and its place there, from 0. */
typedef struct wethlorn_bad_limit {
    uint32_t list;
    uint64_t place;
} wethlorn_bad_limit;

typedef struct wethlorn_extent {
    uint32_t width, height, depth; /* depth, or array layers */
} wethlorn_extent;

typedef struct wethlorn_origin {
    uint32_t x, y, z; /* z: the slice, or the array layer */
} wethlorn_origin;

typedef struct wethlorn_buffer_desc {
    uint64_t size;
    wethlorn_buffer_usage usage;
    uint32_t mapped;
} wethlorn_buffer_desc;

typedef struct wethlorn_texture_desc {
    wethlorn_extent size;
    wethlorn_texture_usage usage;
    uint32_t format, dim, mips, samples;
} wethlorn_texture_desc;

/* mips and layers may be WETHLORN_NONE, and dim 0. */
typedef struct wethlorn_view_desc {
    uint64_t mips, layers;
    uint32_t dim, aspect, base_mip, base_layer;
} wethlorn_view_desc;

/* A sampler. The filters and `compare` may be 0: nearest, and a sampler that does not compare. The levels of detail are
 * fixed numbers; where a page gives one below 0 a `lod_min` above `lod_max` is given, which has a fault as that has. A
 * sampler compares where `compare` is given, else filters where a filter is linear, and else does not. max_anisotropy is
 * given as a page has it: 0, as in a sampler that is {0}, has a fault. */
typedef struct wethlorn_sampler_desc {
    uint64_t lod_min, lod_max;
    uint32_t mag_filter, min_filter, mipmap_filter, compare, max_anisotropy;
} wethlorn_sampler_desc;

/* What a binding holds. Of the fields only those of its kind are looked at. */
typedef struct wethlorn_binding {
    uint64_t min_size;
    uint32_t kind, dynamic, sampler, sample, dim, multi, access, format;
} wethlorn_binding;

typedef struct wethlorn_layout_entry {
    uint32_t binding;
    wethlorn_visibility visibility;
    wethlorn_binding holds;
} wethlorn_layout_entry;

/* What a shader of a stage uses of a group. */
typedef struct wethlorn_iface_entry {
    uint32_t group, binding;
    wethlorn_stage stage;
    wethlorn_binding holds;
} wethlorn_iface_entry;

/* Of a buffer offset and size count, and size may be WETHLORN_NONE. */
typedef struct wethlorn_group_entry {
    uint64_t object, offset, size;
    uint32_t binding, bound;
} wethlorn_group_entry;

/* A vertex buffer that a pipeline reads. step may be 0: the slot is left out (null), has no attributes, and nothing else
 * is looked at. */
typedef struct wethlorn_vertex_buffer {
    uint32_t stride, step;
} wethlorn_vertex_buffer;

/* An attribute of the vertex buffer with the index `buffer` in its list. Those of one buffer stand in order. */
typedef struct wethlorn_vertex_attribute {
    uint32_t buffer, format, offset, location;
} wethlorn_vertex_attribute;

/* How the colors of a target are blended, or its alphas. Each may be 0: add, one, and zero. */
typedef struct wethlorn_blend {
    uint32_t operation, src_factor, dst_factor;
} wethlorn_blend;

/* A color target of a pipeline. format may be 0: the slot is left out (null), and nothing else is looked at. blends is a
 * flag: where it is 1 the target has a blend, of `color` and `alpha`, which else are not looked at. write_mask is given
 * as a page has it: with 0 nothing is written, and a bit that is none has a fault. */
typedef struct wethlorn_target {
    uint32_t format;
    wethlorn_color_write write_mask;
    uint32_t blends;
    wethlorn_blend color, alpha;
} wethlorn_target;

/* What a pipeline does with the stencil where it draws a front, or a back. Each may be 0: always, and keep. */
typedef struct wethlorn_stencil_face {
    uint32_t compare, fail_op, depth_fail_op, pass_op;
} wethlorn_stencil_face;

/* A render pipeline. layout may be WETHLORN_NONE: it derives its layout itself.
 *
 * Depth and stencil. depth_format may be 0: there is none of both, and nothing else of them is looked at. depth_write is
 * a flag, or WETHLORN_DEPTH_WRITE_LEFT_OUT, and depth_compare may be 0, which leaves it out: where the format has depth
 * WebGPU asks for both. biased is a flag: whether depthBias, depthBiasSlopeScale or depthBiasClamp is not 0.
 * stencil_front, stencil_back and stencil_write_mask tell whether stencil is written, with the mask 0 that it is not.
 * Where the flag stencil_write is 1 that alone tells that it is, and these are not looked at.
 *
 * What vertices make. topology, strip_index_format and cull_mode may be 0: a list of triangles, no format, and nothing
 * is culled. alpha_to_coverage is a flag. */
typedef struct wethlorn_render_desc {
    uint64_t layout;
    uint32_t samples, depth_format, depth_write, stencil_write, depth_compare, biased, stencil_write_mask;
    wethlorn_stencil_face stencil_front, stencil_back;
    uint32_t topology, strip_index_format, cull_mode, alpha_to_coverage;
} wethlorn_render_desc;

/* To what a bundle draws, beside its colors. depth_format may be 0. */
typedef struct wethlorn_bundle_desc {
    uint32_t samples, depth_format, depth_read_only, stencil_read_only;
} wethlorn_bundle_desc;

/* A color attachment. view may be WETHLORN_NONE: the slot is left out, and nothing else is looked at.
 * depth_slice and resolve may be WETHLORN_NONE. */
typedef struct wethlorn_color {
    uint64_t view, depth_slice, resolve;
    uint32_t load, store;
} wethlorn_color;

/* The depth and stencil attachment. view may be WETHLORN_NONE: there is none, and nothing else is looked at.
 * The load and store operations may be 0. depth_clear, to which depth is cleared, is a fixed number, and any one above
 * WETHLORN_FIXED_ONE where a page gives one below 0; it may be WETHLORN_NONE, with which depth cannot be cleared. */
typedef struct wethlorn_depth {
    uint64_t view;
    uint32_t depth_load, depth_store, depth_read_only, stencil_load, stencil_store, stencil_read_only;
    uint64_t depth_clear;
} wethlorn_depth;

/* A viewport, of fixed numbers: WETHLORN_FIXED_ONE is one texel, or the depth 1. It begins `x` to the right of the left
 * edge of what is attached, or where `left` is 1 to the left of it, and so `y` downwards, or where `above` is 1
 * upwards. What has more than 64 bits, and a width, a height or a depth below 0, is given by UINT64_MAX, which is out
 * of range as they are. */
typedef struct wethlorn_viewport {
    uint64_t x, y, width, height, min_depth, max_depth;
    uint32_t left, above;
} wethlorn_viewport;

/* How texels lie in bytes. bytes_per_row and rows_per_image may be WETHLORN_NONE. */
typedef struct wethlorn_texel_layout {
    uint64_t offset, bytes_per_row, rows_per_image;
} wethlorn_texel_layout;

/* Where in a texture a copy begins. */
typedef struct wethlorn_spot {
    uint64_t texture;
    wethlorn_origin origin;
    uint32_t mip, aspect;
} wethlorn_spot;

typedef struct wethlorn_buffer_copy {
    uint64_t source, source_offset, target, target_offset, size;
} wethlorn_buffer_copy;

/* A copy between a buffer and a texture, in either direction. */
typedef struct wethlorn_texel_copy {
    uint64_t buffer;
    wethlorn_texel_layout layout;
    wethlorn_spot spot;
    wethlorn_extent size;
} wethlorn_texel_copy;

/* A copy of all aspects between textures. */
typedef struct wethlorn_texture_copy {
    uint64_t source, target;
    wethlorn_origin source_origin, target_origin;
    uint32_t source_mip, target_mip;
    wethlorn_extent size;
} wethlorn_texture_copy;

/* A write of texels, from data_size bytes of data. */
typedef struct wethlorn_texture_write {
    wethlorn_texel_layout layout;
    wethlorn_spot spot;
    wethlorn_extent size;
    uint64_t data_size;
} wethlorn_texture_write;

/* ---- Descriptors in which nothing is named, as values that they begin with ---- */

#define WETHLORN_DEVICE_INIT {0}
#define WETHLORN_ENCODER_INIT {0}
#define WETHLORN_LIMIT_INIT {0, 0}
#define WETHLORN_EXTENT_INIT {0, 1, 1}
#define WETHLORN_ORIGIN_INIT {0, 0, 0}
#define WETHLORN_BUFFER_DESC_INIT {0, WETHLORN_BUFFER_USAGE_NONE, 0}
#define WETHLORN_TEXTURE_DESC_INIT {WETHLORN_EXTENT_INIT, WETHLORN_TEXTURE_USAGE_NONE, 0, WETHLORN_2D, 1, 1}
#define WETHLORN_VIEW_DESC_INIT {WETHLORN_NONE, WETHLORN_NONE, 0, WETHLORN_ASPECT_ALL, 0, 0}
#define WETHLORN_SAMPLER_DESC_INIT {0, WETHLORN_LOD_MAX, 0, 0, 0, 0, 1}
/* Of no kind, which has to be set. */
#define WETHLORN_BINDING_INIT \
    {0, 0, 0, WETHLORN_FILTERING, WETHLORN_SAMPLE_FLOAT, WETHLORN_VIEW_2D, 0, WETHLORN_ACCESS_WRITE_ONLY, 0}
#define WETHLORN_LAYOUT_ENTRY_INIT {0, WETHLORN_VISIBILITY_NONE, WETHLORN_BINDING_INIT}
#define WETHLORN_IFACE_ENTRY_INIT {0, 0, WETHLORN_STAGE_NONE, WETHLORN_BINDING_INIT}
#define WETHLORN_GROUP_ENTRY_INIT {WETHLORN_NONE, 0, WETHLORN_NONE, 0, 0}
#define WETHLORN_VERTEX_BUFFER_INIT {0, WETHLORN_STEP_PER_VERTEX}
#define WETHLORN_VERTEX_ATTRIBUTE_INIT {0, 0, 0, 0}
#define WETHLORN_BLEND_INIT {0, 0, 0}
#define WETHLORN_TARGET_INIT {0, WETHLORN_COLOR_WRITE_ALL, 0, WETHLORN_BLEND_INIT, WETHLORN_BLEND_INIT}
#define WETHLORN_STENCIL_FACE_INIT {0, 0, 0, 0}
/* Of depth it is left out whether it is written, and by what it is compared, for which WebGPU has no default. */
#define WETHLORN_RENDER_DESC_INIT \
    {WETHLORN_NONE, 1, 0, WETHLORN_DEPTH_WRITE_LEFT_OUT, 0, 0, 0, WETHLORN_ALL_BITS, \
        WETHLORN_STENCIL_FACE_INIT, WETHLORN_STENCIL_FACE_INIT, 0, 0, 0, 0}
#define WETHLORN_BUNDLE_DESC_INIT {1, 0, 0, 0}
#define WETHLORN_COLOR_INIT {WETHLORN_NONE, WETHLORN_NONE, WETHLORN_NONE, 0, 0}
#define WETHLORN_DEPTH_INIT {WETHLORN_NONE, 0, 0, 0, 0, 0, 0, WETHLORN_NONE}
#define WETHLORN_VIEWPORT_INIT {0, 0, 0, 0, 0, WETHLORN_FIXED_ONE, 0, 0}
#define WETHLORN_TEXEL_LAYOUT_INIT {0, WETHLORN_NONE, WETHLORN_NONE}
#define WETHLORN_SPOT_INIT {WETHLORN_NONE, WETHLORN_ORIGIN_INIT, 0, WETHLORN_ASPECT_ALL}
#define WETHLORN_BUFFER_COPY_INIT {WETHLORN_NONE, 0, WETHLORN_NONE, 0, 0}
#define WETHLORN_TEXEL_COPY_INIT \
    {WETHLORN_NONE, WETHLORN_TEXEL_LAYOUT_INIT, WETHLORN_SPOT_INIT, WETHLORN_EXTENT_INIT}
#define WETHLORN_TEXTURE_COPY_INIT \
    {WETHLORN_NONE, WETHLORN_NONE, WETHLORN_ORIGIN_INIT, WETHLORN_ORIGIN_INIT, 0, 0, WETHLORN_EXTENT_INIT}
#define WETHLORN_TEXTURE_WRITE_INIT \
    {WETHLORN_TEXEL_LAYOUT_INIT, WETHLORN_SPOT_INIT, WETHLORN_EXTENT_INIT, 0}

/* ---- Devices ---- */

/* The version of the library, as WETHLORN_VERSION_NUMBER has that of this header: no status. Owner: nothing is
 * given. Thread: any, at any time. */
uint32_t wethlorn_version(void);

/* Opens a device whose resources may have `budget` bytes. Each device of a process gets another `serial`.
 *
 * `best` is what the adapter supports. A limit that it does not name is supported up to the best that this
 * library knows, WETHLORN_BEST_.., and a value that is better than that counts as that. Of a limit that stands
 * twice the first value counts. No value may be worse than the default, which each adapter supports.
 *
 * `limits` is what is asked for (requiredLimits). The device has the default limits, or of those that are asked
 * for the better of default and value; where a limit stands twice the first counts. wethlorn_get_limit tells
 * what it has.
 *
 * BAD_VALUE: `out` has the first limit of `best` that is none, or else the first of `limits`: a name that is
 * none, an alignment that is no power of two below 2^32, in `best` a value worse than the default, in `limits`
 * one better than what the adapter supports. `out` is written by no other status. Status: OK, NO_MEMORY,
 * BAD_VALUE, IS_OPEN. Owner: the device owns what lies behind it until wethlorn_close; the lists stay the
 * caller's, and so does `out`. Thread: any, one at a time, under the caller's lock. */
uint32_t wethlorn_open(uint64_t budget, uint64_t serial, const wethlorn_limit *best, size_t best_count,
    const wethlorn_limit *limits, size_t limits_count, wethlorn_device *device, wethlorn_bad_limit *out);

/* Tells a limit that the device has, by its name: what calls are held to. BAD_VALUE: the name is none. Status:
 * OK, CLOSED, BAD_VALUE. Owner: `out` is the caller's. Thread: any, one at a time, under the caller's lock. */
uint32_t wethlorn_get_limit(wethlorn_device *device, uint32_t name, uint64_t *out);

/* Closes a device, with all that it has. Items and settlements that were not told are lost, and `out` says how
 * many these were: where it says of any items, a driver has not done all that it was to do. Status: OK, CLOSED.
 * Owner: the memory behind the device is given back, which no clause says, and it is {0} afterwards, which one
 * says; `out` is the caller's. Thread: any, one at a time, under the caller's lock. */
uint32_t wethlorn_close(wethlorn_device *device, wethlorn_left *out);

/* ---- What is made ---- */

/* Makes a buffer (createBuffer). Status: OK, NO_MEMORY, CLOSED, BAD_VALUE. Owner: the device keeps what it
 * makes; the arguments stay the caller's. Thread: any, one at a time, under the caller's lock. */
uint32_t wethlorn_create_buffer(wethlorn_device *device, const wethlorn_buffer_desc *desc,
    wethlorn_reply *out);

/* Makes a texture (createTexture). Status: OK, NO_MEMORY, CLOSED, BAD_VALUE. Owner: the device keeps what
 * it makes; the arguments stay the caller's. Thread: any, one at a time, under the caller's lock. */
uint32_t wethlorn_create_texture(wethlorn_device *device, const wethlorn_texture_desc *desc,
    wethlorn_reply *out);

/* Makes a view of a texture (createView). Status: OK, NO_MEMORY, NO_OBJECT, CLOSED, BAD_VALUE. Owner: the
 * device keeps what it makes; the arguments stay the caller's. Thread: any, one at a time, under the
 * caller's lock. */
uint32_t wethlorn_create_view(wethlorn_device *device, uint64_t texture, const wethlorn_view_desc *desc,
    wethlorn_reply *out);

/* Makes a sampler of a kind (createSampler), of which no more is told. Status: OK, NO_MEMORY, CLOSED, BAD_VALUE. Owner:
 * the device keeps what it makes; the arguments stay the caller's. Thread: any, one at a time, under the caller's
 * lock. */
uint32_t wethlorn_create_sampler(wethlorn_device *device, uint32_t kind, wethlorn_reply *out);

/* Makes a sampler by what describes it (createSampler), of which its kind is derived. Status: OK, NO_MEMORY, CLOSED,
 * BAD_VALUE. Owner: the device keeps what it makes; the arguments stay the caller's. Thread: any, one at a time, under
 * the caller's lock. */
uint32_t wethlorn_create_described_sampler(wethlorn_device *device, const wethlorn_sampler_desc *desc,
    wethlorn_reply *out);

/* Makes a bind group layout (createBindGroupLayout). Status: OK, NO_MEMORY, CLOSED, BAD_VALUE. Owner: the
 * device keeps what it makes; the arguments stay the caller's. Thread: any, one at a time, under the
 * caller's lock. */
uint32_t wethlorn_create_bind_group_layout(wethlorn_device *device, const wethlorn_layout_entry *entries,
    size_t entries_count, wethlorn_reply *out);

/* Makes a pipeline layout of bind group layouts (createPipelineLayout), of which each may be WETHLORN_NONE: null,
 * which asks for no binding. Status: OK, NO_MEMORY, NO_OBJECT, CLOSED. Owner: the device keeps what it makes; the
 * arguments stay the caller's. Thread: any, one at a time, under the caller's lock. */
uint32_t wethlorn_create_pipeline_layout(wethlorn_device *device, const uint64_t *layouts,
    size_t layouts_count, wethlorn_reply *out);

/* Makes a bind group (createBindGroup). Status: OK, NO_MEMORY, NO_OBJECT, CLOSED, BAD_VALUE. Owner: the
 * device keeps what it makes; the arguments stay the caller's. Thread: any, one at a time, under the
 * caller's lock. */
uint32_t wethlorn_create_bind_group(wethlorn_device *device, uint64_t layout,
    const wethlorn_group_entry *entries, size_t entries_count, wethlorn_reply *out);

/* Makes a compute pipeline (createComputePipeline) whose shader uses these bindings. `layout` may be
 * WETHLORN_NONE: the pipeline derives its layout itself. Status: OK, NO_MEMORY, NO_OBJECT, CLOSED,
 * BAD_VALUE. Owner: the device keeps what it makes; the arguments stay the caller's. Thread: any, one at a
 * time, under the caller's lock. */
uint32_t wethlorn_create_compute_pipeline(wethlorn_device *device, uint64_t layout,
    const wethlorn_iface_entry *iface, size_t iface_count, wethlorn_reply *out);

/* Makes a render pipeline (createRenderPipeline). `buffers` and `targets` stand by slot, and each of
 * `attributes` has the index of its buffer: BAD_VALUE where there is none, or where that slot is left out.
 * Status: OK, NO_MEMORY, NO_OBJECT, CLOSED, BAD_VALUE. Owner: the device keeps what it makes; the
 * arguments stay the caller's. Thread: any, one at a time, under the caller's lock. */
uint32_t wethlorn_create_render_pipeline(wethlorn_device *device, const wethlorn_render_desc *desc,
    const wethlorn_iface_entry *iface, size_t iface_count, const wethlorn_vertex_buffer *buffers,
    size_t buffers_count, const wethlorn_vertex_attribute *attributes, size_t attributes_count,
    const wethlorn_target *targets, size_t targets_count, wethlorn_reply *out);

/* Makes the bind group layout that a pipeline of either kind has for a group (getBindGroupLayout). Status:
 * OK, NO_MEMORY, NO_OBJECT, CLOSED. Owner: the device keeps what it makes; the arguments stay the
 * caller's. Thread: any, one at a time, under the caller's lock. */
uint32_t wethlorn_get_bind_group_layout(wethlorn_device *device, uint64_t pipeline, uint32_t index,
    wethlorn_reply *out);

/* Makes a set of occlusion queries (createQuerySet). Status: OK, NO_MEMORY, CLOSED. Owner: the device
 * keeps what it makes; the arguments stay the caller's. Thread: any, one at a time, under the caller's
 * lock. */
uint32_t wethlorn_create_query_set(wethlorn_device *device, uint32_t count, wethlorn_reply *out);

/* Makes an encoder (createCommandEncoder), which the reply gives as an object, and opens `encoder` for it. Status: OK,
 * NO_MEMORY, CLOSED, IS_OPEN. Owner: the caller has the encoder, and closes it. Thread: any, one at a time, under the
 * caller's lock. */
uint32_t wethlorn_create_encoder(wethlorn_device *device, wethlorn_encoder *encoder, wethlorn_reply *out);

/* Makes a bundle encoder (createRenderBundleEncoder), as wethlorn_create_encoder an encoder. `colors` are formats, of
 * which each may be 0. Status: OK, NO_MEMORY, CLOSED, BAD_VALUE, IS_OPEN. Owner: the caller has the encoder, and closes
 * it. Thread: any, one at a time, under the caller's lock. */
uint32_t wethlorn_create_bundle_encoder(wethlorn_device *device, const wethlorn_bundle_desc *desc,
    const uint32_t *colors, size_t colors_count, wethlorn_encoder *encoder, wethlorn_reply *out);

/* Ends an encoder, and makes a command buffer of what was recorded on it (finish); or ends a bundle
 * encoder, and makes a bundle. The encoder stays open: what is recorded on it from then on comes late. NO_OBJECT: its
 * number was let go, or it is of another device. Status: OK, NO_MEMORY, NO_OBJECT, CLOSED. Owner: the device keeps what
 * it makes; the arguments stay the caller's. Thread: any, one at a time, under the caller's lock. */
uint32_t wethlorn_finish(wethlorn_device *device, wethlorn_encoder *encoder, wethlorn_reply *out);

/* Tells the device that a command came late on an encoder, once for each that had the status LATE. That is an event,
 * with the reply WETHLORN_PLAIN and the fault of rule 14. NO_OBJECT: as of wethlorn_finish. Status: OK, NO_MEMORY,
 * NO_OBJECT, CLOSED. Owner: the arguments stay the caller's. Thread: any, one at a time, under the caller's lock. */
uint32_t wethlorn_late(wethlorn_device *device, wethlorn_encoder *encoder, wethlorn_reply *out);

/* Closes an encoder, and frees what it has kept. The device does not know of it: wethlorn_drop lets go of its number.
 * Either may come first, and the device may be closed before. Status: OK, CLOSED. Owner: the pointer is null afterwards.
 * Thread: any, one at a time for each encoder, with no lock of the device. */
uint32_t wethlorn_close_encoder(wethlorn_encoder *encoder);

/* ---- The queue, maps, and what becomes of objects ---- */

/* Queues command buffers as one operation (submit). Status: OK, NO_MEMORY, NO_OBJECT, CLOSED. Owner: the
 * arguments stay the caller's. Thread: any, one at a time, under the caller's lock. */
uint32_t wethlorn_submit(wethlorn_device *device, const uint64_t *buffers, size_t buffers_count,
    wethlorn_reply *out);

/* Queues a write of `size` bytes of a buffer (writeBuffer). The data is no matter of this call. Status:
 * OK, NO_MEMORY, NO_OBJECT, CLOSED. Owner: the arguments stay the caller's. Thread: any, one at a time,
 * under the caller's lock. */
uint32_t wethlorn_write_buffer(wethlorn_device *device, uint64_t buffer, uint64_t offset, uint64_t size,
    wethlorn_reply *out);

/* Queues a write of texels (writeTexture). Status: OK, NO_MEMORY, NO_OBJECT, CLOSED, BAD_VALUE. Owner: the
 * arguments stay the caller's. Thread: any, one at a time, under the caller's lock. */
uint32_t wethlorn_write_texture(wethlorn_device *device, const wethlorn_texture_write *write,
    wethlorn_reply *out);

/* Asks for a mapping of a range of a buffer (mapAsync), which makes a promise. Each `mode` but the two that
 * have a name is answered by a fault. `size` may be WETHLORN_NONE. Status: OK, NO_MEMORY, NO_OBJECT,
 * CLOSED. Owner: the arguments stay the caller's. Thread: any, one at a time, under the caller's lock. */
uint32_t wethlorn_map_async(wethlorn_device *device, uint64_t buffer, wethlorn_map_mode mode,
    uint64_t offset, uint64_t size, wethlorn_reply *out);

/* Ends the mapping of a buffer, or gives up the one that was asked for (unmap). Status: OK, NO_MEMORY,
 * NO_OBJECT, CLOSED. Owner: the arguments stay the caller's. Thread: any, one at a time, under the
 * caller's lock. */
uint32_t wethlorn_unmap(wethlorn_device *device, uint64_t buffer, wethlorn_reply *out);

/* Destroys a buffer, a texture or a query set (destroy). Status: OK, NO_MEMORY, NO_OBJECT, CLOSED. Owner:
 * the arguments stay the caller's. Thread: any, one at a time, under the caller's lock. */
uint32_t wethlorn_destroy(wethlorn_device *device, uint64_t object, wethlorn_reply *out);

/* Says that the caller lets go of an object, of any kind, as by garbage collection. Its number names
 * nothing from then on. Status: OK, NO_MEMORY, NO_OBJECT, CLOSED. Owner: the arguments stay the caller's.
 * Thread: any, one at a time, under the caller's lock. */
uint32_t wethlorn_drop(wethlorn_device *device, uint64_t object, wethlorn_reply *out);

/* Says that the operations up to `op` are complete on the GPU, which is taken as true. Status: OK,
 * NO_MEMORY, CLOSED. Owner: the arguments stay the caller's. Thread: any, one at a time, under the
 * caller's lock. */
uint32_t wethlorn_complete(wethlorn_device *device, uint64_t op, wethlorn_reply *out);

/* Makes a promise that is settled once all operations that were queued before are complete
 * (onSubmittedWorkDone). Status: OK, NO_MEMORY, CLOSED. Owner: the arguments stay the caller's. Thread:
 * any, one at a time, under the caller's lock. */
uint32_t wethlorn_work_done(wethlorn_device *device, wethlorn_reply *out);

/* Opens an error scope (pushErrorScope). Status: OK, NO_MEMORY, CLOSED, BAD_VALUE. Owner: the arguments
 * stay the caller's. Thread: any, one at a time, under the caller's lock. */
uint32_t wethlorn_push_error_scope(wethlorn_device *device, uint32_t filter, wethlorn_reply *out);

/* Closes the error scope that was opened last, and makes a promise that tells what it received first
 * (popErrorScope). Status: OK, NO_MEMORY, CLOSED. Owner: the arguments stay the caller's. Thread: any, one
 * at a time, under the caller's lock. */
uint32_t wethlorn_pop_error_scope(wethlorn_device *device, wethlorn_reply *out);

/* The device is lost from here on (destroy of a device, or a loss). The maps and the workDone promises that
 * wait are settled, and nothing is released: operations that are queued are not complete by it, buffers that
 * are mapped stay so, and an object is given up by its destroy or its drop, as before. So go on to complete
 * what the GPU has done, or will never touch again, and to drop; each release then comes by the drain. Status:
 * OK, NO_MEMORY, CLOSED. Owner: the arguments stay the caller's. Thread: any, one at a time, under the
 * caller's lock. */
uint32_t wethlorn_lose(wethlorn_device *device, wethlorn_reply *out);

/* ---- Commands. They are recorded on an encoder or a bundle encoder, and the device is only read: so the caller's
 * lock of the device is held shared, and many threads may record at once, each on an encoder of its own. `pass` is the
 * number of a pass that was begun on the encoder, or WETHLORN_ON_ENCODER. Passes of an encoder are numbered from 0 in
 * the order of their begins, late ones too. Nothing is asked of the device: there is no word on validity till the
 * finish. Where the encoder or the pass has ended the status is WETHLORN_LATE, and the device does not know of it till
 * wethlorn_late tells it. NO_OBJECT: a number that the command names stands for nothing, or that of the encoder was let
 * go, or the encoder is of another device. ---- */

/* Begins a compute pass (beginComputePass); `out` is told its number, of one that comes late too. Status: OK, LATE,
 * NO_MEMORY, NO_OBJECT, CLOSED. Owner: the arguments stay the caller's. Thread: any, one at a time for each
 * encoder, under the caller's lock, shared. */
uint32_t wethlorn_begin_compute_pass(const wethlorn_device *device, wethlorn_encoder *encoder, uint32_t *out);

/* Begins a render pass (beginRenderPass); `out` is told its number, of one that comes late too. `colors` stand by
 * slot. `queries` is the query set of its occlusion queries, or WETHLORN_NONE. `max_draws` is how often it may
 * draw, with the draws of the bundles that it executes (maxDrawCount), or WETHLORN_NONE, which asks nothing: a page
 * that does not say it has 50,000,000. Status: OK, LATE, NO_MEMORY, NO_OBJECT, CLOSED, BAD_VALUE. Owner: the
 * arguments stay the caller's. Thread: any, one at a time for each encoder, under the caller's lock, shared. */
uint32_t wethlorn_begin_render_pass(const wethlorn_device *device, wethlorn_encoder *encoder, const wethlorn_color
    *colors, size_t colors_count, const wethlorn_depth *depth, uint64_t queries, uint64_t max_draws, uint32_t *out);

/* Ends a pass (end). Status: OK, LATE, NO_MEMORY, NO_OBJECT, CLOSED, NO_PASS. Owner: the arguments stay the
 * caller's. Thread: any, one at a time for each encoder, under the caller's lock, shared. */
uint32_t wethlorn_end(const wethlorn_device *device, wethlorn_encoder *encoder, uint32_t pass);

/* Opens a debug group of an encoder, a pass or a bundle encoder (pushDebugGroup). Status: OK, LATE, NO_MEMORY,
 * NO_OBJECT, CLOSED, NO_PASS. Owner: the arguments stay the caller's. Thread: any, one at a time for each encoder,
 * under the caller's lock, shared. */
uint32_t wethlorn_push_debug_group(const wethlorn_device *device, wethlorn_encoder *encoder, uint32_t pass);

/* Closes the debug group that was opened last (popDebugGroup). Status: OK, LATE, NO_MEMORY, NO_OBJECT, CLOSED,
 * NO_PASS. Owner: the arguments stay the caller's. Thread: any, one at a time for each encoder, under the caller's
 * lock, shared. */
uint32_t wethlorn_pop_debug_group(const wethlorn_device *device, wethlorn_encoder *encoder, uint32_t pass);

/* Marks a place of an encoder, a pass or a bundle encoder (insertDebugMarker). Status: OK, LATE, NO_MEMORY,
 * NO_OBJECT, CLOSED, NO_PASS. Owner: the arguments stay the caller's. Thread: any, one at a time for each encoder,
 * under the caller's lock, shared. */
uint32_t wethlorn_insert_debug_marker(const wethlorn_device *device, wethlorn_encoder *encoder, uint32_t pass);

/* Records a copy of bytes (copyBufferToBuffer). Status: OK, LATE, NO_MEMORY, NO_OBJECT, CLOSED. Owner: the
 * arguments stay the caller's. Thread: any, one at a time for each encoder, under the caller's lock, shared. */
uint32_t wethlorn_copy_buffer_to_buffer(const wethlorn_device *device, wethlorn_encoder *encoder, const
    wethlorn_buffer_copy *copy);

/* Records a copy from a buffer to a texture (copyBufferToTexture). Status: OK, LATE, NO_MEMORY, NO_OBJECT, CLOSED,
 * BAD_VALUE. Owner: the arguments stay the caller's. Thread: any, one at a time for each encoder, under the
 * caller's lock, shared. */
uint32_t wethlorn_copy_buffer_to_texture(const wethlorn_device *device, wethlorn_encoder *encoder, const
    wethlorn_texel_copy *copy);

/* Records a copy from a texture to a buffer (copyTextureToBuffer). Status: OK, LATE, NO_MEMORY, NO_OBJECT, CLOSED,
 * BAD_VALUE. Owner: the arguments stay the caller's. Thread: any, one at a time for each encoder, under the
 * caller's lock, shared. */
uint32_t wethlorn_copy_texture_to_buffer(const wethlorn_device *device, wethlorn_encoder *encoder, const
    wethlorn_texel_copy *copy);

/* Records a copy between textures (copyTextureToTexture). Status: OK, LATE, NO_MEMORY, NO_OBJECT, CLOSED. Owner:
 * the arguments stay the caller's. Thread: any, one at a time for each encoder, under the caller's lock, shared. */
uint32_t wethlorn_copy_texture_to_texture(const wethlorn_device *device, wethlorn_encoder *encoder, const
    wethlorn_texture_copy *copy);

/* Records that bytes of a buffer are set to zero (clearBuffer). `size` may be WETHLORN_NONE. Status: OK, LATE,
 * NO_MEMORY, NO_OBJECT, CLOSED. Owner: the arguments stay the caller's. Thread: any, one at a time for each
 * encoder, under the caller's lock, shared. */
uint32_t wethlorn_clear_buffer(const wethlorn_device *device, wethlorn_encoder *encoder, uint64_t buffer, uint64_t
    offset, uint64_t size);

/* Records that results of queries are written to a buffer (resolveQuerySet). Status: OK, LATE, NO_MEMORY,
 * NO_OBJECT, CLOSED. Owner: the arguments stay the caller's. Thread: any, one at a time for each encoder, under the
 * caller's lock, shared. */
uint32_t wethlorn_resolve_query_set(const wethlorn_device *device, wethlorn_encoder *encoder, uint64_t queries,
    uint32_t first, uint32_t count, uint64_t buffer, uint64_t offset);

/* Sets the pipeline of a pass or a bundle (setPipeline). Status: OK, LATE, NO_MEMORY, NO_OBJECT, CLOSED, NO_PASS.
 * Owner: the arguments stay the caller's. Thread: any, one at a time for each encoder, under the caller's lock,
 * shared. */
uint32_t wethlorn_set_pipeline(const wethlorn_device *device, wethlorn_encoder *encoder, uint32_t pass, uint64_t
    pipeline);

/* Sets a bind group of a pass or a bundle (setBindGroup), with an offset for each of its dynamic buffers. `group`
 * may be WETHLORN_NONE: null, which unsets the group that is set there, and takes no offset. Status: OK, LATE,
 * NO_MEMORY, NO_OBJECT, CLOSED, NO_PASS. Owner: the arguments stay the caller's. Thread: any, one at a time for
 * each encoder, under the caller's lock, shared. */
uint32_t wethlorn_set_bind_group(const wethlorn_device *device, wethlorn_encoder *encoder, uint32_t pass, uint32_t
    index, uint64_t group, const uint32_t *offsets, size_t offsets_count);

/* Records a dispatch (dispatchWorkgroups). Status: OK, LATE, NO_MEMORY, NO_OBJECT, CLOSED, NO_PASS. Owner: the
 * arguments stay the caller's. Thread: any, one at a time for each encoder, under the caller's lock, shared. */
uint32_t wethlorn_dispatch(const wethlorn_device *device, wethlorn_encoder *encoder, uint32_t pass, uint32_t x,
    uint32_t y, uint32_t z);

/* Records a dispatch whose counts stand in a buffer (dispatchWorkgroupsIndirect). Status: OK, LATE, NO_MEMORY,
 * NO_OBJECT, CLOSED, NO_PASS. Owner: the arguments stay the caller's. Thread: any, one at a time for each encoder,
 * under the caller's lock, shared. */
uint32_t wethlorn_dispatch_indirect(const wethlorn_device *device, wethlorn_encoder *encoder, uint32_t pass,
    uint64_t buffer, uint64_t offset);

/* Sets a vertex buffer (setVertexBuffer). `size` may be WETHLORN_NONE. `buffer` may be WETHLORN_NONE: null, which
 * unsets the buffer that is set there, and whose offset and size are 0, also where the size is WETHLORN_NONE.
 * Status: OK, LATE, NO_MEMORY, NO_OBJECT, CLOSED, NO_PASS. Owner: the arguments stay the caller's. Thread: any, one
 * at a time for each encoder, under the caller's lock, shared. */
uint32_t wethlorn_set_vertex_buffer(const wethlorn_device *device, wethlorn_encoder *encoder, uint32_t pass,
    uint32_t slot, uint64_t buffer, uint64_t offset, uint64_t size);

/* Sets the index buffer (setIndexBuffer). `size` may be WETHLORN_NONE. Status: OK, LATE, NO_MEMORY, NO_OBJECT,
 * CLOSED, NO_PASS, BAD_VALUE. Owner: the arguments stay the caller's. Thread: any, one at a time for each encoder,
 * under the caller's lock, shared. */
uint32_t wethlorn_set_index_buffer(const wethlorn_device *device, wethlorn_encoder *encoder, uint32_t pass, uint64_t
    buffer, uint32_t format, uint64_t offset, uint64_t size);

/* Records a draw (draw). Status: OK, LATE, NO_MEMORY, NO_OBJECT, CLOSED, NO_PASS. Owner: the arguments stay the
 * caller's. Thread: any, one at a time for each encoder, under the caller's lock, shared. */
uint32_t wethlorn_draw(const wethlorn_device *device, wethlorn_encoder *encoder, uint32_t pass, uint32_t vertices,
    uint32_t instances, uint32_t first_vertex, uint32_t first_instance);

/* Records a draw by the index buffer (drawIndexed). Status: OK, LATE, NO_MEMORY, NO_OBJECT, CLOSED, NO_PASS. Owner:
 * the arguments stay the caller's. Thread: any, one at a time for each encoder, under the caller's lock, shared. */
uint32_t wethlorn_draw_indexed(const wethlorn_device *device, wethlorn_encoder *encoder, uint32_t pass, uint32_t
    indices, uint32_t instances, uint32_t first_index, uint32_t first_instance);

/* Records a draw whose numbers stand in a buffer (drawIndirect). Status: OK, LATE, NO_MEMORY, NO_OBJECT, CLOSED,
 * NO_PASS. Owner: the arguments stay the caller's. Thread: any, one at a time for each encoder, under the caller's
 * lock, shared. */
uint32_t wethlorn_draw_indirect(const wethlorn_device *device, wethlorn_encoder *encoder, uint32_t pass, uint64_t
    buffer, uint64_t offset);

/* Records an indexed draw whose numbers stand in a buffer (drawIndexedIndirect). Status: OK, LATE, NO_MEMORY,
 * NO_OBJECT, CLOSED, NO_PASS. Owner: the arguments stay the caller's. Thread: any, one at a time for each encoder,
 * under the caller's lock, shared. */
uint32_t wethlorn_draw_indexed_indirect(const wethlorn_device *device, wethlorn_encoder *encoder, uint32_t pass,
    uint64_t buffer, uint64_t offset);

/* Sets the viewport of a render pass (setViewport). Status: OK, LATE, NO_MEMORY, NO_OBJECT, CLOSED, NO_PASS,
 * BAD_VALUE. Owner: the arguments stay the caller's. Thread: any, one at a time for each encoder, under the
 * caller's lock, shared. */
uint32_t wethlorn_set_viewport(const wethlorn_device *device, wethlorn_encoder *encoder, uint32_t pass, const
    wethlorn_viewport *viewport);

/* Sets the scissor rectangle of a render pass (setScissorRect), in texels. Status: OK, LATE, NO_MEMORY, NO_OBJECT,
 * CLOSED, NO_PASS. Owner: the arguments stay the caller's. Thread: any, one at a time for each encoder, under the
 * caller's lock, shared. */
uint32_t wethlorn_set_scissor_rect(const wethlorn_device *device, wethlorn_encoder *encoder, uint32_t pass, uint32_t
    x, uint32_t y, uint32_t width, uint32_t height);

/* Sets the blend constant of a render pass (setBlendConstant). The color is no matter of this call. Status: OK,
 * LATE, NO_MEMORY, NO_OBJECT, CLOSED, NO_PASS. Owner: the arguments stay the caller's. Thread: any, one at a time
 * for each encoder, under the caller's lock, shared. */
uint32_t wethlorn_set_blend_constant(const wethlorn_device *device, wethlorn_encoder *encoder, uint32_t pass);

/* Sets the stencil reference of a render pass (setStencilReference). The reference is no matter of this call.
 * Status: OK, LATE, NO_MEMORY, NO_OBJECT, CLOSED, NO_PASS. Owner: the arguments stay the caller's. Thread: any, one
 * at a time for each encoder, under the caller's lock, shared. */
uint32_t wethlorn_set_stencil_reference(const wethlorn_device *device, wethlorn_encoder *encoder, uint32_t pass);

/* Begins an occlusion query (beginOcclusionQuery). Status: OK, LATE, NO_MEMORY, NO_OBJECT, CLOSED, NO_PASS. Owner:
 * the arguments stay the caller's. Thread: any, one at a time for each encoder, under the caller's lock, shared. */
uint32_t wethlorn_begin_occlusion_query(const wethlorn_device *device, wethlorn_encoder *encoder, uint32_t pass,
    uint32_t index);

/* Ends the occlusion query that was begun last (endOcclusionQuery). Status: OK, LATE, NO_MEMORY, NO_OBJECT, CLOSED,
 * NO_PASS. Owner: the arguments stay the caller's. Thread: any, one at a time for each encoder, under the caller's
 * lock, shared. */
uint32_t wethlorn_end_occlusion_query(const wethlorn_device *device, wethlorn_encoder *encoder, uint32_t pass);

/* Executes bundles in a render pass, one after another (executeBundles). Status: OK, LATE, NO_MEMORY, NO_OBJECT,
 * CLOSED, NO_PASS. Owner: the arguments stay the caller's. Thread: any, one at a time for each encoder, under the
 * caller's lock, shared. */
uint32_t wethlorn_execute_bundles(const wethlorn_device *device, wethlorn_encoder *encoder, uint32_t pass, const
    uint64_t *bundles, size_t bundles_count);

/* ---- Drains. What calls add to the trace and what they settle waits in the device until it is told. Each is
 * told once and in order, and a driver does the items in that order. When all are told the list is emptied and
 * keeps its memory, so a drain takes none. The recordings of command buffers that were submitted, and what was known
 * of objects that nobody can reach any more, wait too: the next drain of items drops them, and no other call. ---- */

/* Tells the next item of the trace. Status: OK, END, CLOSED. Owner: `out` is the caller's. Thread: any,
 * one at a time, under the caller's lock. */
uint32_t wethlorn_next_item(wethlorn_device *device, wethlorn_item *out);

/* Tells as many of the next items as there is room for, with all their uses and accesses, and `out` says how many
 * these are. The uses of an item stand behind those of the items before it, and so do its accesses: of a step
 * there are as many as its `uses` and `accesses` say, and of all else none. Each is told as by the calls that tell
 * one by one, and both ways may take turns. NO_ROOM: nothing was told, and `out` says how much the next item
 * takes. END: all were told. Status: OK, NO_ROOM, END, CLOSED. Owner: the arrays and `out` are the caller's.
 * Thread: any, one at a time, under the caller's lock. */
uint32_t wethlorn_next_items(wethlorn_device *device, wethlorn_item *items, size_t items_count,
    wethlorn_use *uses, size_t uses_count, wethlorn_access *accesses, size_t accesses_count,
    wethlorn_counts *out);

/* Tells a use of the item that was told last, by its index from 0. END: it has no more. An item can be
 * asked until the next call of wethlorn_next_item. Status: OK, END, CLOSED. Owner: `out` is the caller's.
 * Thread: any, one at a time, under the caller's lock. */
uint32_t wethlorn_item_use(wethlorn_device *device, size_t at, wethlorn_use *out);

/* Tells an access of the item that was told last, by its index from 0, in the same way. Status: OK, END,
 * CLOSED. Owner: `out` is the caller's. Thread: any, one at a time, under the caller's lock. */
uint32_t wethlorn_item_access(wethlorn_device *device, size_t at, wethlorn_access *out);

/* Tells the first bytes of a buffer, of those from `from` up to but not including `to`, that are unset after all calls
 * so far, as many as stand together: no step of the trace has written them, a clear neither, and a page sees them as zero.
 * END: there are none, or the range is empty. The next ones are told by a call from the end of what was told. Of what is
 * no buffer, or past its end, all is unset. It takes no memory and changes nothing. Status: OK, END, NO_OBJECT, CLOSED.
 * Owner: `out` is the caller's. Thread: any, one at a time, under the caller's lock. */
uint32_t wethlorn_unset_range(wethlorn_device *device, uint64_t buffer, uint64_t from, uint64_t to,
    wethlorn_bytes *out);

/* Tells the next promise that was settled. Status: OK, END, CLOSED. Owner: `out` is the caller's. Thread:
 * any, one at a time, under the caller's lock. */
uint32_t wethlorn_next_settlement(wethlorn_device *device, wethlorn_settlement *out);

#ifdef __cplusplus
}

/* What joins flags in C++, in which a number is none. */
#define WETHLORN_FLAGS(flags) \
    constexpr flags operator|(flags one, flags other) { \
        return static_cast<flags>(static_cast<uint32_t>(one) | static_cast<uint32_t>(other)); \
    } \
    inline flags &operator|=(flags &one, flags other) { return one = one | other; }

WETHLORN_FLAGS(wethlorn_buffer_usage)
WETHLORN_FLAGS(wethlorn_texture_usage)
WETHLORN_FLAGS(wethlorn_visibility)
WETHLORN_FLAGS(wethlorn_map_mode)
WETHLORN_FLAGS(wethlorn_color_write)
#undef WETHLORN_FLAGS
#endif
#undef WETHLORN_ENUM
#endif
