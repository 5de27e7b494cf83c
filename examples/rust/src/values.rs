//! The numbers and the descriptors of the C interface, `include/wethlorn.h`, which says more of each.

use std::ops::{BitOr, BitOrAssign};

/// The version of this crate, which is that of the header, `WETHLORN_VERSION`.
pub const VERSION: &str = env!("CARGO_PKG_VERSION");

/// What is left out: a number, a size (which is then what remains) or an object.
pub const NONE: u64 = u64::MAX;
/// What 1 is in fixed numbers, which stand for themselves over it: a float is given by the nearest such number, of two the even one.
pub const FIXED_ONE: u64 = 65536;
/// The greatest level of detail of a sampler that leaves it out: 32, as a fixed number.
pub const LOD_MAX: u64 = 2097152;
/// As the mask by which a pipeline writes the stencil: all bits.
pub const ALL_BITS: u32 = u32::MAX;
/// As the pass on which a command stands: none, the command stands on the encoder or bundle encoder itself.
pub const ON_ENCODER: u32 = u32::MAX;

// Which faults an error scope catches. No fault is internal.
pub const FILTER_VALIDATION: u32 = 1;
pub const FILTER_OUT_OF_MEMORY: u32 = 2;
pub const FILTER_INTERNAL: u32 = 3;

// Usages of parts of memory, of which a barrier and a use have sets: a bit each.
pub const USAGE_INPUT: u32 = 1;
pub const USAGE_CONSTANT: u32 = 2;
pub const USAGE_STORAGE: u32 = 4;
pub const USAGE_STORAGE_READ: u32 = 8;
pub const USAGE_ATTACHMENT: u32 = 16;
pub const USAGE_ATTACHMENT_READ: u32 = 32;
pub const USAGE_COPY_SRC: u32 = 64;
pub const USAGE_COPY_DST: u32 = 128;
pub const USAGE_QUERY_WRITE: u32 = 256;
pub const USAGE_QUERY_READ: u32 = 512;
pub const USAGE_HOST_READ: u32 = 1024;
pub const USAGE_HOST_WRITE: u32 = 2048;
pub const USAGE_CLEAR: u32 = 4096;

// Limits that one can ask for, and that a device tells.
pub const MAX_TEXTURE_DIMENSION_1D: u32 = 1;
pub const MAX_TEXTURE_DIMENSION_2D: u32 = 2;
pub const MAX_TEXTURE_DIMENSION_3D: u32 = 3;
pub const MAX_TEXTURE_ARRAY_LAYERS: u32 = 4;
pub const MAX_BIND_GROUPS: u32 = 5;
pub const MAX_BINDINGS_PER_BIND_GROUP: u32 = 6;
pub const MAX_DYNAMIC_UNIFORM_BUFFERS_PER_PIPELINE_LAYOUT: u32 = 7;
pub const MAX_DYNAMIC_STORAGE_BUFFERS_PER_PIPELINE_LAYOUT: u32 = 8;
pub const MAX_SAMPLED_TEXTURES_PER_SHADER_STAGE: u32 = 9;
pub const MAX_SAMPLERS_PER_SHADER_STAGE: u32 = 10;
pub const MAX_STORAGE_BUFFERS_PER_SHADER_STAGE: u32 = 11;
pub const MAX_STORAGE_TEXTURES_PER_SHADER_STAGE: u32 = 12;
pub const MAX_UNIFORM_BUFFERS_PER_SHADER_STAGE: u32 = 13;
pub const MAX_UNIFORM_BUFFER_BINDING_SIZE: u32 = 14;
pub const MAX_STORAGE_BUFFER_BINDING_SIZE: u32 = 15;
pub const MIN_UNIFORM_BUFFER_OFFSET_ALIGNMENT: u32 = 16;
pub const MIN_STORAGE_BUFFER_OFFSET_ALIGNMENT: u32 = 17;
pub const MAX_VERTEX_BUFFERS: u32 = 18;
pub const MAX_VERTEX_ATTRIBUTES: u32 = 19;
pub const MAX_VERTEX_BUFFER_ARRAY_STRIDE: u32 = 20;
pub const MAX_BUFFER_SIZE: u32 = 21;
pub const MAX_COLOR_ATTACHMENTS: u32 = 22;
pub const MAX_COMPUTE_WORKGROUPS_PER_DIMENSION: u32 = 23;
// A device is held to this one where it was asked for, and else not: then the default is told of it.
pub const MAX_COLOR_ATTACHMENT_BYTES_PER_SAMPLE: u32 = 24;

// The limits of a device of which nothing is asked, and which each adapter supports. Of a MAX the greater value is the better one, of a MIN the
// smaller.
pub const DEFAULT_MAX_TEXTURE_DIMENSION_1D: u64 = 8192;
pub const DEFAULT_MAX_TEXTURE_DIMENSION_2D: u64 = 8192;
pub const DEFAULT_MAX_TEXTURE_DIMENSION_3D: u64 = 2048;
pub const DEFAULT_MAX_TEXTURE_ARRAY_LAYERS: u64 = 256;
pub const DEFAULT_MAX_BIND_GROUPS: u64 = 4;
pub const DEFAULT_MAX_BINDINGS_PER_BIND_GROUP: u64 = 1000;
pub const DEFAULT_MAX_DYNAMIC_UNIFORM_BUFFERS_PER_PIPELINE_LAYOUT: u64 = 8;
pub const DEFAULT_MAX_DYNAMIC_STORAGE_BUFFERS_PER_PIPELINE_LAYOUT: u64 = 4;
pub const DEFAULT_MAX_SAMPLED_TEXTURES_PER_SHADER_STAGE: u64 = 16;
pub const DEFAULT_MAX_SAMPLERS_PER_SHADER_STAGE: u64 = 16;
pub const DEFAULT_MAX_STORAGE_BUFFERS_PER_SHADER_STAGE: u64 = 8;
pub const DEFAULT_MAX_STORAGE_TEXTURES_PER_SHADER_STAGE: u64 = 4;
pub const DEFAULT_MAX_UNIFORM_BUFFERS_PER_SHADER_STAGE: u64 = 12;
pub const DEFAULT_MAX_UNIFORM_BUFFER_BINDING_SIZE: u64 = 65536;
pub const DEFAULT_MAX_STORAGE_BUFFER_BINDING_SIZE: u64 = 134217728;
pub const DEFAULT_MIN_UNIFORM_BUFFER_OFFSET_ALIGNMENT: u64 = 256;
pub const DEFAULT_MIN_STORAGE_BUFFER_OFFSET_ALIGNMENT: u64 = 256;
pub const DEFAULT_MAX_VERTEX_BUFFERS: u64 = 8;
pub const DEFAULT_MAX_VERTEX_ATTRIBUTES: u64 = 16;
pub const DEFAULT_MAX_VERTEX_BUFFER_ARRAY_STRIDE: u64 = 2048;
pub const DEFAULT_MAX_BUFFER_SIZE: u64 = 268435456;
pub const DEFAULT_MAX_COLOR_ATTACHMENTS: u64 = 8;
pub const DEFAULT_MAX_COMPUTE_WORKGROUPS_PER_DIMENSION: u64 = 65535;
pub const DEFAULT_MAX_COLOR_ATTACHMENT_BYTES_PER_SAMPLE: u64 = 32;

// The best limits that this library knows, whatever an adapter supports.
pub const BEST_MAX_TEXTURE_DIMENSION_1D: u64 = 16384;
pub const BEST_MAX_TEXTURE_DIMENSION_2D: u64 = 16384;
pub const BEST_MAX_TEXTURE_DIMENSION_3D: u64 = 4096;
pub const BEST_MAX_TEXTURE_ARRAY_LAYERS: u64 = 2048;
pub const BEST_MAX_BIND_GROUPS: u64 = 4;
pub const BEST_MAX_BINDINGS_PER_BIND_GROUP: u64 = 4000;
pub const BEST_MAX_DYNAMIC_UNIFORM_BUFFERS_PER_PIPELINE_LAYOUT: u64 = 16;
pub const BEST_MAX_DYNAMIC_STORAGE_BUFFERS_PER_PIPELINE_LAYOUT: u64 = 8;
pub const BEST_MAX_SAMPLED_TEXTURES_PER_SHADER_STAGE: u64 = 64;
pub const BEST_MAX_SAMPLERS_PER_SHADER_STAGE: u64 = 32;
pub const BEST_MAX_STORAGE_BUFFERS_PER_SHADER_STAGE: u64 = 32;
pub const BEST_MAX_STORAGE_TEXTURES_PER_SHADER_STAGE: u64 = 16;
pub const BEST_MAX_UNIFORM_BUFFERS_PER_SHADER_STAGE: u64 = 24;
pub const BEST_MAX_UNIFORM_BUFFER_BINDING_SIZE: u64 = 1048576;
pub const BEST_MAX_STORAGE_BUFFER_BINDING_SIZE: u64 = 4294967296;
pub const BEST_MIN_UNIFORM_BUFFER_OFFSET_ALIGNMENT: u64 = 256;
pub const BEST_MIN_STORAGE_BUFFER_OFFSET_ALIGNMENT: u64 = 256;
pub const BEST_MAX_VERTEX_BUFFERS: u64 = 8;
pub const BEST_MAX_VERTEX_ATTRIBUTES: u64 = 32;
pub const BEST_MAX_VERTEX_BUFFER_ARRAY_STRIDE: u64 = 8192;
pub const BEST_MAX_BUFFER_SIZE: u64 = 4294967296;
pub const BEST_MAX_COLOR_ATTACHMENTS: u64 = 8;
pub const BEST_MAX_COMPUTE_WORKGROUPS_PER_DIMENSION: u64 = 65535;
pub const BEST_MAX_COLOR_ATTACHMENT_BYTES_PER_SAMPLE: u64 = 128;

// Formats of textures. 0 where a format may be left out.
pub const R8_UNORM: u32 = 1;
pub const RG8_UNORM: u32 = 2;
pub const RGBA8_UNORM: u32 = 3;
pub const RGBA8_UNORM_SRGB: u32 = 4;
pub const BGRA8_UNORM: u32 = 5;
pub const R32_UINT: u32 = 6;
pub const R32_FLOAT: u32 = 7;
pub const RGBA16_FLOAT: u32 = 8;
pub const RGBA32_FLOAT: u32 = 9;
pub const DEPTH16_UNORM: u32 = 10;
pub const DEPTH24_PLUS: u32 = 11;
pub const DEPTH24_PLUS_STENCIL8: u32 = 12;
pub const DEPTH32_FLOAT: u32 = 13;
pub const STENCIL8: u32 = 14;

// Dimensions of textures, and of views, of which 0 is that of the texture.
pub const DIM_1D: u32 = 1;
pub const DIM_2D: u32 = 2;
pub const DIM_3D: u32 = 3;

pub const VIEW_1D: u32 = 1;
pub const VIEW_2D: u32 = 2;
pub const VIEW_2D_ARRAY: u32 = 3;
pub const VIEW_CUBE: u32 = 4;
pub const VIEW_CUBE_ARRAY: u32 = 5;
pub const VIEW_3D: u32 = 6;

// Aspects that a view or a copy takes.
pub const ASPECT_ALL: u32 = 1;
pub const ASPECT_DEPTH_ONLY: u32 = 2;
pub const ASPECT_STENCIL_ONLY: u32 = 3;

// Kinds of samplers, and what a binding asks of one.
pub const FILTERING: u32 = 1;
pub const NON_FILTERING: u32 = 2;
pub const COMPARISON: u32 = 3;

// How texels or mip levels that lie beside one another are sampled.
pub const NEAREST: u32 = 1;
pub const LINEAR: u32 = 2;

// How a value is compared with another.
pub const COMPARE_NEVER: u32 = 1;
pub const COMPARE_LESS: u32 = 2;
pub const COMPARE_EQUAL: u32 = 3;
pub const COMPARE_LESS_EQUAL: u32 = 4;
pub const COMPARE_GREATER: u32 = 5;
pub const COMPARE_NOT_EQUAL: u32 = 6;
pub const COMPARE_GREATER_EQUAL: u32 = 7;
pub const COMPARE_ALWAYS: u32 = 8;

// What a binding holds.
pub const BIND_UNIFORM: u32 = 1;
pub const BIND_STORAGE: u32 = 2;
pub const BIND_READ_ONLY_STORAGE: u32 = 3;
pub const BIND_SAMPLER: u32 = 4;
pub const BIND_TEXTURE: u32 = 5;
pub const BIND_STORAGE_TEXTURE: u32 = 6;

pub const SAMPLE_FLOAT: u32 = 1;
pub const SAMPLE_UNFILTERABLE_FLOAT: u32 = 2;
pub const SAMPLE_DEPTH: u32 = 3;
pub const SAMPLE_SINT: u32 = 4;
pub const SAMPLE_UINT: u32 = 5;

pub const ACCESS_READ_ONLY: u32 = 1;
pub const ACCESS_WRITE_ONLY: u32 = 2;
pub const ACCESS_READ_WRITE: u32 = 3;

// What an entry of a bind group binds.
pub const BOUND_BUFFER: u32 = 1;
pub const BOUND_VIEW: u32 = 2;
pub const BOUND_SAMPLER: u32 = 3;

pub const STEP_PER_VERTEX: u32 = 1;
pub const STEP_PER_INSTANCE: u32 = 2;

pub const VERTEX_UINT8X2: u32 = 1;
pub const VERTEX_UINT8X4: u32 = 2;
pub const VERTEX_UNORM8X4: u32 = 3;
pub const VERTEX_UINT16X2: u32 = 4;
pub const VERTEX_FLOAT16X2: u32 = 5;
pub const VERTEX_FLOAT32: u32 = 6;
pub const VERTEX_UINT32: u32 = 7;
pub const VERTEX_SINT32: u32 = 8;
pub const VERTEX_FLOAT16X4: u32 = 9;
pub const VERTEX_FLOAT32X2: u32 = 10;
pub const VERTEX_FLOAT32X3: u32 = 11;
pub const VERTEX_FLOAT32X4: u32 = 12;

pub const INDEX_UINT16: u32 = 1;
pub const INDEX_UINT32: u32 = 2;

// What vertices make.
pub const POINT_LIST: u32 = 1;
pub const LINE_LIST: u32 = 2;
pub const LINE_STRIP: u32 = 3;
pub const TRIANGLE_LIST: u32 = 4;
pub const TRIANGLE_STRIP: u32 = 5;

// Which faces are not drawn.
pub const CULL_NONE: u32 = 1;
pub const CULL_FRONT: u32 = 2;
pub const CULL_BACK: u32 = 3;

// How two values are blended, and by what each is multiplied before.
pub const BLEND_ADD: u32 = 1;
pub const BLEND_SUBTRACT: u32 = 2;
pub const BLEND_REVERSE_SUBTRACT: u32 = 3;
pub const BLEND_MIN: u32 = 4;
pub const BLEND_MAX: u32 = 5;

pub const FACTOR_ZERO: u32 = 1;
pub const FACTOR_ONE: u32 = 2;
pub const FACTOR_SRC: u32 = 3;
pub const FACTOR_ONE_MINUS_SRC: u32 = 4;
pub const FACTOR_SRC_ALPHA: u32 = 5;
pub const FACTOR_ONE_MINUS_SRC_ALPHA: u32 = 6;
pub const FACTOR_DST: u32 = 7;
pub const FACTOR_ONE_MINUS_DST: u32 = 8;
pub const FACTOR_DST_ALPHA: u32 = 9;
pub const FACTOR_ONE_MINUS_DST_ALPHA: u32 = 10;
pub const FACTOR_SRC_ALPHA_SATURATED: u32 = 11;
pub const FACTOR_CONSTANT: u32 = 12;
pub const FACTOR_ONE_MINUS_CONSTANT: u32 = 13;

// What becomes of a value of the stencil.
pub const STENCIL_KEEP: u32 = 1;
pub const STENCIL_ZERO: u32 = 2;
pub const STENCIL_REPLACE: u32 = 3;
pub const STENCIL_INVERT: u32 = 4;
pub const STENCIL_INCREMENT_CLAMP: u32 = 5;
pub const STENCIL_DECREMENT_CLAMP: u32 = 6;
pub const STENCIL_INCREMENT_WRAP: u32 = 7;
pub const STENCIL_DECREMENT_WRAP: u32 = 8;

/// As the `depth_write` of a pipeline, besides 0 and 1: whether it writes depth is left out.
pub const DEPTH_WRITE_LEFT_OUT: u32 = 2;

pub const LOAD: u32 = 1;
pub const CLEAR: u32 = 2;

pub const STORE: u32 = 1;
pub const STORE_DISCARD: u32 = 2;

/// Flags that are joined by `|`.
macro_rules! flags {
    ($($name:ident),*) => {$(
        impl BitOr for $name {
            type Output = Self;
            fn bitor(self, other: Self) -> Self {
                Self(self.0 | other.0)
            }
        }
        impl BitOrAssign for $name {
            fn bitor_assign(&mut self, other: Self) {
                self.0 |= other.0;
            }
        }
    )*};
}

flags!(BufferUsage, TextureUsage, Visibility, MapMode, ColorWrite);

/// Usages of a buffer: flags.
#[repr(transparent)]
#[derive(Clone, Copy, Debug, Default, PartialEq, Eq)]
pub struct BufferUsage(pub u32);

impl BufferUsage {
    pub const NONE: Self = Self(0);
    pub const MAP_READ: Self = Self(1);
    pub const MAP_WRITE: Self = Self(2);
    pub const COPY_SRC: Self = Self(4);
    pub const COPY_DST: Self = Self(8);
    pub const INDEX: Self = Self(16);
    pub const VERTEX: Self = Self(32);
    pub const UNIFORM: Self = Self(64);
    pub const STORAGE: Self = Self(128);
    pub const INDIRECT: Self = Self(256);
    pub const QUERY_RESOLVE: Self = Self(512);
}

/// Usages of a texture: flags.
#[repr(transparent)]
#[derive(Clone, Copy, Debug, Default, PartialEq, Eq)]
pub struct TextureUsage(pub u32);

impl TextureUsage {
    pub const NONE: Self = Self(0);
    pub const COPY_SRC: Self = Self(1);
    pub const COPY_DST: Self = Self(2);
    pub const TEXTURE_BINDING: Self = Self(4);
    pub const STORAGE_BINDING: Self = Self(8);
    pub const RENDER_ATTACHMENT: Self = Self(16);
}

/// To which stages a binding is visible: flags.
#[repr(transparent)]
#[derive(Clone, Copy, Debug, Default, PartialEq, Eq)]
pub struct Visibility(pub u32);

impl Visibility {
    pub const NONE: Self = Self(0);
    pub const VERTEX: Self = Self(1);
    pub const FRAGMENT: Self = Self(2);
    pub const COMPUTE: Self = Self(4);
}

/// The stage of a shader: one, and no flags. NONE is answered by an error.
#[repr(transparent)]
#[derive(Clone, Copy, Debug, Default, PartialEq, Eq)]
pub struct Stage(pub u32);

impl Stage {
    pub const NONE: Self = Self(0);
    pub const VERTEX: Self = Self(1);
    pub const FRAGMENT: Self = Self(2);
    pub const COMPUTE: Self = Self(3);
}

/// For what a buffer is mapped: flags, of which a mapAsync takes one.
#[repr(transparent)]
#[derive(Clone, Copy, Debug, Default, PartialEq, Eq)]
pub struct MapMode(pub u32);

impl MapMode {
    pub const NONE: Self = Self(0);
    pub const READ: Self = Self(1);
    pub const WRITE: Self = Self(2);
}

/// Which channels of a color target a pipeline writes: flags.
#[repr(transparent)]
#[derive(Clone, Copy, Debug, Default, PartialEq, Eq)]
pub struct ColorWrite(pub u32);

impl ColorWrite {
    pub const NONE: Self = Self(0);
    pub const RED: Self = Self(1);
    pub const GREEN: Self = Self(2);
    pub const BLUE: Self = Self(4);
    pub const ALPHA: Self = Self(8);
    pub const ALL: Self = Self(15);
}

/// A limit that is asked for, by its name `MAX_..` or `MIN_..`.
#[repr(C)]
#[derive(Clone, Copy, Debug, Default)]
pub struct Limit {
    pub name: u32,
    pub value: u64,
}

/// How large a texture or a copy is. `depth` stands for array layers too.
#[repr(C)]
#[derive(Clone, Copy, Debug)]
pub struct Extent {
    pub width: u32,
    pub height: u32,
    pub depth: u32,
}

/// Where in a texture a copy begins. `z` is the slice, or the array layer.
#[repr(C)]
#[derive(Clone, Copy, Debug, Default)]
pub struct Origin {
    pub x: u32,
    pub y: u32,
    pub z: u32,
}

/// What createBuffer takes.
#[repr(C)]
#[derive(Clone, Copy, Debug, Default)]
pub struct BufferDesc {
    pub size: u64,
    pub usage: BufferUsage,
    pub mapped: u32,
}

/// What createTexture takes.
#[repr(C)]
#[derive(Clone, Copy, Debug)]
pub struct TextureDesc {
    pub size: Extent,
    pub usage: TextureUsage,
    pub format: u32,
    pub dim: u32,
    pub mips: u32,
    pub samples: u32,
}

/// mips and layers may be NONE, and dim 0.
#[repr(C)]
#[derive(Clone, Copy, Debug)]
pub struct ViewDesc {
    pub mips: u64,
    pub layers: u64,
    pub dim: u32,
    pub aspect: u32,
    pub base_mip: u32,
    pub base_layer: u32,
}

/// A sampler. The filters and `compare` may be 0: nearest, and a sampler that does not compare. The levels of detail are fixed numbers, over [`FIXED_ONE`]. A sampler compares where `compare` is given, else filters where a filter is linear, and else does not.
#[repr(C)]
#[derive(Clone, Copy, Debug)]
pub struct SamplerDesc {
    pub lod_min: u64,
    pub lod_max: u64,
    pub mag_filter: u32,
    pub min_filter: u32,
    pub mipmap_filter: u32,
    pub compare: u32,
    pub max_anisotropy: u32,
}

/// What a binding holds. Of the fields only those of its kind are looked at.
#[repr(C)]
#[derive(Clone, Copy, Debug)]
pub struct Binding {
    pub min_size: u64,
    pub kind: u32,
    pub dynamic: u32,
    pub sampler: u32,
    pub sample: u32,
    pub dim: u32,
    pub multi: u32,
    pub access: u32,
    pub format: u32,
}

/// An entry of a bind group layout.
#[repr(C)]
#[derive(Clone, Copy, Debug, Default)]
pub struct LayoutEntry {
    pub binding: u32,
    pub visibility: Visibility,
    pub holds: Binding,
}

/// What a shader of a stage uses of a group.
#[repr(C)]
#[derive(Clone, Copy, Debug, Default)]
pub struct IfaceEntry {
    pub group: u32,
    pub binding: u32,
    pub stage: Stage,
    pub holds: Binding,
}

/// Of a buffer offset and size count, and size may be NONE.
#[repr(C)]
#[derive(Clone, Copy, Debug)]
pub struct GroupEntry {
    pub object: u64,
    pub offset: u64,
    pub size: u64,
    pub binding: u32,
    pub bound: u32,
}

/// A vertex buffer that a render pipeline reads. step may be 0: the slot is left out, has no attributes, and nothing else is looked at.
#[repr(C)]
#[derive(Clone, Copy, Debug)]
pub struct VertexBuffer {
    pub stride: u32,
    pub step: u32,
}

/// An attribute of the vertex buffer with the index `buffer` in its list. Those of one buffer stand in order.
#[repr(C)]
#[derive(Clone, Copy, Debug, Default)]
pub struct VertexAttribute {
    pub buffer: u32,
    pub format: u32,
    pub offset: u32,
    pub location: u32,
}

/// How the colors of a target are blended, or its alphas. Each may be 0: add, one, and zero.
#[repr(C)]
#[derive(Clone, Copy, Debug, Default)]
pub struct Blend {
    pub operation: u32,
    pub src_factor: u32,
    pub dst_factor: u32,
}

/// A color target of a pipeline. format may be 0: the slot is left out, and nothing else is looked at. Where the flag `blends` is 1 the target has a blend, of `color` and `alpha`.
#[repr(C)]
#[derive(Clone, Copy, Debug)]
pub struct Target {
    pub format: u32,
    pub write_mask: ColorWrite,
    pub blends: u32,
    pub color: Blend,
    pub alpha: Blend,
}

/// What a pipeline does with the stencil where it draws a front, or a back. Each may be 0: always, and keep.
#[repr(C)]
#[derive(Clone, Copy, Debug, Default)]
pub struct StencilFace {
    pub compare: u32,
    pub fail_op: u32,
    pub depth_fail_op: u32,
    pub pass_op: u32,
}

/// layout may be NONE: the pipeline derives its layout itself. depth_format may be 0: there is no depth and no stencil, and nothing else of them is looked at. depth_write is a flag or [`DEPTH_WRITE_LEFT_OUT`], and depth_compare may be 0, which leaves it out. Where the flag stencil_write is 1 it is told alone that stencil is written, and its mask and its faces are not looked at. topology, strip_index_format and cull_mode may be 0: a list of triangles, no format, and nothing is culled.
#[repr(C)]
#[derive(Clone, Copy, Debug)]
pub struct RenderDesc {
    pub layout: u64,
    pub samples: u32,
    pub depth_format: u32,
    pub depth_write: u32,
    pub stencil_write: u32,
    pub depth_compare: u32,
    pub biased: u32,
    pub stencil_write_mask: u32,
    pub stencil_front: StencilFace,
    pub stencil_back: StencilFace,
    pub topology: u32,
    pub strip_index_format: u32,
    pub cull_mode: u32,
    pub alpha_to_coverage: u32,
}

/// To what a bundle draws, beside its colors. depth_format may be 0.
#[repr(C)]
#[derive(Clone, Copy, Debug)]
pub struct BundleDesc {
    pub samples: u32,
    pub depth_format: u32,
    pub depth_read_only: u32,
    pub stencil_read_only: u32,
}

/// A color attachment. view may be NONE: the slot is left out, and nothing else is looked at. depth_slice and resolve may be NONE.
#[repr(C)]
#[derive(Clone, Copy, Debug)]
pub struct Color {
    pub view: u64,
    pub depth_slice: u64,
    pub resolve: u64,
    pub load: u32,
    pub store: u32,
}

/// The depth and stencil attachment. view may be NONE: there is none, and nothing else is looked at. The load and store operations may be 0. depth_clear, to which depth is cleared, is a fixed number, over [`FIXED_ONE`], and may be NONE, with which depth cannot be cleared.
#[repr(C)]
#[derive(Clone, Copy, Debug)]
pub struct Depth {
    pub view: u64,
    pub depth_load: u32,
    pub depth_store: u32,
    pub depth_read_only: u32,
    pub stencil_load: u32,
    pub stencil_store: u32,
    pub stencil_read_only: u32,
    pub depth_clear: u64,
}

/// A viewport. It has no floats: each number stands for itself over [`FIXED_ONE`]. It begins `x` to the right of the left edge of what is
/// attached, or where `left` is 1 to the left of it, and so `y` downwards, or where `above` is 1 upwards.
#[repr(C)]
#[derive(Clone, Copy, Debug)]
pub struct Viewport {
    pub x: u64,
    pub y: u64,
    pub width: u64,
    pub height: u64,
    pub min_depth: u64,
    pub max_depth: u64,
    pub left: u32,
    pub above: u32,
}

/// How texels lie in bytes. bytes_per_row and rows_per_image may be NONE.
#[repr(C)]
#[derive(Clone, Copy, Debug)]
pub struct TexelLayout {
    pub offset: u64,
    pub bytes_per_row: u64,
    pub rows_per_image: u64,
}

/// Where in a texture a copy begins.
#[repr(C)]
#[derive(Clone, Copy, Debug)]
pub struct Spot {
    pub texture: u64,
    pub origin: Origin,
    pub mip: u32,
    pub aspect: u32,
}

/// A copy of bytes.
#[repr(C)]
#[derive(Clone, Copy, Debug)]
pub struct BufferCopy {
    pub source: u64,
    pub source_offset: u64,
    pub target: u64,
    pub target_offset: u64,
    pub size: u64,
}

/// A copy between a buffer and a texture, in either direction.
#[repr(C)]
#[derive(Clone, Copy, Debug)]
pub struct TexelCopy {
    pub buffer: u64,
    pub layout: TexelLayout,
    pub spot: Spot,
    pub size: Extent,
}

/// A copy of all aspects between textures.
#[repr(C)]
#[derive(Clone, Copy, Debug)]
pub struct TextureCopy {
    pub source: u64,
    pub target: u64,
    pub source_origin: Origin,
    pub target_origin: Origin,
    pub source_mip: u32,
    pub target_mip: u32,
    pub size: Extent,
}

/// A write of texels, from data_size bytes of data.
#[repr(C)]
#[derive(Clone, Copy, Debug, Default)]
pub struct TextureWrite {
    pub layout: TexelLayout,
    pub spot: Spot,
    pub size: Extent,
    pub data_size: u64,
}
