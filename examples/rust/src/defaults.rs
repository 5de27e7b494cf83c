//! What descriptors begin with, as `WETHLORN_.._INIT` of the header: the objects and sizes that are left out are [`NONE`], and all else is as
//! WebGPU has it by default. So `..Default::default()` never names the object 0. Where a descriptor has no impl here, 0 is that.

use crate::values::*;

impl Default for Extent {
    fn default() -> Self {
        Self {
            width: 0,
            height: 1,
            depth: 1,
        }
    }
}

impl Default for TextureDesc {
    fn default() -> Self {
        Self {
            size: Extent::default(),
            usage: TextureUsage::NONE,
            format: 0,
            dim: DIM_2D,
            mips: 1,
            samples: 1,
        }
    }
}

impl Default for ViewDesc {
    fn default() -> Self {
        Self {
            mips: NONE,
            layers: NONE,
            dim: 0,
            aspect: ASPECT_ALL,
            base_mip: 0,
            base_layer: 0,
        }
    }
}

impl Default for SamplerDesc {
    fn default() -> Self {
        Self {
            lod_min: 0,
            lod_max: LOD_MAX,
            mag_filter: 0,
            min_filter: 0,
            mipmap_filter: 0,
            compare: 0,
            max_anisotropy: 1,
        }
    }
}

impl Default for Binding {
    fn default() -> Self {
        Self {
            min_size: 0,
            kind: 0,
            dynamic: 0,
            sampler: FILTERING,
            sample: SAMPLE_FLOAT,
            dim: VIEW_2D,
            multi: 0,
            access: ACCESS_WRITE_ONLY,
            format: 0,
        }
    }
}

impl Default for GroupEntry {
    fn default() -> Self {
        Self {
            object: NONE,
            offset: 0,
            size: NONE,
            binding: 0,
            bound: 0,
        }
    }
}

impl Default for VertexBuffer {
    fn default() -> Self {
        Self {
            stride: 0,
            step: STEP_PER_VERTEX,
        }
    }
}

impl Default for Target {
    fn default() -> Self {
        Self {
            format: 0,
            write_mask: ColorWrite::ALL,
            blends: 0,
            color: Blend::default(),
            alpha: Blend::default(),
        }
    }
}

impl Default for RenderDesc {
    fn default() -> Self {
        Self {
            layout: NONE,
            samples: 1,
            depth_format: 0,
            depth_write: DEPTH_WRITE_LEFT_OUT,
            stencil_write: 0,
            depth_compare: 0,
            biased: 0,
            stencil_write_mask: ALL_BITS,
            stencil_front: StencilFace::default(),
            stencil_back: StencilFace::default(),
            topology: 0,
            strip_index_format: 0,
            cull_mode: 0,
            alpha_to_coverage: 0,
        }
    }
}

impl Default for BundleDesc {
    fn default() -> Self {
        Self {
            samples: 1,
            depth_format: 0,
            depth_read_only: 0,
            stencil_read_only: 0,
        }
    }
}

impl Default for Color {
    fn default() -> Self {
        Self {
            view: NONE,
            depth_slice: NONE,
            resolve: NONE,
            load: 0,
            store: 0,
        }
    }
}

impl Default for Depth {
    fn default() -> Self {
        Self {
            view: NONE,
            depth_load: 0,
            depth_store: 0,
            depth_read_only: 0,
            stencil_load: 0,
            stencil_store: 0,
            stencil_read_only: 0,
            depth_clear: NONE,
        }
    }
}

impl Default for Viewport {
    fn default() -> Self {
        Self {
            x: 0,
            y: 0,
            width: 0,
            height: 0,
            min_depth: 0,
            max_depth: FIXED_ONE,
            left: 0,
            above: 0,
        }
    }
}

impl Default for TexelLayout {
    fn default() -> Self {
        Self {
            offset: 0,
            bytes_per_row: NONE,
            rows_per_image: NONE,
        }
    }
}

impl Default for Spot {
    fn default() -> Self {
        Self {
            texture: NONE,
            origin: Origin::default(),
            mip: 0,
            aspect: ASPECT_ALL,
        }
    }
}

impl Default for BufferCopy {
    fn default() -> Self {
        Self {
            source: NONE,
            source_offset: 0,
            target: NONE,
            target_offset: 0,
            size: 0,
        }
    }
}

impl Default for TexelCopy {
    fn default() -> Self {
        Self {
            buffer: NONE,
            layout: TexelLayout::default(),
            spot: Spot::default(),
            size: Extent::default(),
        }
    }
}

impl Default for TextureCopy {
    fn default() -> Self {
        Self {
            source: NONE,
            target: NONE,
            source_origin: Origin::default(),
            target_origin: Origin::default(),
            source_mip: 0,
            target_mip: 0,
            size: Extent::default(),
        }
    }
}
