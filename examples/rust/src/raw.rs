//! The functions and what they write, as `include/wethlorn.h` declares them.

use crate::values::*;
use std::ffi::c_void;

#[repr(C)]
pub struct Device {
    pub inside: *mut c_void,
}

#[repr(C)]
pub struct Encoder {
    pub inside: *mut c_void,
}

#[repr(C)]
#[derive(Clone, Copy, Default)]
pub struct Reply {
    pub entry: u64,
    pub number: u64,
    pub scope: u64,
    pub settles: u64,
    pub answer: u32,
    pub valid: u32,
    pub fault: u32,
    pub rule: u32,
    pub caught: u32,
}

#[repr(C)]
#[derive(Clone, Copy, Default)]
pub struct Settlement {
    pub promise: u64,
    pub how: u32,
    pub fault: u32,
    pub rule: u32,
}

#[repr(C)]
#[derive(Clone, Copy, Default)]
pub struct Range {
    pub object: u64,
    pub lo: u64,
    pub hi: u64,
    pub sort: u32,
    pub aspect: u32,
    pub mip: u32,
}

#[repr(C)]
#[derive(Clone, Copy, Default)]
pub struct Item {
    pub what: u32,
    pub name: u32,
    pub part: Range,
    pub from: u32,
    pub to: u32,
    pub fresh: u32,
    pub host: u32,
    pub place: u64,
    pub uses: u64,
    pub accesses: u64,
}

#[repr(C)]
#[derive(Clone, Copy, Default)]
pub struct Use {
    pub part: Range,
    pub usages: u32,
}

#[repr(C)]
#[derive(Clone, Copy, Default)]
pub struct Access {
    pub cells: Range,
    pub kind: u32,
}

#[repr(C)]
#[derive(Clone, Copy, Default)]
pub struct Left {
    pub items: u64,
    pub settlements: u64,
}

#[repr(C)]
#[derive(Clone, Copy, Default)]
pub struct Counts {
    pub items: u64,
    pub uses: u64,
    pub accesses: u64,
}

#[repr(C)]
#[derive(Clone, Copy, Default)]
pub struct Bytes {
    pub from: u64,
    pub to: u64,
}

#[repr(C)]
#[derive(Clone, Copy, Default)]
pub struct BadLimit {
    pub list: u32,
    pub place: u64,
}

extern "C" {
    pub fn wethlorn_version() -> u32;
    pub fn wethlorn_open(
        budget: u64,
        serial: u64,
        best: *const Limit,
        best_count: usize,
        limits: *const Limit,
        limits_count: usize,
        device: *mut Device,
        out: *mut BadLimit,
    ) -> u32;
    pub fn wethlorn_get_limit(device: *mut Device, name: u32, out: *mut u64) -> u32;
    pub fn wethlorn_close(device: *mut Device, out: *mut Left) -> u32;
    pub fn wethlorn_create_buffer(device: *mut Device, desc: *const BufferDesc, out: *mut Reply) -> u32;
    pub fn wethlorn_create_texture(device: *mut Device, desc: *const TextureDesc, out: *mut Reply) -> u32;
    pub fn wethlorn_create_view(device: *mut Device, texture: u64, desc: *const ViewDesc, out: *mut Reply) -> u32;
    pub fn wethlorn_create_sampler(device: *mut Device, kind: u32, out: *mut Reply) -> u32;
    pub fn wethlorn_create_described_sampler(device: *mut Device, desc: *const SamplerDesc, out: *mut Reply) -> u32;
    pub fn wethlorn_create_bind_group_layout(
        device: *mut Device,
        entries: *const LayoutEntry,
        entries_count: usize,
        out: *mut Reply,
    ) -> u32;
    pub fn wethlorn_create_pipeline_layout(
        device: *mut Device,
        layouts: *const u64,
        layouts_count: usize,
        out: *mut Reply,
    ) -> u32;
    pub fn wethlorn_create_bind_group(
        device: *mut Device,
        layout: u64,
        entries: *const GroupEntry,
        entries_count: usize,
        out: *mut Reply,
    ) -> u32;
    pub fn wethlorn_create_compute_pipeline(
        device: *mut Device,
        layout: u64,
        iface: *const IfaceEntry,
        iface_count: usize,
        out: *mut Reply,
    ) -> u32;
    pub fn wethlorn_create_render_pipeline(
        device: *mut Device,
        desc: *const RenderDesc,
        iface: *const IfaceEntry,
        iface_count: usize,
        buffers: *const VertexBuffer,
        buffers_count: usize,
        attributes: *const VertexAttribute,
        attributes_count: usize,
        targets: *const Target,
        targets_count: usize,
        out: *mut Reply,
    ) -> u32;
    pub fn wethlorn_get_bind_group_layout(device: *mut Device, pipeline: u64, index: u32, out: *mut Reply) -> u32;
    pub fn wethlorn_create_query_set(device: *mut Device, count: u32, out: *mut Reply) -> u32;
    pub fn wethlorn_create_encoder(device: *mut Device, encoder: *mut Encoder, out: *mut Reply) -> u32;
    pub fn wethlorn_create_bundle_encoder(
        device: *mut Device,
        desc: *const BundleDesc,
        colors: *const u32,
        colors_count: usize,
        encoder: *mut Encoder,
        out: *mut Reply,
    ) -> u32;
    pub fn wethlorn_finish(device: *mut Device, encoder: *mut Encoder, out: *mut Reply) -> u32;
    pub fn wethlorn_late(device: *mut Device, encoder: *mut Encoder, out: *mut Reply) -> u32;
    pub fn wethlorn_close_encoder(encoder: *mut Encoder) -> u32;
    pub fn wethlorn_submit(device: *mut Device, buffers: *const u64, buffers_count: usize, out: *mut Reply) -> u32;
    pub fn wethlorn_write_buffer(device: *mut Device, buffer: u64, offset: u64, size: u64, out: *mut Reply) -> u32;
    pub fn wethlorn_write_texture(device: *mut Device, write: *const TextureWrite, out: *mut Reply) -> u32;
    pub fn wethlorn_map_async(device: *mut Device, buffer: u64, mode: MapMode, offset: u64, size: u64, out: *mut Reply) -> u32;
    pub fn wethlorn_unmap(device: *mut Device, buffer: u64, out: *mut Reply) -> u32;
    pub fn wethlorn_destroy(device: *mut Device, object: u64, out: *mut Reply) -> u32;
    pub fn wethlorn_drop(device: *mut Device, object: u64, out: *mut Reply) -> u32;
    pub fn wethlorn_complete(device: *mut Device, op: u64, out: *mut Reply) -> u32;
    pub fn wethlorn_work_done(device: *mut Device, out: *mut Reply) -> u32;
    pub fn wethlorn_push_error_scope(device: *mut Device, filter: u32, out: *mut Reply) -> u32;
    pub fn wethlorn_pop_error_scope(device: *mut Device, out: *mut Reply) -> u32;
    pub fn wethlorn_lose(device: *mut Device, out: *mut Reply) -> u32;
    pub fn wethlorn_begin_compute_pass(device: *const Device, encoder: *mut Encoder, out: *mut u32) -> u32;
    pub fn wethlorn_begin_render_pass(
        device: *const Device,
        encoder: *mut Encoder,
        colors: *const Color,
        colors_count: usize,
        depth: *const Depth,
        queries: u64,
        max_draws: u64,
        out: *mut u32,
    ) -> u32;
    pub fn wethlorn_end(device: *const Device, encoder: *mut Encoder, pass: u32) -> u32;
    pub fn wethlorn_push_debug_group(device: *const Device, encoder: *mut Encoder, pass: u32) -> u32;
    pub fn wethlorn_pop_debug_group(device: *const Device, encoder: *mut Encoder, pass: u32) -> u32;
    pub fn wethlorn_insert_debug_marker(device: *const Device, encoder: *mut Encoder, pass: u32) -> u32;
    pub fn wethlorn_copy_buffer_to_buffer(device: *const Device, encoder: *mut Encoder, copy: *const BufferCopy) -> u32;
    pub fn wethlorn_copy_buffer_to_texture(device: *const Device, encoder: *mut Encoder, copy: *const TexelCopy) -> u32;
    pub fn wethlorn_copy_texture_to_buffer(device: *const Device, encoder: *mut Encoder, copy: *const TexelCopy) -> u32;
    pub fn wethlorn_copy_texture_to_texture(device: *const Device, encoder: *mut Encoder, copy: *const TextureCopy) -> u32;
    pub fn wethlorn_clear_buffer(device: *const Device, encoder: *mut Encoder, buffer: u64, offset: u64, size: u64) -> u32;
    pub fn wethlorn_resolve_query_set(
        device: *const Device,
        encoder: *mut Encoder,
        queries: u64,
        first: u32,
        count: u32,
        buffer: u64,
        offset: u64,
    ) -> u32;
    pub fn wethlorn_set_pipeline(device: *const Device, encoder: *mut Encoder, pass: u32, pipeline: u64) -> u32;
    pub fn wethlorn_set_bind_group(
        device: *const Device,
        encoder: *mut Encoder,
        pass: u32,
        index: u32,
        group: u64,
        offsets: *const u32,
        offsets_count: usize,
    ) -> u32;
    pub fn wethlorn_dispatch(device: *const Device, encoder: *mut Encoder, pass: u32, x: u32, y: u32, z: u32) -> u32;
    pub fn wethlorn_dispatch_indirect(
        device: *const Device,
        encoder: *mut Encoder,
        pass: u32,
        buffer: u64,
        offset: u64,
    ) -> u32;
    pub fn wethlorn_set_vertex_buffer(
        device: *const Device,
        encoder: *mut Encoder,
        pass: u32,
        slot: u32,
        buffer: u64,
        offset: u64,
        size: u64,
    ) -> u32;
    pub fn wethlorn_set_index_buffer(
        device: *const Device,
        encoder: *mut Encoder,
        pass: u32,
        buffer: u64,
        format: u32,
        offset: u64,
        size: u64,
    ) -> u32;
    pub fn wethlorn_draw(
        device: *const Device,
        encoder: *mut Encoder,
        pass: u32,
        vertices: u32,
        instances: u32,
        first_vertex: u32,
        first_instance: u32,
    ) -> u32;
    pub fn wethlorn_draw_indexed(
        device: *const Device,
        encoder: *mut Encoder,
        pass: u32,
        indices: u32,
        instances: u32,
        first_index: u32,
        first_instance: u32,
    ) -> u32;
    pub fn wethlorn_draw_indirect(device: *const Device, encoder: *mut Encoder, pass: u32, buffer: u64, offset: u64)
        -> u32;
    pub fn wethlorn_draw_indexed_indirect(
        device: *const Device,
        encoder: *mut Encoder,
        pass: u32,
        buffer: u64,
        offset: u64,
    ) -> u32;
    pub fn wethlorn_set_viewport(device: *const Device, encoder: *mut Encoder, pass: u32, viewport: *const Viewport)
        -> u32;
    pub fn wethlorn_set_scissor_rect(
        device: *const Device,
        encoder: *mut Encoder,
        pass: u32,
        x: u32,
        y: u32,
        width: u32,
        height: u32,
    ) -> u32;
    pub fn wethlorn_set_blend_constant(device: *const Device, encoder: *mut Encoder, pass: u32) -> u32;
    pub fn wethlorn_set_stencil_reference(device: *const Device, encoder: *mut Encoder, pass: u32) -> u32;
    pub fn wethlorn_begin_occlusion_query(device: *const Device, encoder: *mut Encoder, pass: u32, index: u32) -> u32;
    pub fn wethlorn_end_occlusion_query(device: *const Device, encoder: *mut Encoder, pass: u32) -> u32;
    pub fn wethlorn_execute_bundles(
        device: *const Device,
        encoder: *mut Encoder,
        pass: u32,
        bundles: *const u64,
        bundles_count: usize,
    ) -> u32;
    pub fn wethlorn_next_item(device: *mut Device, out: *mut Item) -> u32;
    pub fn wethlorn_next_items(
        device: *mut Device,
        items: *mut Item,
        items_count: usize,
        uses: *mut Use,
        uses_count: usize,
        accesses: *mut Access,
        accesses_count: usize,
        out: *mut Counts,
    ) -> u32;
    pub fn wethlorn_item_use(device: *mut Device, at: usize, out: *mut Use) -> u32;
    pub fn wethlorn_item_access(device: *mut Device, at: usize, out: *mut Access) -> u32;
    pub fn wethlorn_unset_range(device: *mut Device, buffer: u64, from: u64, to: u64, out: *mut Bytes) -> u32;
    pub fn wethlorn_next_settlement(device: *mut Device, out: *mut Settlement) -> u32;
}
