//! A device, which is open as long as it lives.

use crate::raw;
use crate::told::{self, Error, Item, Left, Reply, Settlement};
use crate::values::*;
use std::ops::Range;
use std::ptr;
use std::sync::atomic::{AtomicU64, Ordering};

/// The serial of the next device: no two of a process have the same.
static SERIALS: AtomicU64 = AtomicU64::new(1);

/// A device.
pub struct Device {
    raw: raw::Device,
}

/// # Safety
///
/// What lies behind the pointer belongs to the device alone, and the interface lets it be used by any thread.
unsafe impl Send for Device {}

/// # Safety
///
/// What takes a device by `&self` only records, and the interface lets many threads do so at once, each on an encoder of its own.
unsafe impl Sync for Device {}

/// An encoder or a bundle encoder, with what was recorded on it.
pub struct Encoder {
    raw: raw::Encoder,
}

/// # Safety
///
/// What lies behind the pointer belongs to the encoder alone, and the interface lets it be used by any thread, one at a time.
unsafe impl Send for Encoder {}

/// Frees what was recorded. The device does not know of it: `drop_object` lets go of the encoder's number.
impl Drop for Encoder {
    fn drop(&mut self) {
        unsafe { raw::wethlorn_close_encoder(&mut self.raw) };
    }
}

/// An encoder that a call makes, and its reply.
fn opened(call: impl FnOnce(&mut raw::Encoder, &mut raw::Reply) -> u32) -> Result<(Encoder, Reply), Error> {
    let mut encoder = Encoder {
        raw: raw::Encoder { inside: ptr::null_mut() },
    };
    let reply = told(|out| call(&mut encoder.raw, out))?;
    Ok((encoder, reply))
}

/// Arrays that a device fills.
struct Room {
    items: Vec<raw::Item>,
    uses: Vec<raw::Use>,
    accesses: Vec<raw::Access>,
}

impl Room {
    /// Room for so many of each, to begin with.
    const FIRST: usize = 64;

    fn new() -> Room {
        Room {
            items: vec![raw::Item::default(); Room::FIRST],
            uses: vec![raw::Use::default(); Room::FIRST],
            accesses: vec![raw::Access::default(); Room::FIRST],
        }
    }

    /// Has the arrays filled with the next items.
    ///
    /// # Safety
    ///
    /// As any call of the interface: no other call is made on the device meanwhile.
    unsafe fn next(&mut self, device: *mut raw::Device, counts: *mut raw::Counts) -> u32 {
        let (items, uses, accesses) = (&mut self.items, &mut self.uses, &mut self.accesses);
        raw::wethlorn_next_items(
            device,
            items.as_mut_ptr(),
            items.len(),
            uses.as_mut_ptr(),
            uses.len(),
            accesses.as_mut_ptr(),
            accesses.len(),
            counts,
        )
    }

    /// Takes room for an item that there was none for.
    fn grow(&mut self, wanted: &raw::Counts) {
        self.uses
            .resize(self.uses.len().max(wanted.uses as usize), raw::Use::default());
        self.accesses
            .resize(self.accesses.len().max(wanted.accesses as usize), raw::Access::default());
    }

    /// Adds the items that the arrays were filled with.
    fn tell(&self, counts: &raw::Counts, all: &mut Vec<Item>) {
        let (mut uses, mut accesses) = (self.uses.iter(), self.accesses.iter());
        for item in &self.items[..counts.items as usize] {
            let own_uses = uses.by_ref().take(item.uses as usize).map(told::told_use).collect();
            let own_accesses = accesses
                .by_ref()
                .take(item.accesses as usize)
                .map(told::told_access)
                .collect();
            all.push(told::item(item, own_uses, own_accesses));
        }
    }
}

/// The reply to a call, or why it was not made.
fn told(call: impl FnOnce(&mut raw::Reply) -> u32) -> Result<Reply, Error> {
    let mut out = raw::Reply::default();
    match call(&mut out) {
        told::OK => Ok(told::reply(&out)),
        status => Err(told::error(status)),
    }
}

/// Whether a command was kept, or why not.
fn recorded(status: u32) -> Result<(), Error> {
    match status {
        told::OK => Ok(()),
        status => Err(told::error(status)),
    }
}

/// The number of the pass that a command begins, where it was kept.
fn begun(call: impl FnOnce(&mut u32) -> u32) -> Result<u32, Error> {
    let mut pass = 0;
    recorded(call(&mut pass)).map(|()| pass)
}

impl Device {
    /// Opens a device whose resources may have `budget` bytes, over an adapter that supports `best` ([`DEFAULT_MAX_BUFFER_SIZE`] and the
    /// like at least, [`BEST_MAX_BUFFER_SIZE`] and the like where it does not say), with the default limits, or of those that are asked
    /// for the better of default and value.
    pub fn open(budget: u64, best: &[Limit], limits: &[Limit]) -> Result<Device, Error> {
        let mut device = Device {
            raw: raw::Device { inside: ptr::null_mut() },
        };
        let mut bad = raw::BadLimit::default();
        let serial = SERIALS.fetch_add(1, Ordering::Relaxed);
        let opened = unsafe {
            raw::wethlorn_open(
                budget,
                serial,
                best.as_ptr(),
                best.len(),
                limits.as_ptr(),
                limits.len(),
                &mut device.raw,
                &mut bad,
            )
        };
        match opened {
            told::OK => Ok(device),
            told::BAD_VALUE => Err(told::bad_limit(&bad)),
            status => Err(told::error(status)),
        }
    }

    /// A limit that the device has, by its name, as [`MAX_BUFFER_SIZE`].
    pub fn limit(&mut self, name: u32) -> Result<u64, Error> {
        let mut value = 0;
        match unsafe { raw::wethlorn_get_limit(&mut self.raw, name, &mut value) } {
            told::OK => Ok(value),
            status => Err(told::error(status)),
        }
    }

    /// The first bytes of a buffer's range that are unset, as many as stand together, or none. What a page maps for writing is zero there.
    pub fn unset_range(&mut self, buffer: u64, range: Range<u64>) -> Result<Option<Range<u64>>, Error> {
        let mut out = raw::Bytes::default();
        match unsafe { raw::wethlorn_unset_range(&mut self.raw, buffer, range.start, range.end, &mut out) } {
            told::OK => Ok(Some(out.from..out.to)),
            told::END => Ok(None),
            status => Err(told::error(status)),
        }
    }

    /// The next item of the trace that was not told, or none.
    pub fn next_item(&mut self) -> Option<Item> {
        let mut item = raw::Item::default();
        match unsafe { raw::wethlorn_next_item(&mut self.raw, &mut item) } {
            told::OK => Some(told::item(&item, self.uses(), self.accesses())),
            _ => None,
        }
    }

    /// The uses of the item that was told last.
    fn uses(&mut self) -> Vec<told::Use> {
        let mut all = Vec::new();
        let mut one = raw::Use::default();
        while unsafe { raw::wethlorn_item_use(&mut self.raw, all.len(), &mut one) } == told::OK {
            all.push(told::told_use(&one));
        }
        all
    }

    /// The accesses of the item that was told last.
    fn accesses(&mut self) -> Vec<told::Access> {
        let mut all = Vec::new();
        let mut one = raw::Access::default();
        while unsafe { raw::wethlorn_item_access(&mut self.raw, all.len(), &mut one) } == told::OK {
            all.push(told::told_access(&one));
        }
        all
    }

    /// All items of the trace that were not told. They come from the device by many in a call.
    pub fn items(&mut self) -> Vec<Item> {
        let (mut all, mut room) = (Vec::new(), Room::new());
        loop {
            let mut counts = raw::Counts::default();
            match unsafe { room.next(&mut self.raw, &mut counts) } {
                told::OK => room.tell(&counts, &mut all),
                told::NO_ROOM => room.grow(&counts),
                _ => return all,
            }
        }
    }

    /// The next promise that was settled and was not told, or none.
    pub fn next_settlement(&mut self) -> Option<Settlement> {
        let mut settled = raw::Settlement::default();
        match unsafe { raw::wethlorn_next_settlement(&mut self.raw, &mut settled) } {
            told::OK => Some(told::settlement(&settled)),
            _ => None,
        }
    }

    /// Makes a buffer (createBuffer).
    pub fn create_buffer(&mut self, desc: &BufferDesc) -> Result<Reply, Error> {
        told(|out| unsafe { raw::wethlorn_create_buffer(&mut self.raw, desc, out) })
    }

    /// Makes a texture (createTexture).
    pub fn create_texture(&mut self, desc: &TextureDesc) -> Result<Reply, Error> {
        told(|out| unsafe { raw::wethlorn_create_texture(&mut self.raw, desc, out) })
    }

    /// Makes a view of a texture (createView).
    pub fn create_view(&mut self, texture: u64, desc: &ViewDesc) -> Result<Reply, Error> {
        told(|out| unsafe { raw::wethlorn_create_view(&mut self.raw, texture, desc, out) })
    }

    /// Makes a sampler of a kind (createSampler), of which no more is told.
    pub fn create_sampler(&mut self, kind: u32) -> Result<Reply, Error> {
        told(|out| unsafe { raw::wethlorn_create_sampler(&mut self.raw, kind, out) })
    }

    /// Makes a sampler by what describes it (createSampler), of which its kind is derived.
    pub fn create_described_sampler(&mut self, desc: &SamplerDesc) -> Result<Reply, Error> {
        told(|out| unsafe { raw::wethlorn_create_described_sampler(&mut self.raw, desc, out) })
    }

    /// Makes a bind group layout (createBindGroupLayout).
    pub fn create_bind_group_layout(&mut self, entries: &[LayoutEntry]) -> Result<Reply, Error> {
        told(|out| unsafe { raw::wethlorn_create_bind_group_layout(&mut self.raw, entries.as_ptr(), entries.len(), out) })
    }

    /// Makes a pipeline layout of bind group layouts (createPipelineLayout), of which each may be NONE, which is null.
    pub fn create_pipeline_layout(&mut self, layouts: &[u64]) -> Result<Reply, Error> {
        told(|out| unsafe { raw::wethlorn_create_pipeline_layout(&mut self.raw, layouts.as_ptr(), layouts.len(), out) })
    }

    /// Makes a bind group (createBindGroup).
    pub fn create_bind_group(&mut self, layout: u64, entries: &[GroupEntry]) -> Result<Reply, Error> {
        told(|out| unsafe { raw::wethlorn_create_bind_group(&mut self.raw, layout, entries.as_ptr(), entries.len(), out) })
    }

    /// Makes a compute pipeline (createComputePipeline) whose shader uses these bindings. `layout` may be NONE: the pipeline derives its layout itself.
    pub fn create_compute_pipeline(&mut self, layout: u64, iface: &[IfaceEntry]) -> Result<Reply, Error> {
        told(|out| unsafe { raw::wethlorn_create_compute_pipeline(&mut self.raw, layout, iface.as_ptr(), iface.len(), out) })
    }

    /// Makes a render pipeline (createRenderPipeline). `buffers` and `targets` stand by slot, and each of `attributes` has the index of its buffer: BAD_VALUE where there is none, or where that slot is left out.
    pub fn create_render_pipeline(
        &mut self,
        desc: &RenderDesc,
        iface: &[IfaceEntry],
        buffers: &[VertexBuffer],
        attributes: &[VertexAttribute],
        targets: &[Target],
    ) -> Result<Reply, Error> {
        told(|out| unsafe {
            raw::wethlorn_create_render_pipeline(
                &mut self.raw,
                desc,
                iface.as_ptr(),
                iface.len(),
                buffers.as_ptr(),
                buffers.len(),
                attributes.as_ptr(),
                attributes.len(),
                targets.as_ptr(),
                targets.len(),
                out,
            )
        })
    }

    /// Makes the bind group layout that a pipeline of either kind has for a group (getBindGroupLayout).
    pub fn get_bind_group_layout(&mut self, pipeline: u64, index: u32) -> Result<Reply, Error> {
        told(|out| unsafe { raw::wethlorn_get_bind_group_layout(&mut self.raw, pipeline, index, out) })
    }

    /// Makes a set of occlusion queries (createQuerySet).
    pub fn create_query_set(&mut self, count: u32) -> Result<Reply, Error> {
        told(|out| unsafe { raw::wethlorn_create_query_set(&mut self.raw, count, out) })
    }

    /// Makes an encoder (createCommandEncoder), which the reply gives as an object.
    pub fn create_encoder(&mut self) -> Result<(Encoder, Reply), Error> {
        opened(|encoder, out| unsafe { raw::wethlorn_create_encoder(&mut self.raw, encoder, out) })
    }

    /// Makes a bundle encoder (createRenderBundleEncoder). `colors` are formats, of which each may be 0.
    pub fn create_bundle_encoder(&mut self, desc: &BundleDesc, colors: &[u32]) -> Result<(Encoder, Reply), Error> {
        opened(|encoder, out| unsafe {
            raw::wethlorn_create_bundle_encoder(&mut self.raw, desc, colors.as_ptr(), colors.len(), encoder, out)
        })
    }

    /// Ends an encoder, and makes a command buffer of what was recorded on it (finish); or ends a bundle encoder, and makes a bundle.
    pub fn finish(&mut self, encoder: &mut Encoder) -> Result<Reply, Error> {
        told(|out| unsafe { raw::wethlorn_finish(&mut self.raw, &mut encoder.raw, out) })
    }

    /// Tells the device that a command came late on an encoder, which its recording has answered by [`Error::Late`].
    pub fn late(&mut self, encoder: &mut Encoder) -> Result<Reply, Error> {
        told(|out| unsafe { raw::wethlorn_late(&mut self.raw, &mut encoder.raw, out) })
    }


    /// Queues command buffers as one operation (submit).
    pub fn submit(&mut self, buffers: &[u64]) -> Result<Reply, Error> {
        told(|out| unsafe { raw::wethlorn_submit(&mut self.raw, buffers.as_ptr(), buffers.len(), out) })
    }

    /// Queues a write of `size` bytes of a buffer (writeBuffer). The data is no matter of this call.
    pub fn write_buffer(&mut self, buffer: u64, offset: u64, size: u64) -> Result<Reply, Error> {
        told(|out| unsafe { raw::wethlorn_write_buffer(&mut self.raw, buffer, offset, size, out) })
    }

    /// Queues a write of texels (writeTexture).
    pub fn write_texture(&mut self, write: &TextureWrite) -> Result<Reply, Error> {
        told(|out| unsafe { raw::wethlorn_write_texture(&mut self.raw, write, out) })
    }

    /// Asks for a mapping of a range of a buffer (mapAsync), which makes a promise. Each `mode` but READ and WRITE is answered by a fault. `size` may be NONE.
    pub fn map_async(&mut self, buffer: u64, mode: MapMode, offset: u64, size: u64) -> Result<Reply, Error> {
        told(|out| unsafe { raw::wethlorn_map_async(&mut self.raw, buffer, mode, offset, size, out) })
    }

    /// Ends the mapping of a buffer, or gives up the one that was asked for (unmap).
    pub fn unmap(&mut self, buffer: u64) -> Result<Reply, Error> {
        told(|out| unsafe { raw::wethlorn_unmap(&mut self.raw, buffer, out) })
    }

    /// Destroys a buffer, a texture or a query set (destroy).
    pub fn destroy(&mut self, object: u64) -> Result<Reply, Error> {
        told(|out| unsafe { raw::wethlorn_destroy(&mut self.raw, object, out) })
    }

    /// Says that the caller lets go of an object, of any kind, as by garbage collection. Its number names nothing from then on.
    pub fn drop_object(&mut self, object: u64) -> Result<Reply, Error> {
        told(|out| unsafe { raw::wethlorn_drop(&mut self.raw, object, out) })
    }

    /// Says that the operations up to `op` are complete on the GPU, which is taken as true.
    pub fn complete(&mut self, op: u64) -> Result<Reply, Error> {
        told(|out| unsafe { raw::wethlorn_complete(&mut self.raw, op, out) })
    }

    /// Makes a promise that is settled once all operations that were queued before are complete (onSubmittedWorkDone).
    pub fn work_done(&mut self) -> Result<Reply, Error> {
        told(|out| unsafe { raw::wethlorn_work_done(&mut self.raw, out) })
    }

    /// Opens an error scope (pushErrorScope).
    pub fn push_error_scope(&mut self, filter: u32) -> Result<Reply, Error> {
        told(|out| unsafe { raw::wethlorn_push_error_scope(&mut self.raw, filter, out) })
    }

    /// Closes the error scope that was opened last, and makes a promise that tells what it received first (popErrorScope).
    pub fn pop_error_scope(&mut self) -> Result<Reply, Error> {
        told(|out| unsafe { raw::wethlorn_pop_error_scope(&mut self.raw, out) })
    }

    /// The device is lost from here on (destroy of a device, or a loss).
    pub fn lose(&mut self) -> Result<Reply, Error> {
        told(|out| unsafe { raw::wethlorn_lose(&mut self.raw, out) })
    }

    /// Begins a compute pass (beginComputePass), whose number it gives.
    pub fn begin_compute_pass(&self, encoder: &mut Encoder) -> Result<u32, Error> {
        begun(|pass| unsafe { raw::wethlorn_begin_compute_pass(&self.raw, &mut encoder.raw, pass) })
    }

    /// Begins a render pass (beginRenderPass), whose number it gives. `colors` stand by slot. `queries` is the query set of its occlusion queries, or NONE. `max_draws` is how often it may draw (maxDrawCount), or NONE.
    pub fn begin_render_pass(
        &self,
        encoder: &mut Encoder,
        colors: &[Color],
        depth: &Depth,
        queries: u64,
        max_draws: u64,
    ) -> Result<u32, Error> {
        begun(|pass| unsafe {
            raw::wethlorn_begin_render_pass(
                &self.raw,
                &mut encoder.raw,
                colors.as_ptr(),
                colors.len(),
                depth,
                queries,
                max_draws,
                pass,
            )
        })
    }

    /// Ends a pass (end).
    pub fn end(&self, encoder: &mut Encoder, pass: u32) -> Result<(), Error> {
        recorded(unsafe { raw::wethlorn_end(&self.raw, &mut encoder.raw, pass) })
    }

    /// Opens a debug group of an encoder, a pass or a bundle encoder (pushDebugGroup).
    pub fn push_debug_group(&self, encoder: &mut Encoder, pass: u32) -> Result<(), Error> {
        recorded(unsafe { raw::wethlorn_push_debug_group(&self.raw, &mut encoder.raw, pass) })
    }

    /// Closes the debug group that was opened last (popDebugGroup).
    pub fn pop_debug_group(&self, encoder: &mut Encoder, pass: u32) -> Result<(), Error> {
        recorded(unsafe { raw::wethlorn_pop_debug_group(&self.raw, &mut encoder.raw, pass) })
    }

    /// Marks a place of an encoder, a pass or a bundle encoder (insertDebugMarker).
    pub fn insert_debug_marker(&self, encoder: &mut Encoder, pass: u32) -> Result<(), Error> {
        recorded(unsafe { raw::wethlorn_insert_debug_marker(&self.raw, &mut encoder.raw, pass) })
    }

    /// Records a copy of bytes (copyBufferToBuffer).
    pub fn copy_buffer_to_buffer(&self, encoder: &mut Encoder, copy: &BufferCopy) -> Result<(), Error> {
        recorded(unsafe { raw::wethlorn_copy_buffer_to_buffer(&self.raw, &mut encoder.raw, copy) })
    }

    /// Records a copy from a buffer to a texture (copyBufferToTexture).
    pub fn copy_buffer_to_texture(&self, encoder: &mut Encoder, copy: &TexelCopy) -> Result<(), Error> {
        recorded(unsafe { raw::wethlorn_copy_buffer_to_texture(&self.raw, &mut encoder.raw, copy) })
    }

    /// Records a copy from a texture to a buffer (copyTextureToBuffer).
    pub fn copy_texture_to_buffer(&self, encoder: &mut Encoder, copy: &TexelCopy) -> Result<(), Error> {
        recorded(unsafe { raw::wethlorn_copy_texture_to_buffer(&self.raw, &mut encoder.raw, copy) })
    }

    /// Records a copy between textures (copyTextureToTexture).
    pub fn copy_texture_to_texture(&self, encoder: &mut Encoder, copy: &TextureCopy) -> Result<(), Error> {
        recorded(unsafe { raw::wethlorn_copy_texture_to_texture(&self.raw, &mut encoder.raw, copy) })
    }

    /// Records that bytes of a buffer are set to zero (clearBuffer). `size` may be NONE.
    pub fn clear_buffer(&self, encoder: &mut Encoder, buffer: u64, offset: u64, size: u64) -> Result<(), Error> {
        recorded(unsafe { raw::wethlorn_clear_buffer(&self.raw, &mut encoder.raw, buffer, offset, size) })
    }

    /// Records that results of queries are written to a buffer (resolveQuerySet).
    pub fn resolve_query_set(
        &self,
        encoder: &mut Encoder,
        queries: u64,
        first: u32,
        count: u32,
        buffer: u64,
        offset: u64,
    ) -> Result<(), Error> {
        recorded(unsafe { raw::wethlorn_resolve_query_set(&self.raw, &mut encoder.raw, queries, first, count, buffer, offset) })
    }

    /// Sets the pipeline of a pass or a bundle (setPipeline).
    pub fn set_pipeline(&self, encoder: &mut Encoder, pass: u32, pipeline: u64) -> Result<(), Error> {
        recorded(unsafe { raw::wethlorn_set_pipeline(&self.raw, &mut encoder.raw, pass, pipeline) })
    }

    /// Sets a bind group of a pass or a bundle (setBindGroup), with an offset for each of its dynamic buffers. `group` may be NONE, which is
    /// null and unsets the one that is set.
    pub fn set_bind_group(&self, encoder: &mut Encoder, pass: u32, index: u32, group: u64, offsets: &[u32]) -> Result<(), Error> {
        recorded(unsafe {
            raw::wethlorn_set_bind_group(
                &self.raw,
                &mut encoder.raw,
                pass,
                index,
                group,
                offsets.as_ptr(),
                offsets.len(),
            )
        })
    }

    /// Records a dispatch (dispatchWorkgroups).
    pub fn dispatch(&self, encoder: &mut Encoder, pass: u32, x: u32, y: u32, z: u32) -> Result<(), Error> {
        recorded(unsafe { raw::wethlorn_dispatch(&self.raw, &mut encoder.raw, pass, x, y, z) })
    }

    /// Records a dispatch whose counts stand in a buffer (dispatchWorkgroupsIndirect).
    pub fn dispatch_indirect(&self, encoder: &mut Encoder, pass: u32, buffer: u64, offset: u64) -> Result<(), Error> {
        recorded(unsafe { raw::wethlorn_dispatch_indirect(&self.raw, &mut encoder.raw, pass, buffer, offset) })
    }

    /// Sets a vertex buffer (setVertexBuffer). `size` may be NONE. `buffer` may be NONE, which is null and unsets the one that is set.
    pub fn set_vertex_buffer(
        &self,
        encoder: &mut Encoder,
        pass: u32,
        slot: u32,
        buffer: u64,
        offset: u64,
        size: u64,
    ) -> Result<(), Error> {
        recorded(unsafe { raw::wethlorn_set_vertex_buffer(&self.raw, &mut encoder.raw, pass, slot, buffer, offset, size) })
    }

    /// Sets the index buffer (setIndexBuffer). `size` may be NONE.
    pub fn set_index_buffer(
        &self,
        encoder: &mut Encoder,
        pass: u32,
        buffer: u64,
        format: u32,
        offset: u64,
        size: u64,
    ) -> Result<(), Error> {
        recorded(unsafe { raw::wethlorn_set_index_buffer(&self.raw, &mut encoder.raw, pass, buffer, format, offset, size) })
    }

    /// Records a draw (draw).
    pub fn draw(
        &self,
        encoder: &mut Encoder,
        pass: u32,
        vertices: u32,
        instances: u32,
        first_vertex: u32,
        first_instance: u32,
    ) -> Result<(), Error> {
        recorded(unsafe {
            raw::wethlorn_draw(
                &self.raw,
                &mut encoder.raw,
                pass,
                vertices,
                instances,
                first_vertex,
                first_instance,
            )
        })
    }

    /// Records a draw by the index buffer (drawIndexed).
    pub fn draw_indexed(
        &self,
        encoder: &mut Encoder,
        pass: u32,
        indices: u32,
        instances: u32,
        first_index: u32,
        first_instance: u32,
    ) -> Result<(), Error> {
        recorded(unsafe {
            raw::wethlorn_draw_indexed(
                &self.raw,
                &mut encoder.raw,
                pass,
                indices,
                instances,
                first_index,
                first_instance,
            )
        })
    }

    /// Records a draw whose numbers stand in a buffer (drawIndirect).
    pub fn draw_indirect(&self, encoder: &mut Encoder, pass: u32, buffer: u64, offset: u64) -> Result<(), Error> {
        recorded(unsafe { raw::wethlorn_draw_indirect(&self.raw, &mut encoder.raw, pass, buffer, offset) })
    }

    /// Records an indexed draw whose numbers stand in a buffer (drawIndexedIndirect).
    pub fn draw_indexed_indirect(&self, encoder: &mut Encoder, pass: u32, buffer: u64, offset: u64) -> Result<(), Error> {
        recorded(unsafe { raw::wethlorn_draw_indexed_indirect(&self.raw, &mut encoder.raw, pass, buffer, offset) })
    }

    /// Sets the viewport of a render pass (setViewport).
    pub fn set_viewport(&self, encoder: &mut Encoder, pass: u32, viewport: &Viewport) -> Result<(), Error> {
        recorded(unsafe { raw::wethlorn_set_viewport(&self.raw, &mut encoder.raw, pass, viewport) })
    }

    /// Sets the scissor rectangle of a render pass (setScissorRect), in texels.
    pub fn set_scissor_rect(&self, encoder: &mut Encoder, pass: u32, x: u32, y: u32, width: u32, height: u32) -> Result<(), Error> {
        recorded(unsafe { raw::wethlorn_set_scissor_rect(&self.raw, &mut encoder.raw, pass, x, y, width, height) })
    }

    /// Sets the blend constant of a render pass (setBlendConstant). The color is no matter of this call.
    pub fn set_blend_constant(&self, encoder: &mut Encoder, pass: u32) -> Result<(), Error> {
        recorded(unsafe { raw::wethlorn_set_blend_constant(&self.raw, &mut encoder.raw, pass) })
    }

    /// Sets the stencil reference of a render pass (setStencilReference). The reference is no matter of this call.
    pub fn set_stencil_reference(&self, encoder: &mut Encoder, pass: u32) -> Result<(), Error> {
        recorded(unsafe { raw::wethlorn_set_stencil_reference(&self.raw, &mut encoder.raw, pass) })
    }

    /// Begins an occlusion query (beginOcclusionQuery).
    pub fn begin_occlusion_query(&self, encoder: &mut Encoder, pass: u32, index: u32) -> Result<(), Error> {
        recorded(unsafe { raw::wethlorn_begin_occlusion_query(&self.raw, &mut encoder.raw, pass, index) })
    }

    /// Ends the occlusion query that was begun last (endOcclusionQuery).
    pub fn end_occlusion_query(&self, encoder: &mut Encoder, pass: u32) -> Result<(), Error> {
        recorded(unsafe { raw::wethlorn_end_occlusion_query(&self.raw, &mut encoder.raw, pass) })
    }

    /// Executes bundles in a render pass, one after another (executeBundles).
    pub fn execute_bundles(&self, encoder: &mut Encoder, pass: u32, bundles: &[u64]) -> Result<(), Error> {
        recorded(unsafe { raw::wethlorn_execute_bundles(&self.raw, &mut encoder.raw, pass, bundles.as_ptr(), bundles.len()) })
    }
}

/// The version of the library, as 10,000 times the major number, 100 times the minor number, and the last number.
pub fn version() -> u32 {
    unsafe { raw::wethlorn_version() }
}

impl Device {
    /// Closes the device. How many items and settlements were not told, and are lost.
    pub fn close(mut self) -> Left {
        self.shut()
    }

    fn shut(&mut self) -> Left {
        let mut left = raw::Left::default();
        // A device that was closed, or was not opened for want of memory, is not there to be closed, and nothing of it is left.
        unsafe { raw::wethlorn_close(&mut self.raw, &mut left) };
        told::left(&left)
    }
}

/// Closes the device. Items and settlements that were not told are lost.
impl Drop for Device {
    fn drop(&mut self) {
        self.shut();
    }
}
