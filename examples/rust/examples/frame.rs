//! A small frame: a texture is written, drawn from into another, and read back. Prints each reply and each item of the trace.

use wethlorn::*;

/// Prints what a call answered, and what a driver has to do for it.
fn told(device: &mut Device, call: &str, reply: Reply) -> Reply {
    println!("{call}: {:?} {:?}", reply.answer, reply.fault);
    while let Some(settled) = device.next_settlement() {
        println!("    {settled:?}");
    }
    while let Some(item) = device.next_item() {
        println!("    {item:?}");
    }
    reply
}

fn number(reply: Reply) -> u64 {
    reply.object().expect("the object is valid")
}

fn texture(device: &mut Device, usage: TextureUsage) -> Result<u64, Error> {
    let size = Extent {
        width: 4,
        height: 4,
        depth: 1,
    };
    let desc = TextureDesc {
        size,
        usage,
        format: RGBA8_UNORM,
        dim: DIM_2D,
        mips: 1,
        samples: 1,
    };
    let reply = device.create_texture(&desc)?;
    Ok(number(told(device, "createTexture", reply)))
}

fn view(device: &mut Device, texture: u64) -> Result<u64, Error> {
    let desc = ViewDesc {
        mips: NONE,
        layers: NONE,
        aspect: ASPECT_ALL,
        ..ViewDesc::default()
    };
    let reply = device.create_view(texture, &desc)?;
    Ok(number(told(device, "createView", reply)))
}

/// A pipeline that samples one texture, and a bind group with that texture.
fn pipeline(device: &mut Device, sampled: u64) -> Result<(u64, u64), Error> {
    let holds = Binding {
        kind: BIND_TEXTURE,
        sample: SAMPLE_FLOAT,
        dim: VIEW_2D,
        ..Binding::default()
    };
    let iface = [IfaceEntry {
        group: 0,
        binding: 0,
        stage: Stage::FRAGMENT,
        holds,
    }];
    let desc = RenderDesc {
        layout: NONE,
        samples: 1,
        ..RenderDesc::default()
    };
    let target = Target {
        format: RGBA8_UNORM,
        ..Target::default()
    };
    let reply = device.create_render_pipeline(&desc, &iface, &[], &[], &[target])?;
    let pipeline = number(told(device, "createRenderPipeline", reply));
    let reply = device.get_bind_group_layout(pipeline, 0)?;
    let layout = number(told(device, "getBindGroupLayout", reply));
    let entry = GroupEntry {
        object: sampled,
        bound: BOUND_VIEW,
        ..GroupEntry::default()
    };
    let reply = device.create_bind_group(layout, &[entry])?;
    Ok((pipeline, number(told(device, "createBindGroup", reply))))
}

fn write(device: &mut Device, texture: u64) -> Result<(), Error> {
    let write = TextureWrite {
        layout: TexelLayout {
            offset: 0,
            bytes_per_row: 16,
            rows_per_image: NONE,
        },
        spot: Spot {
            texture,
            aspect: ASPECT_ALL,
            ..Spot::default()
        },
        size: Extent {
            width: 4,
            height: 4,
            depth: 1,
        },
        data_size: 64,
    };
    let reply = device.write_texture(&write)?;
    told(device, "writeTexture", reply);
    Ok(())
}

/// What a pass draws from here on is drawn to the upper half alone.
fn keep_to_upper_half(device: &Device, encoder: &mut Encoder, pass: u32) -> Result<(), Error> {
    let viewport = Viewport {
        width: 4 * FIXED_ONE,
        height: 2 * FIXED_ONE,
        ..Viewport::default()
    };
    device.set_viewport(encoder, pass, &viewport)?;
    device.set_scissor_rect(encoder, pass, 0, 0, 4, 2)?;
    Ok(())
}

/// Records the pass and the copy, and submits them. Gives the number of the operation.
fn draw(device: &mut Device, target: u64, color: u64, drawn: (u64, u64), read: u64) -> Result<u64, Error> {
    let (mut encoder, reply) = device.create_encoder()?;
    told(device, "createEncoder", reply);
    let color = Color {
        view: color,
        depth_slice: NONE,
        resolve: NONE,
        load: CLEAR,
        store: STORE,
    };
    let depth = Depth {
        view: NONE,
        ..Depth::default()
    };
    let pass = device.begin_render_pass(&mut encoder, &[color], &depth, NONE, NONE)?;
    keep_to_upper_half(device, &mut encoder, pass)?;
    device.set_pipeline(&mut encoder, pass, drawn.0)?;
    device.set_bind_group(&mut encoder, pass, 0, drawn.1, &[])?;
    device.draw(&mut encoder, pass, 3, 1, 0, 0)?;
    device.end(&mut encoder, pass)?;
    let copy = TexelCopy {
        buffer: read,
        layout: TexelLayout {
            offset: 0,
            bytes_per_row: 256,
            rows_per_image: NONE,
        },
        spot: Spot {
            texture: target,
            aspect: ASPECT_ALL,
            ..Spot::default()
        },
        size: Extent {
            width: 4,
            height: 4,
            depth: 1,
        },
    };
    device.copy_texture_to_buffer(&mut encoder, &copy)?;
    let reply = device.finish(&mut encoder)?;
    let commands = number(told(device, "finish", reply));
    let reply = device.submit(&[commands])?;
    match told(device, "submit", reply).answer {
        Answer::Queued(operation) => Ok(operation),
        other => panic!("the submit was answered {other:?}"),
    }
}

fn main() -> Result<(), Error> {
    let mut device = Device::open(1_000_000, &[], &[])?;
    let source = texture(&mut device, TextureUsage::TEXTURE_BINDING | TextureUsage::COPY_DST)?;
    let target = texture(&mut device, TextureUsage::RENDER_ATTACHMENT | TextureUsage::COPY_SRC)?;
    let sampled = view(&mut device, source)?;
    let color = view(&mut device, target)?;
    let reply = device.create_buffer(&BufferDesc {
        size: 1024,
        usage: BufferUsage::MAP_READ | BufferUsage::COPY_DST,
        mapped: 0,
    })?;
    let read = number(told(&mut device, "createBuffer", reply));
    let drawn = pipeline(&mut device, sampled)?;
    write(&mut device, source)?;
    let operation = draw(&mut device, target, color, drawn, read)?;
    let reply = device.map_async(read, MapMode::READ, 0, NONE)?;
    told(&mut device, "mapAsync", reply);
    let reply = device.complete(operation)?;
    told(&mut device, "complete", reply);
    Ok(())
}
