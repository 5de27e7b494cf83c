// What each call of WebGPU is in a script. Each takes the recording, what the call is made on, and its arguments, and returns
//   call      the call of the script, but for its name
//   as, kept  the letter of the name of what is made, and what is remembered of that
//   modules   the shader modules of a pipeline
//   ends      the encoder or pass that it ends;  queues, loses: it queues an operation, or loses the device
//   promise   how its promise is settled where all is well;  isAsync: what it makes comes by a promise

const TEXEL_BYTES = { r8unorm: 1, rg8unorm: 2, rgba16float: 8, rgba32float: 16 };
const ENCODERS = ['GPUCommandEncoder', 'GPUComputePassEncoder', 'GPURenderPassEncoder', 'GPURenderBundleEncoder'];

// What a call sets at a slot of a pass or a bundle. Where it is outside, what is drawn by it is outside too.
function setting(recording, on, slot, make) {
  const { marks } = of(recording, on);
  try {
    const call = make();
    marks.delete(slot);
    return { call: slim(call) };
  } catch (error) {
    if (error instanceof Outside) marks.set(slot, error);
    throw error;
  }
}
function drawing(recording, on, call) {
  const { marks, name } = of(recording, on);
  for (const outside of marks.values()) throw outside;
  return { call: { do: call.do, on: name, ...call } };
}

const MAKING = {
  'GPUDevice.createBuffer': (recording, on, { size, usage, mappedAtCreation }) => (
    { as: 'b', kept: { sort: 'buffer', size }, call: { do: 'createBuffer', size: int(size), usage: int(usage), mapped: mappedAtCreation ? true : undefined } }),
  'GPUDevice.createTexture'(recording, on, described) {
    const { size, usage, format: word, dimension, mipLevelCount, sampleCount, viewFormats } = described;
    leaveBut(recording, 'texture', described, ['size', 'usage', 'format', 'dimension', 'mipLevelCount', 'sampleCount', 'viewFormats']);
    if (viewFormats && [...viewFormats].some(other => other !== word)) recording.leave('texture.viewFormats');
    const call = { do: 'createTexture', size: extent(size), usage: int(usage), format: format(word), dim: dimension, mips: optional(mipLevelCount), samples: optional(sampleCount) };
    return { as: 't', kept: { sort: 'texture', format: word }, call };
  },
  'GPUTexture.createView'(recording, on, described = {}) {
    const { dimension, aspect, baseMipLevel, mipLevelCount, baseArrayLayer, arrayLayerCount } = described, { name, format: word } = of(recording, on);
    if (described.format !== undefined && described.format !== word && !(aspect && aspect !== 'all')) throw new Outside('view.format', `a view of the format ${described.format}`);
    leaveBut(recording, 'view', described, ['format', 'dimension', 'aspect', 'baseMipLevel', 'mipLevelCount', 'baseArrayLayer', 'arrayLayerCount']);
    const levels = { baseMip: optional(baseMipLevel), mips: optional(mipLevelCount), baseLayer: optional(baseArrayLayer), layers: optional(arrayLayerCount) };
    return { as: 'v', kept: { sort: 'view' }, call: { do: 'createView', texture: name, dim: dimension, aspect, ...levels } };
  },
  'GPUDevice.createSampler': (recording, on, described) => (
    { as: 's', kept: { sort: 'sampler' }, call: { do: 'createSampler', ...sampler(recording, described || {}) } }),
  'GPUDevice.createBindGroupLayout'(recording, on, described) {
    const entries = [...described.entries].map(entry => layoutEntry(recording, entry));
    return { as: 'l', kept: { entries }, call: { do: 'createBindGroupLayout', entries } };
  },
  'GPUDevice.createPipelineLayout'(recording, on, described) {
    const list = [...described.bindGroupLayouts], layouts = list.map(layout => layout ? of(recording, layout).entries : []);
    leaveBut(recording, 'pipelineLayout', described, ['bindGroupLayouts']);
    return { as: 'y', kept: { layouts }, call: { do: 'createPipelineLayout', layouts: list.map(layout => nameOrNull(recording, layout)) } };
  },
  'GPUDevice.createBindGroup': (recording, on, { layout, entries }) => (
    { as: 'g', call: { do: 'createBindGroup', layout: nameOf(recording, layout), entries: [...entries].map(entry => groupEntry(recording, entry)) } }),
  'GPUDevice.createComputePipeline': (recording, on, described) => computePipeline(recording, described),
  'GPUDevice.createRenderPipeline': (recording, on, described) => renderPipeline(recording, described),
  'GPUDevice.createComputePipelineAsync': (recording, on, described) => ({ ...computePipeline(recording, described), isAsync: true }),
  'GPUDevice.createRenderPipelineAsync': (recording, on, described) => ({ ...renderPipeline(recording, described), isAsync: true }),
  'GPUComputePipeline.getBindGroupLayout': (recording, on, index) => derivedLayout(recording, on, index),
  'GPURenderPipeline.getBindGroupLayout': (recording, on, index) => derivedLayout(recording, on, index),
  'GPUDevice.createQuerySet'(recording, on, { type, count }) {
    if (type !== 'occlusion') throw new Outside('query set', `a query set of the type ${type}`);
    return { as: 'q', call: { do: 'createQuerySet', count: int(count) } };
  },
  'GPUDevice.createCommandEncoder': () => ({ as: 'e', kept: { isEncoder: true }, call: { do: 'createEncoder' } }),
  'GPUDevice.createRenderBundleEncoder'(recording, on, described) {
    const { colorFormats, depthStencilFormat, sampleCount, depthReadOnly, stencilReadOnly } = described;
    const depth = depthStencilFormat ? format(depthStencilFormat) : undefined, colors = [...colorFormats].map(word => word ? format(word) : null);
    const more = { samples: optional(sampleCount), depthReadOnly: depthReadOnly ? true : undefined, stencilReadOnly: stencilReadOnly ? true : undefined };
    return { as: 'n', kept: { isEncoder: true, marks: new Map() }, call: { do: 'createBundleEncoder', colors, depth, ...more } };
  },
};
function derivedLayout(recording, on, given) {
  const index = int(given), { name, layouts } = of(recording, on);
  return { as: 'l', kept: { entries: layouts && layouts[index] || [] }, call: { do: 'getBindGroupLayout', pipeline: name, index } };
}

const QUEUE = {
  'GPUQueue.submit'(recording, on, list) {
    const isSaid = each => !(known.get(each) || {}).outside;
    return { queues: true, call: { do: 'submit', buffers: [...list].filter(isSaid).map(each => nameOf(recording, each)) } };
  },
  'GPUQueue.writeBuffer'(recording, on, buffer, offset, data, from, size) {
    const each = ArrayBuffer.isView(data) && data.BYTES_PER_ELEMENT || 1;
    const bytes = size === undefined ? data.byteLength - int(from || 0) * each : int(size) * each;
    return { queues: true, call: { do: 'writeBuffer', buffer: nameOf(recording, buffer), offset: int(offset), size: bytes } };
  },
  'GPUQueue.writeTexture': (recording, on, to, data, layout, size) => (
    { queues: true, call: { do: 'writeTexture', ...spot(recording, to), size: extent(size), ...rows(layout), dataSize: data.byteLength } }),
  // Stands for the write that it is: of the source nothing is said.
  'GPUQueue.copyExternalImageToTexture'(recording, on, from, to, size) {
    const whole = extent(size), each = TEXEL_BYTES[of(recording, to.texture).format] || 4;
    recording.leave('copyExternalImageToTexture');
    const data = { bytesPerRow: whole[0] * each, rowsPerImage: whole[1], dataSize: whole[0] * whole[1] * whole[2] * each };
    return { queues: true, standsFor: 'copyExternalImageToTexture', call: { do: 'writeTexture', ...spot(recording, to), size: whole, ...data } };
  },
  'GPUQueue.onSubmittedWorkDone': () => ({ promise: 'done', call: { do: 'workDone' } }),
  'GPUBuffer.mapAsync': (recording, on, mode, offset, size) => (
    { promise: 'mapped', call: { do: 'mapAsync', buffer: nameOf(recording, on), mode: int(mode), offset: optional(offset), size: optional(size) } }),
  'GPUBuffer.unmap': (recording, on) => ({ call: { do: 'unmap', buffer: nameOf(recording, on) } }),
  'GPUBuffer.destroy': (recording, on) => ({ call: { do: 'destroy', object: nameOf(recording, on) } }),
  'GPUTexture.destroy': (recording, on) => ({ call: { do: 'destroy', object: nameOf(recording, on) } }),
  'GPUQuerySet.destroy': (recording, on) => ({ call: { do: 'destroy', object: nameOf(recording, on) } }),
  'GPUDevice.destroy': () => ({ loses: true, call: { do: 'lose' } }),
};

const RECORDING = {
  'GPUCommandEncoder.finish': (recording, on) => ({ as: 'c', ends: on, call: { do: 'finish', on: nameOf(recording, on) } }),
  'GPURenderBundleEncoder.finish': (recording, on) => ({ as: 'm', ends: on, call: { do: 'finishBundle', on: nameOf(recording, on) } }),
  'GPUCommandEncoder.beginComputePass'(recording, on, described) {
    leaveBut(recording, 'computePass', described, []);
    return { as: 'p', kept: { parent: on, marks: new Map() }, call: { do: 'beginComputePass', on: nameOf(recording, on) } };
  },
  'GPUCommandEncoder.beginRenderPass': (recording, on, described) => ({ as: 'p', kept: { parent: on, marks: new Map() }, call: renderPass(recording, on, described) }),
  'GPUCommandEncoder.copyBufferToBuffer'(recording, on, source, ...rest) {
    const [sourceOffset, target, targetOffset, size] = known.has(rest[0]) ? [0, rest[0], 0, rest[1]] : rest;
    const whole = size === undefined ? Math.max(0, source.size - int(sourceOffset)) : int(size), offsets = { sourceOffset: int(sourceOffset), targetOffset: int(targetOffset) };
    return { call: { do: 'copyBufferToBuffer', on: nameOf(recording, on), source: nameOf(recording, source), target: nameOf(recording, target), ...offsets, size: whole } };
  },
  'GPUCommandEncoder.copyBufferToTexture': (recording, on, from, to, size) => (
    { call: { do: 'copyBufferToTexture', on: nameOf(recording, on), buffer: nameOf(recording, from.buffer), ...rows(from), ...spot(recording, to), size: extent(size) } }),
  'GPUCommandEncoder.copyTextureToBuffer': (recording, on, from, to, size) => (
    { call: { do: 'copyTextureToBuffer', on: nameOf(recording, on), buffer: nameOf(recording, to.buffer), ...rows(to), ...spot(recording, from), size: extent(size) } }),
  'GPUCommandEncoder.copyTextureToTexture'(recording, on, from, to, size) {
    if ([from, to].some(({ aspect }) => aspect && aspect !== 'all')) throw new Outside('copy of an aspect');
    const one = spot(recording, from), other = spot(recording, to), source = { source: one.texture, sourceMip: one.mip, sourceOrigin: one.origin };
    return { call: { do: 'copyTextureToTexture', on: nameOf(recording, on), ...source, target: other.texture, targetMip: other.mip, targetOrigin: other.origin, size: extent(size) } };
  },
  'GPUCommandEncoder.clearBuffer': (recording, on, buffer, offset, size) => (
    { call: { do: 'clearBuffer', on: nameOf(recording, on), buffer: nameOf(recording, buffer), offset: optional(offset), size: optional(size) } }),
  'GPUCommandEncoder.resolveQuerySet': (recording, on, queries, first, count, buffer, offset) => (
    { call: { do: 'resolveQuerySet', on: nameOf(recording, on), queries: nameOf(recording, queries), first: int(first), count: int(count), buffer: nameOf(recording, buffer), offset: int(offset) } }),
  '*.pushDebugGroup': (recording, on, given) => ({ call: { do: 'pushDebugGroup', on: nameOf(recording, on), label: label(given) } }),
  '*.popDebugGroup': (recording, on) => ({ call: { do: 'popDebugGroup', on: nameOf(recording, on) } }),
  '*.insertDebugMarker': (recording, on, given) => ({ call: { do: 'insertDebugMarker', on: nameOf(recording, on), label: label(given) } }),
  '*.end': (recording, on) => ({ ends: on, call: { do: 'end', on: nameOf(recording, on) } }),
};

const DRAWING = {
  '*.setPipeline': (recording, on, pipeline) => setting(recording, on, 'pipeline', () => (
    { do: 'setPipeline', on: nameOf(recording, on), pipeline: nameOf(recording, pipeline) })),
  '*.setBindGroup'(recording, on, index, group, offsets, start, count) {
    const list = offsets === undefined ? [] : [...offsets], given = start !== undefined && ArrayBuffer.isView(offsets) ? list.slice(start, start + count) : list;
    return setting(recording, on, `group ${index}`, () => (
      { do: 'setBindGroup', on: nameOf(recording, on), index: int(index), group: nameOrNull(recording, group), offsets: given.length ? given.map(int) : undefined }));
  },
  '*.setVertexBuffer': (recording, on, slot, buffer, offset, size) => setting(recording, on, `slot ${slot}`, () => (
    { do: 'setVertexBuffer', on: nameOf(recording, on), slot: int(slot), buffer: nameOrNull(recording, buffer), offset: optional(offset), size: optional(size) })),
  '*.setIndexBuffer': (recording, on, buffer, word, offset, size) => setting(recording, on, 'index', () => (
    { do: 'setIndexBuffer', on: nameOf(recording, on), buffer: nameOf(recording, buffer), format: word, offset: optional(offset), size: optional(size) })),
  '*.setViewport': (recording, on, ...numbers) => ({ call: { do: 'setViewport', on: nameOf(recording, on), ...viewport(...numbers) } }),
  '*.setScissorRect': (recording, on, x, y, width, height) => (
    { call: { do: 'setScissorRect', on: nameOf(recording, on), x: int(x), y: int(y), width: int(width), height: int(height) } }),
  '*.setBlendConstant': (recording, on) => ({ call: { do: 'setBlendConstant', on: nameOf(recording, on) } }),
  '*.setStencilReference': (recording, on, reference) => ({ call: { do: 'setStencilReference', on: nameOf(recording, on), reference: int(reference) } }),
  '*.dispatchWorkgroups': (recording, on, x, y, z) => drawing(recording, on, { do: 'dispatch', x: int(x), y: optional(y), z: optional(z) }),
  '*.dispatchWorkgroupsIndirect': (recording, on, buffer, offset) => drawing(recording, on, { do: 'dispatchIndirect', buffer: nameOf(recording, buffer), offset: int(offset) }),
  '*.draw': (recording, on, vertices, instances, first, firstInstance) => (
    drawing(recording, on, { do: 'draw', vertices: int(vertices), instances: optional(instances), firstVertex: optional(first), firstInstance: optional(firstInstance) })),
  // A number below 0 is said modulo 2^32.
  '*.drawIndexed'(recording, on, indices, instances, first, base, firstInstance) {
    const more = { firstInstance: optional(firstInstance), baseVertex: base === undefined ? undefined : int(base) >>> 0 };
    return drawing(recording, on, { do: 'drawIndexed', indices: int(indices), instances: optional(instances), firstIndex: optional(first), ...more });
  },
  '*.drawIndirect': (recording, on, buffer, offset) => drawing(recording, on, { do: 'drawIndirect', buffer: nameOf(recording, buffer), offset: int(offset) }),
  '*.drawIndexedIndirect': (recording, on, buffer, offset) => drawing(recording, on, { do: 'drawIndexedIndirect', buffer: nameOf(recording, buffer), offset: int(offset) }),
  '*.beginOcclusionQuery': (recording, on, index) => ({ call: { do: 'beginOcclusionQuery', on: nameOf(recording, on), index: int(index) } }),
  '*.endOcclusionQuery': (recording, on) => ({ call: { do: 'endOcclusionQuery', on: nameOf(recording, on) } }),
  '*.executeBundles'(recording, on, list) {
    const { marks, name } = of(recording, on);
    marks.clear();
    const said = [...list].filter(bundle => !(known.get(bundle) || {}).outside);
    if (said.length < [...list].length) recording.leave('bundle that is outside');
    return { call: { do: 'executeBundles', on: name, bundles: said.map(bundle => nameOf(recording, bundle)) } };
  },
};

// Calls that are passed over, each under its own name.
const PASSED = {
  '*.setImmediates': 'setImmediates', '*.writeTimestamp': 'writeTimestamp', '*.multiDrawIndirect': 'multiDrawIndirect',
  '*.multiDrawIndexedIndirect': 'multiDrawIndexedIndirect', 'GPUDevice.importExternalTexture': 'external texture',
};
const CALLS = { ...MAKING, ...QUEUE, ...RECORDING, ...DRAWING };
for (const [key, word] of Object.entries(PASSED)) CALLS[key] = () => { throw new Outside(word); };
