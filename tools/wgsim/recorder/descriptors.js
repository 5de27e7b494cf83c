// Of what the page describes things by, the keys of a script; what these cannot say is left out and noted, or is outside.

// ---- what Web IDL makes of values, as far as it matters here ----
const int = value => Math.trunc(Number(value));
const optional = value => value === undefined ? undefined : int(value);
// A fixed number stands for itself over 65536. A page's float is said by the nearest one, of two by the even one, and what is past all of them
// by the greatest.
const ONE = 65536, MOST_FIXED = 2 ** 53 - 1;
function fixed(value) {
  const exact = Math.abs(Math.fround(value)) * ONE, whole = Math.floor(exact), rest = exact - whole;
  return Math.min(rest > 0.5 || rest === 0.5 && whole % 2 ? whole + 1 : whole, MOST_FIXED);
}
// One that is out of its range below 0 is so above it.
const sized = value => Math.fround(value) < 0 ? MOST_FIXED : fixed(value);
const optionalFixed = value => value === undefined ? undefined : fixed(value);
// A number of 16 bits that Web IDL clamps: what is no number is 0, and of two as near it is the even one.
function clamped(value) {
  const most = Math.min(Math.max(Number(value) || 0, 0), 65535), whole = Math.floor(most), rest = most - whole;
  return rest > 0.5 || rest === 0.5 && whole % 2 ? whole + 1 : whole;
}
// Members under the keys that a script has for them, those that are not given left out.
function members(object, ...keys) {
  return slim(Object.fromEntries(keys.map(key => [key, object[key]])));
}
const isList = value => Symbol.iterator in Object(value);
function extent(size) {
  const list = isList(size) ? [...size] : [size.width, size.height, size.depthOrArrayLayers];
  return [0, 1, 2].map(at => list[at] === undefined ? 1 : int(list[at]));
}
function origin(place) {
  if (place === undefined) return undefined;
  const list = isList(place) ? [...place] : [place.x, place.y, place.z];
  return [0, 1, 2].map(at => list[at] === undefined ? 0 : int(list[at]));
}
// What a script may have of a label: as many bytes in UTF-8 as it may, up to the end of a character, with a space for each that may not stand
// in one. An empty one says nothing. Half a pair of surrogates is what Web IDL makes of it.
function label(given) {
  let said = '', bytes = 0;
  for (const letter of given === undefined ? '' : String(given)) {
    const code = letter.codePointAt(0);
    bytes += code < 0x80 ? 1 : code < 0x800 ? 2 : code < 0x10000 ? 3 : 4;
    if (bytes > TABLES.mostLabel) break;
    said += code < 32 || code === 127 ? ' ' : code >= 0xd800 && code < 0xe000 ? '\ufffd' : letter;
  }
  return said || undefined;
}
// A call without the keys that were not given.
function slim(call) {
  for (const key in call) if (call[key] === undefined) delete call[key];
  return call;
}

// ---- objects ----
function of(recording, object) {
  const it = known.get(object);
  if (!it) throw new Outside('unknown object');
  if (it.outside) throw it.outside;
  if (it.recording !== recording) throw new Outside('another device');
  return it;
}
const nameOf = (recording, object) => of(recording, object).name;
const nameOrNull = (recording, object) => object ? nameOf(recording, object) : null;

// ---- words ----
function format(word) {
  if (!TABLES.formats.includes(word)) throw new Outside('format', `the format ${word}`);
  return word;
}
function attributeFormat(word) {
  if (!TABLES.attributes.includes(word)) throw new Outside('vertex format', `the vertex format ${word}`);
  return word;
}
// Members that were given, of those that a script does not say, and all that are not `said`. One that has its default says nothing.
function leaveBut(recording, where, object, said) {
  for (const key in object || {}) {
    const value = object[key];
    const isGiven = value !== undefined && value !== null && value !== '' && value !== TABLES.defaults[`${where}.${key}`];
    if (key !== 'label' && !said.includes(key) && isGiven) recording.leave(`${where}.${key}`);
  }
}

// ---- bindings ----
function layoutEntry(recording, entry) {
  const at = { binding: int(entry.binding), visibility: int(entry.visibility) };
  const { buffer, sampler, texture, storageTexture } = entry;
  if (buffer) {
    const more = { dynamic: buffer.hasDynamicOffset ? true : undefined, minSize: buffer.minBindingSize ? int(buffer.minBindingSize) : undefined };
    return slim({ ...at, kind: buffer.type || 'uniform', ...more });
  }
  if (sampler) return { ...at, kind: 'sampler', type: sampler.type || 'filtering' };
  if (texture) return { ...at, kind: 'texture', sample: texture.sampleType || 'float', dim: texture.viewDimension || '2d', multi: !!texture.multisampled };
  if (!storageTexture) throw new Outside(entry.externalTexture ? 'external texture' : 'layout entry', 'an entry of a layout of another kind');
  const dim = storageTexture.viewDimension || '2d';
  return { ...at, kind: 'storage-texture', access: storageTexture.access || 'write-only', format: format(storageTexture.format), dim };
}

// Where a view is asked for, a texture may stand; a script has views alone, so that one is made of it, once.
function view(recording, object) {
  const it = of(recording, object);
  if (it.sort !== 'texture') return it.name;
  if (!it.whole) {
    it.whole = recording.fresh('v');
    recording.write({ do: 'createView', texture: it.name, as: it.whole }).implied = true;
  }
  return it.whole;
}

function groupEntry(recording, entry) {
  const { resource } = entry, binding = int(entry.binding), it = known.get(resource);
  if (typeof GPUExternalTexture !== 'undefined' && resource instanceof GPUExternalTexture) throw new Outside('external texture');
  if (!it) return slim({ binding, buffer: nameOf(recording, resource.buffer), offset: optional(resource.offset), size: optional(resource.size) });
  if (it.sort === 'buffer') return { binding, buffer: nameOf(recording, resource) };
  if (it.sort === 'sampler') return { binding, sampler: nameOf(recording, resource) };
  return { binding, view: view(recording, resource) };
}

// ---- samplers ----
const FILTERS = ['magFilter', 'minFilter', 'mipmapFilter'], ADDRESSES = ['addressModeU', 'addressModeV', 'addressModeW'];
// What describes a sampler. One without members is said by a filter, since a call without any key says another sampler. Both levels of detail
// are to be 0 or more, and where one is below, that is said by levels that are out of order.
function sampler(recording, described) {
  const { lodMinClamp, lodMaxClamp, maxAnisotropy } = described;
  const isBelow = [lodMinClamp, lodMaxClamp].some(level => level !== undefined && Math.fround(level) < 0);
  const least = isBelow ? ONE : optionalFixed(lodMinClamp), greatest = isBelow ? 0 : optionalFixed(lodMaxClamp);
  leaveBut(recording, 'sampler', described, [...FILTERS, 'compare', 'lodMinClamp', 'lodMaxClamp', 'maxAnisotropy', ...ADDRESSES]);
  const numbers = { lodMinClamp: least, lodMaxClamp: greatest, maxAnisotropy: maxAnisotropy === undefined ? undefined : clamped(maxAnisotropy) };
  const said = slim({ ...members(described, ...FILTERS, 'compare'), ...numbers, ...members(described, ...ADDRESSES) });
  return Object.keys(said).length ? said : { magFilter: 'nearest' };
}

// ---- pipelines ----
// What the entry point of a stage uses. WGSL does not tell all words of layouts apart; of these it takes the layout's, or those of the layout
// that is derived.
function interfaceOf(recording, stage, described, layouts) {
  const module = of(recording, described.module);
  leaveBut(recording, 'stage', described, ['module', 'entryPoint', 'buffers', 'targets']);
  let entries;
  try {
    module.read = module.read || WGSL.read(module.code);
    entries = WGSL.entry(module.read, stage, described.entryPoint);
  } catch (error) {
    if (error instanceof WGSL.Missed) throw new Outside('shader text', `${error.message}, at ${error.at} of the text of the shader`);
    throw error;
  }
  return entries.map(({ sampled, ...entry }) => {
    if (entry.kind === 'external-texture') throw new Outside('external texture');
    if (entry.format !== undefined) format(entry.format);
    const { group, binding, ...kind } = entry, place = stage === 'compute' ? { group, binding } : { group, binding, stage };
    return { ...place, ...worded(kind, sampled, layouts && (layouts[group] || []).find(each => each.binding === binding), !layouts) };
  });
}
function worded(kind, isSampled, wanted, isDerived) {
  if (wanted && wanted.kind === kind.kind) {
    if (/float$/.test(kind.sample || '') && /float$/.test(wanted.sample || '')) kind.sample = wanted.sample;
    if (kind.type === 'filtering' && wanted.type === 'non-filtering') kind.type = wanted.type;
    if (kind.access === 'write-only' && wanted.access === 'read-write') kind.access = wanted.access;
  } else if (isDerived && kind.sample === 'float' && !isSampled) kind.sample = 'unfilterable-float';
  return kind;
}
// A derived layout can be filtered where one of the two stages samples it.
function joined(entries) {
  const isSame = (one, other) => one.group === other.group && one.binding === other.binding && other.sample === 'float';
  for (const entry of entries) if (entry.sample === 'unfilterable-float' && !entry.multi && entries.some(other => isSame(entry, other))) entry.sample = 'float';
  return entries;
}

const layoutOf = (recording, layout) => layout === 'auto' ? { layout, layouts: null } : { layout: nameOf(recording, layout), layouts: of(recording, layout).layouts };

function computePipeline(recording, described) {
  const { layout, layouts } = layoutOf(recording, described.layout), module = known.get(described.compute.module);
  const iface = interfaceOf(recording, 'compute', described.compute, layouts);
  leaveBut(recording, 'computePipeline', described, ['layout', 'compute']);
  return { as: 'k', kept: { layouts }, modules: [module], call: { do: 'createComputePipeline', layout, iface } };
}

function renderPipeline(recording, described) {
  const { layout, layouts } = layoutOf(recording, described.layout), { vertex, fragment, depthStencil, primitive, multisample } = described;
  const iface = interfaceOf(recording, 'vertex', vertex, layouts).concat(fragment ? interfaceOf(recording, 'fragment', fragment, layouts) : []);
  const call = { do: 'createRenderPipeline', layout, iface: layouts ? iface : joined(iface) };
  call.buffers = [...vertex.buffers || []].map(vertexBuffer);
  call.targets = [...fragment && fragment.targets || []].map(target => target ? targetOf(recording, target) : null);
  if (depthStencil) call.depth = depthState(recording, depthStencil);
  Object.assign(call, primitiveOf(recording, primitive), samplesOf(recording, multisample));
  leaveBut(recording, 'renderPipeline', described, ['layout', 'vertex', 'fragment', 'depthStencil', 'primitive', 'multisample']);
  return { as: 'r', kept: { layouts }, modules: [vertex, fragment].filter(Boolean).map(stage => known.get(stage.module)), call };
}
function vertexBuffer(buffer) {
  if (!buffer) return null;
  const attributes = [...buffer.attributes].map(({ format: word, offset, shaderLocation }) => ({ format: attributeFormat(word), offset: int(offset), location: int(shaderLocation) }));
  return { stride: int(buffer.arrayStride), step: buffer.stepMode || 'vertex', attributes };
}
// A target of which nothing but the format is given is said by that.
function targetOf(recording, target) {
  const word = format(target.format), { blend, writeMask } = target;
  leaveBut(recording, 'target', target, ['format', 'blend', 'writeMask']);
  if (!blend && writeMask === undefined) return word;
  const said = blend ? { color: blended(blend.color), alpha: blended(blend.alpha) } : undefined;
  return slim({ format: word, blend: said, writeMask: optional(writeMask) });
}
function blended(component) {
  const said = members(component, 'operation', 'srcFactor', 'dstFactor'), factors = [said.srcFactor, said.dstFactor];
  const missing = factors.find(factor => factor !== undefined && !TABLES.factors.includes(factor));
  if (missing !== undefined) throw new Outside('blend factor', `the blend factor ${missing}`);
  return said;
}
const OF_DEPTH = ['format', 'depthWriteEnabled', 'depthCompare', 'depthBias', 'depthBiasSlopeScale', 'depthBiasClamp'];
const OF_STENCIL = ['stencilFront', 'stencilBack', 'stencilReadMask', 'stencilWriteMask'];
// What of depth is left out, and may be where nothing hangs on it, is said by a word.
function depthState(recording, state) {
  const { depthWriteEnabled, depthCompare = 'none', stencilFront, stencilBack, stencilReadMask, stencilWriteMask } = state;
  const biases = [int(state.depthBias || 0), Math.fround(state.depthBiasSlopeScale || 0), Math.fround(state.depthBiasClamp || 0)];
  leaveBut(recording, 'depthStencil', state, [...OF_DEPTH, ...OF_STENCIL]);
  return slim({
    format: format(state.format), depthWrite: depthWriteEnabled === undefined ? 'none' : !!depthWriteEnabled, depthCompare,
    stencilFront: faceOf(stencilFront), stencilBack: faceOf(stencilBack),
    stencilReadMask: optional(stencilReadMask), stencilWriteMask: optional(stencilWriteMask),
    bias: biases.some(bias => bias !== 0) ? true : undefined,
  });
}
const faceOf = face => face ? members(face, 'compare', 'failOp', 'depthFailOp', 'passOp') : undefined;
function primitiveOf(recording, primitive) {
  const keys = ['topology', 'stripIndexFormat', 'frontFace', 'cullMode'], said = members(primitive || {}, ...keys);
  leaveBut(recording, 'primitive', primitive, keys);
  return Object.keys(said).length ? { primitive: said } : {};
}
function samplesOf(recording, multisample) {
  const { count, mask, alphaToCoverageEnabled } = multisample || {};
  leaveBut(recording, 'multisample', multisample, ['count', 'mask', 'alphaToCoverageEnabled']);
  return slim({ samples: optional(count), mask: optional(mask), alphaToCoverage: alphaToCoverageEnabled ? true : undefined });
}

// ---- passes ----
// Where a viewport begins to the left of what is attached, or above it, that is said beside the number.
function viewport(x, y, width, height, minDepth, maxDepth) {
  const at = { x: fixed(x), y: fixed(y) }, depths = { minDepth: sized(minDepth), maxDepth: sized(maxDepth) };
  const left = x < 0 && at.x > 0 ? true : undefined, above = y < 0 && at.y > 0 ? true : undefined;
  return slim({ x: at.x, left, y: at.y, above, width: sized(width), height: sized(height), ...depths });
}
function renderPass(recording, on, described) {
  leaveBut(recording, 'renderPass', described, ['colorAttachments', 'depthStencilAttachment', 'occlusionQuerySet', 'maxDrawCount']);
  const call = { do: 'beginRenderPass', on: nameOf(recording, on) }, { depthStencilAttachment, occlusionQuerySet } = described;
  call.colors = [...described.colorAttachments].map(color => color ? colorOf(recording, color) : null);
  if (depthStencilAttachment) call.depth = depthOf(recording, depthStencilAttachment);
  if (occlusionQuerySet) call.queries = nameOf(recording, occlusionQuerySet);
  if (described.maxDrawCount !== undefined) call.maxDrawCount = int(described.maxDrawCount);
  return call;
}
function colorOf(recording, color) {
  // No rule hangs on the color that is cleared to, and no script has it.
  leaveBut(recording, 'colorAttachment', color, ['view', 'depthSlice', 'resolveTarget', 'loadOp', 'storeOp', 'clearValue']);
  const resolve = color.resolveTarget ? view(recording, color.resolveTarget) : undefined;
  return slim({ view: view(recording, color.view), depthSlice: optional(color.depthSlice), resolve, load: color.loadOp, store: color.storeOp });
}
function depthOf(recording, depth) {
  const said = ['view', 'depthLoadOp', 'depthStoreOp', 'depthReadOnly', 'stencilLoadOp', 'stencilStoreOp', 'stencilReadOnly'];
  leaveBut(recording, 'depthStencilAttachment', depth, [...said, 'depthClearValue', 'stencilClearValue']);
  // What depth is cleared to has to be given where it is cleared.
  const { depthClearValue } = depth, missing = depth.depthLoadOp === 'clear' ? 'none' : undefined;
  return slim({
    view: view(recording, depth.view), depthLoad: depth.depthLoadOp, depthStore: depth.depthStoreOp, depthReadOnly: depth.depthReadOnly ? true : undefined,
    stencilLoad: depth.stencilLoadOp, stencilStore: depth.stencilStoreOp, stencilReadOnly: depth.stencilReadOnly ? true : undefined,
    depthClearValue: depthClearValue === undefined ? missing : sized(depthClearValue), stencilClearValue: optional(depth.stencilClearValue),
  });
}

// ---- copies ----
const spot = (recording, { texture, mipLevel, origin: place, aspect }) => ({ texture: nameOf(recording, texture), mip: optional(mipLevel), origin: origin(place), aspect });
const rows = ({ offset, bytesPerRow, rowsPerImage }) => ({ offset: optional(offset), bytesPerRow: optional(bytesPerRow), rowsPerImage: optional(rowsPerImage) });
