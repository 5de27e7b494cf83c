// Plays a page under the recorder, with a WebGPU that does nothing and refuses nothing, and writes what was recorded.
//
//     node null.js RECORDER PAGE.html [FRAMES]
//
// It refuses everything with a message while the page has put one into `refused`, and answers nothing while it has `silent`.
// So the recorder is tested where there is no browser. Of the page its scripts alone are run: those that it loads, and the module in it.
'use strict';
const fs = require('fs'), path = require('path'), vm = require('vm'), threads = require('worker_threads');

const COMMANDS = 'pushDebugGroup popDebugGroup insertDebugMarker';
const DRAWS = 'setPipeline setBindGroup setVertexBuffer setIndexBuffer draw drawIndexed drawIndirect drawIndexedIndirect';
const CLASSES = {
  GPUAdapter: 'requestDevice',
  GPUDevice: 'createBuffer createTexture createSampler createBindGroupLayout createPipelineLayout createBindGroup createComputePipeline createRenderPipeline createComputePipelineAsync '
    + 'createRenderPipelineAsync createQuerySet createCommandEncoder createRenderBundleEncoder createShaderModule pushErrorScope popErrorScope destroy',
  GPUQueue: 'submit writeBuffer writeTexture copyExternalImageToTexture onSubmittedWorkDone', GPUBuffer: 'mapAsync unmap destroy getMappedRange', GPUTexture: 'createView destroy',
  GPUComputePipeline: 'getBindGroupLayout', GPURenderPipeline: 'getBindGroupLayout', GPUQuerySet: 'destroy', GPUCanvasContext: 'configure unconfigure getCurrentTexture',
  GPUCommandEncoder: `finish beginComputePass beginRenderPass copyBufferToBuffer copyBufferToTexture copyTextureToBuffer copyTextureToTexture clearBuffer resolveQuerySet ${COMMANDS}`,
  GPUComputePassEncoder: `end setPipeline setBindGroup dispatchWorkgroups dispatchWorkgroupsIndirect ${COMMANDS}`,
  GPURenderPassEncoder: `end setViewport setScissorRect setBlendConstant setStencilReference beginOcclusionQuery endOcclusionQuery executeBundles ${DRAWS} ${COMMANDS}`,
  GPURenderBundleEncoder: `finish ${DRAWS} ${COMMANDS}`,
  GPUTextureView: '', GPUSampler: '', GPUBindGroupLayout: '', GPUPipelineLayout: '', GPUBindGroup: '', GPUShaderModule: '', GPUCommandBuffer: '', GPURenderBundle: '',
};
const MADE = {
  createCommandEncoder: 'GPUCommandEncoder', createRenderBundleEncoder: 'GPURenderBundleEncoder', createView: 'GPUTextureView', getBindGroupLayout: 'GPUBindGroupLayout',
  beginComputePass: 'GPUComputePassEncoder', beginRenderPass: 'GPURenderPassEncoder', getCurrentTexture: 'GPUTexture',
};
const BITS = {
  GPUBufferUsage: 'MAP_READ MAP_WRITE COPY_SRC COPY_DST INDEX VERTEX UNIFORM STORAGE INDIRECT QUERY_RESOLVE', GPUTextureUsage: 'COPY_SRC COPY_DST TEXTURE_BINDING STORAGE_BINDING RENDER_ATTACHMENT',
  GPUShaderStage: 'VERTEX FRAGMENT COMPUTE', GPUMapMode: 'READ WRITE',
};

const world = {
  console: { error() {}, warn() {}, log() {} }, performance, setTimeout, setInterval, clearInterval, queueMicrotask, DOMException, addEventListener() {},
  location: { href: 'http://127.0.0.1/null.html', pathname: '/null.html' }, ImageData: class {},
};
// Each update has a time of its own, however long the machine takes.
let time = 0, waiting = [];
function update() {
  const called = waiting;
  waiting = [];
  time++;
  for (const act of called) act(time);
}
world.requestAnimationFrame = act => {
  if (!waiting.length) setTimeout(update, 16);
  return waiting.push(act);
};
world.MessageChannel = class {
  constructor() {
    this.port1 = {};
    this.port2 = { postMessage: () => setImmediate(() => this.port1.onmessage()) };
  }
};

class Target {
  addEventListener() {}
  dispatchEvent() { return false; }
}
// What a call gives; of most it is a new object of the class that its name tells.
const GIVES = {
  requestDevice() {
    const device = new world.GPUDevice();
    device.queue = new world.GPUQueue();
    device.lost = new Promise(lose => { device.lose = lose; });
    return Promise.resolve(device);
  },
  destroy() { if (this.lose) this.lose({ reason: 'destroyed', message: '' }); },
  createBuffer({ size, usage }) {
    if (size < 0) throw new TypeError('a size below 0');
    return Object.assign(new world.GPUBuffer(), { size, usage });
  },
  popErrorScope: () => world.silent ? new Promise(() => {}) : Promise.resolve(world.refused ? Object.assign(new world.GPUValidationError(), { message: world.refused }) : null), onSubmittedWorkDone: () => Promise.resolve(), mapAsync: () => Promise.resolve(),
  getMappedRange() { return new ArrayBuffer(this.size); },
  getCurrentTexture() {
    const { width, height } = this.canvas;
    if (this.time !== time || this.texture.width !== width || this.texture.height !== height) Object.assign(this, { time, texture: Object.assign(new world.GPUTexture(), { width, height }) });
    return this.texture;
  },
  configure() { this.time = -1; },
};
function given(cls, method) {
  if (GIVES[method]) return GIVES[method];
  if (method === 'finish') return () => new world[cls === 'GPUCommandEncoder' ? 'GPUCommandBuffer' : 'GPURenderBundle']();
  const made = MADE[method] || method.replace(/^create/, 'GPU').replace(/Async$/, '');
  if (!/^create|^begin.*Pass$|^get/.test(method)) return () => undefined;
  return /Async$/.test(method) ? () => Promise.resolve(new world[made]()) : () => new world[made]();
}

function open() {
  for (const name of ['GPUValidationError', 'GPUOutOfMemoryError', 'GPUUncapturedErrorEvent', 'GPUExternalTexture']) world[name] = class {};
  for (const [cls, methods] of Object.entries(CLASSES)) {
    world[cls] = { [cls]: class extends Target {} }[cls];
    for (const method of methods.split(' ').filter(Boolean)) {
      const give = given(cls, method);
      world[cls].prototype[method] = { [method](...args) { return give.apply(this, args); } }[method];
    }
  }
  for (const [name, words] of Object.entries(BITS)) world[name] = Object.fromEntries(words.split(' ').map((word, at) => [word, 1 << at]));
  const canvases = [0, 1].map(() => ({ width: 64, height: 48 }));
  for (const canvas of canvases) {
    const context = Object.assign(new world.GPUCanvasContext(), { canvas });
    canvas.getContext = () => context;
  }
  world.document = { querySelectorAll: () => canvases, currentScript: null };
  world.navigator = { userAgent: 'a WebGPU that does nothing', gpu: { requestAdapter: () => Promise.resolve(new world.GPUAdapter()), getPreferredCanvasFormat: () => 'rgba8unorm' } };
  vm.createContext(world);
}

// A worker is a thread of node that runs this file too. It has no document, and begins with the script that it is given.
function workerOf(recorder, page) {
  return class {
    constructor(url) {
      this.thread = new threads.Worker(__filename, { workerData: { recorder, page, url } });
      this.thread.on('message', data => this.onmessage && this.onmessage({ data }));
      this.thread.on('error', error => process.stderr.write(`${error.stack}\n`));
    }
    postMessage(data) { this.thread.postMessage(data); }
    terminate() { this.thread.terminate(); }
  };
}
function work({ recorder, page, url }) {
  open();
  const folder = path.dirname(path.join(path.dirname(page), url)), address = `http://127.0.0.1/${url}`;
  world.WorkerGlobalScope = class { static [Symbol.hasInstance]() { return true; } };
  world.BroadcastChannel = BroadcastChannel;
  Object.assign(world, { document: undefined, location: { href: address, pathname: `/${url}` }, postMessage: data => threads.parentPort.postMessage(data) });
  world.importScripts = name => {
    const isRecorder = name === 'wgsim-record.js', file = isRecorder ? recorder : path.join(folder, name);
    vm.runInContext(fs.readFileSync(file, 'utf8'), world, { filename: isRecorder ? name : new URL(name, address).href });
  };
  threads.parentPort.on('message', data => world.onmessage && world.onmessage({ data }));
  world.importScripts(path.basename(url));
}

async function main(recorder, page, frames = 3) {
  open();
  Object.assign(world, { BroadcastChannel, Worker: workerOf(recorder, page) });
  const handed = new Promise(hand => { world.hand = hand; });
  vm.runInContext(`globalThis.wgsimRecordAsked = ${JSON.stringify({ frames: Number(frames), seconds: 30, idle: 500, hand: 'hand' })};`, world);
  vm.runInContext(fs.readFileSync(recorder, 'utf8'), world, { filename: 'wgsim-record.js' });
  const text = fs.readFileSync(page, 'utf8');
  const parts = [...text.matchAll(/<script src="([^"]+)"><\/script>/g)].map(found => found[1]);
  const lines = text.slice(0, text.indexOf('<script type="module">')).split('\n').length - 1, [, module] = /<script type="module">([^]*?)<\/script>/.exec(text) || [null, ''];
  for (const part of parts) vm.runInContext(fs.readFileSync(path.join(path.dirname(page), part), 'utf8'), world, { filename: `http://127.0.0.1/${part}` });
  const whole = `(async () => {${module}\n})()`;
  vm.runInContext(whole, world, { filename: 'http://127.0.0.1/null.html', lineOffset: lines }).catch(error => process.stderr.write(`${error.stack}\n`));
  process.stdout.write(await handed, () => process.exit(0));
}
if (threads.isMainThread) main(...process.argv.slice(2));
else work(threads.workerData);
