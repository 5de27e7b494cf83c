'use strict';
// What the pages of these tests begin with.
async function start(descriptor) {
  const adapter = await navigator.gpu.requestAdapter();
  const device = await adapter.requestDevice(descriptor);
  device.addEventListener('uncapturederror', event => console.log(event.error.message));
  return device;
}
function configured(device, at = 0, more = {}) {
  const canvas = document.querySelectorAll('canvas')[at];
  const context = canvas.getContext('webgpu'), format = navigator.gpu.getPreferredCanvasFormat();
  context.configure({ device, format, ...more });
  return { canvas, context, format };
}
function filled(device, bytes, usage) {
  const buffer = device.createBuffer({ size: bytes.byteLength, usage, mappedAtCreation: true });
  new bytes.constructor(buffer.getMappedRange()).set(bytes);
  buffer.unmap();
  return buffer;
}
const TRIANGLE = `
@vertex fn vs(@builtin(vertex_index) i: u32) -> @builtin(position) vec4f {
  return vec4f(f32(i & 1u) * 2.0 - 1.0, f32(i >> 1u) * 2.0 - 1.0, 0.5, 1.0);
}
@fragment fn fs() -> @location(0) vec4f { return vec4f(1.0, 0.5, 0.0, 1.0); }`;
function triangle(device, format, more = {}) {
  const module = device.createShaderModule({ code: TRIANGLE });
  const layout = device.createPipelineLayout({ bindGroupLayouts: [] });
  return device.createRenderPipeline({ layout, vertex: { module }, fragment: { module, targets: [{ format }] }, ...more });
}
