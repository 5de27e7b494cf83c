async function write(size) {
  const device = await (await navigator.gpu.requestAdapter()).requestDevice();
  const buffer = device.createBuffer({ size, usage: GPUBufferUsage.COPY_DST });
  device.queue.writeBuffer(buffer, 0, new Float32Array(16));
}
