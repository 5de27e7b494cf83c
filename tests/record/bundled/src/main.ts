import { draw, vertices } from './frame';

async function main(): Promise<void> {
  const adapter = await navigator.gpu.requestAdapter();
  const device: GPUDevice = await adapter!.requestDevice();
  const canvas = document.querySelectorAll('canvas')[0];
  const context = canvas.getContext('webgpu')!;
  context.configure({ device, format: 'rgba8unorm' });
  const corners = vertices(device);
  const next = (): void => {
    draw(device, context, corners);
    requestAnimationFrame(next);
  };
  requestAnimationFrame(next);
}

main();
