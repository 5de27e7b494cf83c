// Canvases. The texture of one is its own up to the end of the update of the page in which it was asked for; there it is presented.

const contexts = new WeakMap();        // of a context: its recording, its name, how it is configured, and its texture
const current = new Set();             // those that have a texture; `frame` is the update in which it was asked for, or null outside of one
const expected = new Set();            // what the page wants to be called for in the next update
let frame = -1, isInFrame = false;

function present(canvas) {
  canvas.recording.write({ do: 'present', canvas: canvas.name }, null).implied = true;
  canvas.texture = null;
  current.delete(canvas);
  canvas.recording.updates = 0;
  if (++canvas.recording.frames >= asked.frames) canvas.recording.end(`${asked.frames} frames`);
}
function made(canvas, width, height, place) {
  Object.assign(canvas, { width, height, name: canvas.recording.fresh('w') });
  canvas.recording.write({ do: 'createCanvas', width, height, as: canvas.name }, place).implied = true;
}

function configure(context, was, args) {
  const described = args[0], recording = recordingOf(described && described.device), act = () => was.apply(context, args);
  if (!recording || recording.ended) return act();
  const answer = {}, result = recording.watch(answer, act), place = here, { width, height } = context.canvas;
  let canvas = contexts.get(context);
  if (canvas && canvas.texture) present(canvas);
  if (!canvas || canvas.recording !== recording) contexts.set(context, canvas = { recording, name: null });
  recording.leftNow = [];
  if (described.viewFormats && [...described.viewFormats].some(word => word !== described.format)) recording.leave('canvas.viewFormats');
  leaveBut(recording, 'canvas', described, ['device', 'format', 'usage', 'viewFormats']);
  Object.assign(canvas, { format: described.format, usage: described.usage === undefined ? 16 : int(described.usage), isOutside: !TABLES.canvasFormats.includes(described.format) });
  if (canvas.isOutside) recording.passed.push({ before: recording.calls.length, do: 'configure', outside: 'canvas format', detail: described.format, place, told: answer });
  else configured(canvas, width, height, place, answer);
  return result;
}
function configured(canvas, width, height, place, answer) {
  if (!canvas.name || canvas.width !== width || canvas.height !== height) made(canvas, width, height, place);
  if (canvas.recording.leftNow.length) answer.left = canvas.recording.leftNow;
  canvas.recording.write({ do: 'configureCanvas', canvas: canvas.name, format: canvas.format, usage: canvas.usage }, place, answer);
}

function currentTexture(context, was, args) {
  const canvas = contexts.get(context), act = () => was.apply(context, args);
  if (!canvas || canvas.recording.ended) return act();
  const { recording } = canvas, answer = {}, texture = recording.watch(answer, act), place = here;
  if (texture === canvas.texture) return texture;
  if (canvas.texture) present(canvas);
  if (canvas.isOutside) { known.set(texture, { recording, outside: new Outside('canvas format') }); return texture; }
  recording.leftNow = [];
  if (canvas.width !== texture.width || canvas.height !== texture.height) configured(canvas, texture.width, texture.height, place, { implied: true });
  const as = recording.fresh('t');
  recording.write({ do: 'currentTexture', canvas: canvas.name, as }, place, answer);
  known.set(texture, { recording, name: as, sort: 'texture', format: canvas.format });
  Object.assign(canvas, { texture, frame: isInFrame ? frame : null });
  current.add(canvas);
  if (!isInFrame) expectUpdate(canvas, texture);
  return texture;
}
// Asked for outside of an update, as by a timer: it is presented by the next one.
function expectUpdate(canvas, texture) {
  nextFrame(time => {
    if (canvas.texture !== texture) return;
    canvas.frame = time;
    later(() => { if (canvas.texture === texture) present(canvas); });
  });
}

const nextFrame = globalThis.requestAnimationFrame ? globalThis.requestAnimationFrame.bind(globalThis) : act => setTimeout(() => act(performance.now()), 16);
const channel = new MessageChannel(), tasks = [];
channel.port1.onmessage = () => tasks.shift()();
const later = task => { tasks.push(task); channel.port2.postMessage(0); };
// What was asked for in an update before this one is presented.
function expire(now) {
  for (const canvas of current) if (canvas.texture && canvas.frame !== null && canvas.frame !== now) present(canvas);
}

// A page that presents nothing, as one that keeps the texture of a canvas, has its updates counted in which it queued something.
function countUpdate() {
  for (const recording of recordings) {
    if (recording.hasQueued && ++recording.updates >= asked.frames) recording.end(`${asked.frames} frames`);
    recording.hasQueued = false;
  }
}

// An update has begun. The task at its end may come after the next one has begun, so that this looks too.
function update(time) {
  expire(time);
  if (isInFrame) countUpdate();
  else for (const recording of recordings) recording.hasQueued = false;
  frame = time;
  isInFrame = true;
  later(() => {
    const isOver = frame === time;
    if (isOver) isInFrame = false;
    expire(isInFrame ? frame : -1);
    if (isOver) countUpdate();
  });
}

function wrapCanvases() {
  globalThis.requestAnimationFrame = act => {
    const number = nextFrame(time => {
      expected.delete(number);
      if (time !== frame) update(time);
      return act(time);
    });
    expected.add(number);
    return number;
  };
  const cancel = globalThis.cancelAnimationFrame && globalThis.cancelAnimationFrame.bind(globalThis);
  if (cancel) globalThis.cancelAnimationFrame = number => { expected.delete(number); cancel(number); };
  wrap('GPUCanvasContext', 'configure', function (was, args) { return configure(this, was, args); });
  wrap('GPUCanvasContext', 'getCurrentTexture', function (was, args) { return currentTexture(this, was, args); });
  wrap('GPUCanvasContext', 'unconfigure', function (was, args) {
    const canvas = contexts.get(this), result = was.apply(this, args);
    if (canvas && canvas.texture && !canvas.recording.ended) present(canvas);
    return result;
  });
}
