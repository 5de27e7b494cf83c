// Plays scripts by the browser's own WebGPU, and tells what it answered.
//
// A play is { calls, limits, scopes, uncaught }, of which the calls are as tools/wgsim/hunting/translation.py has them. It is played once with
// error scopes around each call that may make an error, so that each error is known with its call, and without the script's own scopes; and,
// where it has such (`scopes`), a second time with those alone, so that it is seen which of them catches what: `uncaught` errors are then
// waited for, which reach none. Nothing is waited for but what the script waits for, so that what is asked for stays asked for until then.
'use strict';

// How long one promise is waited for, the work of the queue, and errors that reach no scope, in milliseconds.
let LONGEST = 4000, QUEUE = 20000, STRAYS = 400;
const MOST_BYTES = 1 << 25;
const CONSTRUCTORS = { validation: 'GPUValidationError', 'out-of-memory': 'GPUOutOfMemoryError', internal: 'GPUInternalError' };

const kindOf = error => Object.keys(CONSTRUCTORS).find(kind => error instanceof globalThis[CONSTRUCTORS[kind]]) || String(error);
const thrown = error => `${error && error.name}: ${error && error.message}`;
const wait = milliseconds => new Promise(done => setTimeout(done, milliseconds));
// What a promise comes to, or the word `late` where it comes to nothing in time.
const inTime = (promise, longest = LONGEST) => {
  let timer;
  const late = new Promise(done => { timer = setTimeout(done, longest, 'late'); });
  return Promise.race([promise, late]).finally(() => clearTimeout(timer));
};
let zeros = null;
const bytes = count => new Uint8Array(zeros || (zeros = new ArrayBuffer(MOST_BYTES)), 0, count);

let adapter = null;
const spare = [];                        // devices that were used and have nothing open
const keyOf = limits => JSON.stringify(limits || {});

async function deviceFor(limits) {
  const at = spare.findIndex(each => each.key === keyOf(limits) && !each.isLost && each.uses < 50);
  if (at >= 0) return spare.splice(at, 1)[0];
  adapter = adapter || await navigator.gpu.requestAdapter();
  let device;
  try { device = await adapter.requestDevice({ requiredLimits: limits || {} }); } catch (error) {
    if (error.name !== 'OperationError' && error.name !== 'InvalidStateError') throw error;
    // An adapter gives one device in some browsers; another one is asked for.
    adapter = await navigator.gpu.requestAdapter();
    device = await adapter.requestDevice({ requiredLimits: limits || {} });
  }
  const held = { key: keyOf(limits), device, isLost: false, uses: 0, stray: null, made: [] };
  device.addEventListener('uncapturederror', event => {
    event.preventDefault();
    if (held.stray) held.stray.push({ kind: kindOf(event.error), message: event.error.message });
  });
  device.lost.then(info => {
    held.isLost = true;
    held.lost = `${info.reason}: ${info.message}`;
  });
  return held;
}

class Playing {
  // One way through the calls of a script: `isWatched` with scopes around the calls, and else with the script's own.
  constructor(held, calls, isWatched, uncaught = 0) {
    Object.assign(this, { held, device: held.device, calls, isWatched, uncaught, answers: {}, open: [], promises: {}, modules: {}, isLost: false });
    this.objects = { device: held.device, queue: held.device.queue };
    this.words = Object.fromEntries(calls.map(call => [call.n, call.do]));
    held.stray = [];
  }

  answer(n) { return this.answers[n] = this.answers[n] || {}; }

  // An argument with the objects that it names in their places; what is missing was refused before.
  value(given) {
    if (Array.isArray(given)) return given.map(each => this.value(each));
    if (given === null || typeof given !== 'object') return given;
    if (given.$ !== undefined) {
      if (!(given.$ in this.objects)) throw new Missing(given.$);
      return this.objects[given.$];
    }
    if (given.bytes !== undefined) return bytes(given.bytes);
    const made = {};
    for (const key in given) made[key] = this.value(given[key]);
    return made;
  }

  // Does something inside of scopes, and gives what they catch to whoever notes it.
  watch(filters, note, act) {
    for (const filter of filters) this.device.pushErrorScope(filter);
    try { return act(); } finally {
      for (const _ of filters) {
        this.open.push(this.device.popErrorScope().then(error => {
          if (error) note({ error: kindOf(error), message: error.message });
        }, error => note({ scope: thrown(error) })));
      }
    }
  }

  module(call) {
    const make = () => this.device.createShaderModule({ code: call.code });
    return this.isWatched ? this.watch(['validation'], told => { this.answer(call.n).shader = told.message || told.scope; }, make) : make();
  }

  make(call) {
    if (call.canvas) return { canvas: new OffscreenCanvas(...call.canvas) };
    if (call.present) return this.present(this.objects[call.present]);
    if (call.code !== undefined) this.objects.module = this.module(call);
    let on = this.value({ $: call.on });
    if (on.canvas) {
      on.context = on.context || on.canvas.getContext('webgpu');
      on = on.context;
    }
    const args = this.value(call.args), act = () => on[call.method](...args);
    return call.watch && this.isWatched ? this.watch(call.watch, told => Object.assign(this.answer(call.n), told), act) : act();
  }

  // The texture of a canvas expires; of an empty canvas no image can be made.
  present({ canvas }) {
    if (!canvas.width || !canvas.height) return;
    for (const filter of ['out-of-memory', 'validation']) this.device.pushErrorScope(filter);
    try { canvas.transferToImageBitmap().close(); } catch (error) {
      // Of a texture that could not be made no image can be, and nothing is to be told of it.
    }
    for (let n = 0; n < 2; n++) this.open.push(this.device.popErrorScope().catch(() => null));
  }

  call(call) {
    if (this.isWatched && /ErrorScope$/.test(call.do)) return;
    try {
      const made = this.make(call);
      if (call.as) this.objects[call.as] = made;
      if (call.promise) this.promise(call.n, made);
      if (call.do === 'lose') this.isLost = this.held.isLost = true;
    } catch (error) {
      this.answer(call.n)[error instanceof Missing ? 'missing' : 'throws'] = error instanceof Missing ? error.message : thrown(error);
    }
  }

  // A promise of the script. How it is settled is noted, and whether that comes twice.
  promise(n, made) {
    const answer = this.answer(n);
    answer.settled = 0;
    this.promises[n] = new Promise(done => made.then(value => {
      answer.settled++;
      answer.settle = this.words[n] === 'popErrorScope' ? value ? `error ${kindOf(value)}` : 'null' : this.words[n] === 'mapAsync' ? 'mapped' : 'done';
      if (value && value.message) answer.caught = value.message;
      done();
    }, error => {
      answer.settled++;
      answer.settle = error && error.name === 'AbortError' ? 'aborted' : 'rejected';
      answer.reason = thrown(error);
      done();
    }));
  }

  async run() {
    for (const call of this.calls) {
      if (call.do === 'complete') await inTime(this.held.isLost ? null : this.device.queue.onSubmittedWorkDone(), QUEUE);
      else this.call(call);
      for (const n of call.wait || []) {
        if (this.promises[n] && await inTime(this.promises[n]) === 'late') this.answer(n).isLate = true;
      }
    }
    if (!this.isLost && !this.held.isLost && await inTime(this.device.queue.onSubmittedWorkDone().then(() => 'done', () => 'done'), QUEUE) === 'late') this.isHung = true;
    await inTime(Promise.all(this.open));
    await inTime(Promise.all(Object.values(this.promises)));
    await wait(0);
    for (let n = 0; n < STRAYS && this.held.stray.length < this.uncaught; n += 10) await wait(10);
    const { stray } = this.held;
    this.held.stray = null;
    return { answers: this.answers, stray, ...(this.held.isLost && !this.isLost ? { lost: this.held.lost || 'it is lost' } : {}), ...(this.isHung ? { hung: true } : {}) };
  }

  // What was made is let go, and what is left open is closed, so that the device may be used again.
  async free() {
    for (const object of Object.values(this.objects)) {
      const own = object && object.canvas ? null : object;
      if (own && own !== this.device && typeof own.destroy === 'function') own.destroy();
      if (object && object.context) object.context.unconfigure();
    }
    const left = this.calls.filter(call => call.do === 'pushErrorScope').length;
    if (!this.isWatched) for (let n = 0; n < left; n++) if (await this.device.popErrorScope().then(() => false, () => true)) break;
  }
}
class Missing extends Error {}

async function one({ calls, limits, scopes, uncaught }) {
  let held;
  try { held = await deviceFor(limits); } catch (error) { return { none: thrown(error) }; }
  const first = new Playing(held, calls, true), told = await first.run();
  await first.free();
  if (!scopes || told.lost || told.hung) return over(held, told);
  if (held.isLost) held = await deviceFor(limits);
  const second = new Playing(held, calls, false, uncaught);
  told.own = await second.run();
  await second.free();
  return over(held, told);
}
function over(held, told) {
  held.uses++;
  if (held.isLost || told.hung || held.uses >= 50 || spare.length > 16) {
    if (!held.isLost) held.device.destroy();
  } else spare.push(held);
  return told;
}

// Plays several scripts at once, and returns what was answered to each. All is waited for `patience` times as long.
async function play(plays, patience = 1) {
  [LONGEST, QUEUE, STRAYS] = [4000 * patience, 20000 * patience, 400 * patience];
  return JSON.stringify(await Promise.all(plays.map(one)));
}
async function about() {
  if (!navigator.gpu) return JSON.stringify({ none: 'it has no WebGPU' });
  const found = await navigator.gpu.requestAdapter();
  if (!found) return JSON.stringify({ none: 'it has no adapter for WebGPU' });
  const { vendor, architecture, device, description } = found.info || {}, limits = {};
  for (const name in found.limits) limits[name] = found.limits[name];
  return JSON.stringify({ browser: navigator.userAgent, adapter: [vendor, architecture, device, description].filter(Boolean).join(' '), limits });
}
globalThis.wgsimPlayer = { play, about };
