// The browser's functions are put behind ones that note each call first.

function wrap(cls, method, make) {
  const proto = globalThis[cls] && globalThis[cls].prototype;
  if (!proto || !Object.prototype.hasOwnProperty.call(proto, method)) return;
  const was = NATIVE[`${cls}.${method}`] = proto[method];
  const now = { [method](...args) {
    if (recordings.some(recording => !recording.ended)) {
      const deepest = Error.stackTraceLimit;
      Error.stackTraceLimit = DEEPEST + 1;
      here = new Error();
      Error.stackTraceLimit = deepest;
    }
    return make.call(this, was, args);
  } }[method];
  Object.defineProperty(now, 'length', { value: was.length });
  proto[method] = now;
}
const recordingOf = object => (known.get(object) || {}).recording;
// The encoder of what a command is recorded on, or the bundle encoder.
const rootOf = it => it && (it.parent ? known.get(it.parent) || it : it);
const leaveAt = (root, words) => { for (const word of words) (root.left = root.left || new Set()).add(word); };

function perform(recording, on, method, act, args, make) {
  recording.leftNow = [];
  let plan = {};
  if (!recording.ended) {
    try { plan = labeled(make(recording, on, ...args), args[0]); } catch (error) { plan = { outside: error instanceof Outside ? error : new Outside('unread', String(error)) }; }
  }
  return plan.call ? recorded(recording, on, act, plan) : passedOver(recording, on, method, act, plan.outside);
}

// What makes something has the label of its descriptor, which comes first of what it is given.
function labeled(plan, described) {
  if (plan.as && Object(described) === described) plan.call.label = label(described.label);
  return plan;
}

// A call that the script does not have: after the end, or since a script cannot say it. What it makes is outside too.
function passedOver(recording, on, method, act, outside) {
  const it = known.get(on), told = {}, isCommand = it && (it.marks || it.parent || it.isEncoder);
  const place = outside && !TABLES.harmless.includes(outside.word) ? here : null;
  if (outside) {
    recording.leave(outside.word);
    if (isCommand) leaveAt(rootOf(it), recording.leftNow);
    if (place) recording.passed.push({ before: recording.calls.length, do: method, outside: outside.word, detail: outside.detail, place, told });
  }
  let result;
  try { result = isCommand || recording.ended && !recording.scopes.length ? act() : recording.watch(told, act); } catch (error) {
    if (outside) recording.note({ thrown: `${error.name}: ${error.message}`, do: method, place: here });
    throw error;
  }
  if (outside && result && typeof result.then === 'function') result.then(made => remember(made, recording, outside, on), () => {});
  else if (outside) remember(result, recording, outside, on);
  return result;
}
function remember(made, recording, outside, on) {
  if (made && typeof made === 'object') known.set(made, { recording, outside, parent: known.get(on) && known.get(on).isEncoder ? on : undefined });
}

function recorded(recording, on, act, plan) {
  const { call, as, ends, queues, promise, isAsync, loses, modules, standsFor } = plan, it = known.get(on), root = call.on === undefined ? null : rootOf(it);
  if (as) call.as = recording.fresh(as);
  slim(call);
  // A command is watched only where it comes late. All other calls make events.
  const isCommand = root && !/^finish/.test(call.do), isLate = isCommand && (it.hasEnded || root.hasEnded), place = here;
  if (root) leaveAt(root, recording.leftNow);
  // The fault of a pipeline that comes by a promise reaches no scope of the page, so that it has one of its own.
  if (isAsync) recording.write({ do: 'pushErrorScope', filter: 'validation' }, place).implied = true;
  const n = recording.calls.length, answer = recording.write(call, place), depth = recording.scopes.length;
  if (isAsync) recording.write({ do: 'popErrorScope' }, place).implied = true;
  const left = /^finish/.test(call.do) ? [...root.left || []] : isCommand ? [] : recording.leftNow;
  if (left.length) answer.left = left;
  if (modules) answer.modules = modules;
  if (standsFor) answer.standsFor = standsFor;
  let result;
  try { result = isAsync || isCommand && !isLate ? act() : recording.watch(answer, act); } catch (error) {
    thrown(recording, answer, error, n);
    throw error;
  }
  if (ends) known.get(ends).hasEnded = true;
  if (loses) recording.isLost = true;
  if (queues) {
    recording.hasQueued = true;
    recording.watchWork();
  }
  if (isAsync) return pipelineOf(recording, plan, answer, depth, result);
  if (as) known.set(result, { recording, name: call.as, ...plan.kept });
  return promise ? settled(recording, answer, promise, result, n) : result;
}

// What was refused before it was a call of the device has no place in the script.
function thrown(recording, answer, error, n) {
  answer.throws = `${error.name}: ${error.message}`;
  if (error.name !== 'TypeError' || recording.calls.length !== n + 1) return;
  recording.takeBack(n);
  recording.note({ thrown: answer.throws, do: answer.do, place: here });
}
function kept(list, promise) {
  const off = () => list.delete(promise);
  list.add(promise);
  promise.then(off, off);
  return promise;
}
function pipelineOf(recording, plan, answer, depth, result) {
  return kept(recording.promises, result.then(made => {
    known.set(made, { recording, name: plan.call.as, ...plan.kept });
    return made;
  }, error => {
    Object.assign(answer, { error: error.reason || 'validation', message: error.message, caught: `scope ${depth}` });
    throw error;
  }));
}
function settled(recording, answer, how, result, n) {
  return kept(recording.promises, result.then(value => {
    recording.settle(answer, how);
    recording.completed(n);
    return value;
  }, error => {
    recording.settle(answer, error.name === 'AbortError' ? 'aborted' : 'rejected');
    throw error;
  }));
}

function wrapCalls() {
  for (const [key, make] of Object.entries(CALLS)) {
    const [on, method] = key.split('.');
    for (const cls of on === '*' ? ENCODERS : [on]) wrap(cls, method, function (was, args) {
      const recording = recordingOf(this), act = () => was.apply(this, args);
      return recording ? perform(recording, this, method, act, args, make) : act();
    });
  }
}

// What the page waits for before it has a device.
const asking = new Set();

function wrapDevices() {
  wrap('GPU', 'requestAdapter', function (was, args) { return kept(asking, was.apply(this, args)); });
  wrap('GPUAdapter', 'requestDevice', function (was, args) {
    return kept(asking, was.apply(this, args)).then(device => {
      const recording = new Recording(device, args[0]);
      known.set(device, { recording, name: 'device' });
      known.set(device.queue, { recording, name: 'queue' });
      return device;
    });
  });
  wrap('GPUDevice', 'createShaderModule', function (was, args) {
    const recording = recordingOf(this);
    if (!recording) return was.apply(this, args);
    const told = {}, place = here, module = recording.watch(told, () => was.apply(this, args));
    known.set(module, { recording, name: 'module', code: String(args[0].code), told });
    const before = recording.calls.length;
    Promise.all([...recording.errors]).then(() => { if (told.error) recording.notes.push({ before, shader: told.error, message: told.message, place }); });
    return module;
  });
}

// The scopes of the page stand with us, so that ours around each call do not take its errors away.
function wrapScopes() {
  wrap('GPUDevice', 'pushErrorScope', function (was, args) {
    const recording = recordingOf(this);
    if (!recording || !['validation', 'out-of-memory', 'internal'].includes(args[0])) return was.apply(this, args);
    recording.write({ do: 'pushErrorScope', filter: args[0] });
    if (recording.ended && !recording.scopes.length) return was.apply(this, args);
    recording.scopes.push({ filter: args[0], found: [] });
  });
  wrap('GPUDevice', 'popErrorScope', function (was, args) {
    const recording = recordingOf(this);
    if (!recording) return was.apply(this, args);
    const answer = recording.write({ do: 'popErrorScope' });
    const told = promise => kept(recording.promises, promise.then(error => {
      recording.settle(answer, error ? `error ${kindOf(error)}` : 'null');
      return error;
    }, error => {
      recording.settle(answer, 'rejected');
      throw error;
    }));
    if (recording.isLost || recording.ended && !recording.scopes.length) return told(was.apply(this, args));
    if (!recording.scopes.length) return told(Promise.reject(new DOMException('popErrorScope called on empty error scope stack.', 'OperationError')));
    const scope = recording.scopes.pop();
    return told(Promise.all([...recording.errors]).then(() => scope.found[0] || null));
  });
}
