// What is recorded of a device: the calls of its script with their places in the page, and beside them what the browser answered.

const MAX_CALLS = 65536, MAX_ITEMS = 1024, MAX_BYTES = 4194304 - 262144;   // of a script, with room for the numbers of `complete`
const MAX_REPEATS = 10;                // of one error, each in another update
const NATIVE = {};                     // the browser's own functions, as 'GPUDevice.createBuffer'
const known = new WeakMap();           // of an object of WebGPU: its recording, its name, and what later calls need of it
const recordings = [];

// The page says something that no script can say; `word` is its name in outside.json.
class Outside extends Error {
  constructor(word, detail) {
    super(detail || word);
    this.word = word;
    this.detail = detail;
  }
}

const kindOf = error => error instanceof GPUValidationError ? 'validation' : error instanceof GPUOutOfMemoryError ? 'out-of-memory' : 'internal';

// The place in the page of the call that is being noted: an error, of which the stack alone is wanted, and that is put into words at the end.
// Taking a stack is most of what the recorder costs, so that it is taken in the function that the page calls, and holds few places.
const DEEPEST = 3;
let here = null;

// How many bytes a call takes in a script at most, where a unit of a label takes up to three; a list that is too long for one takes too many.
function bytesOf(call) {
  let bytes = 4;
  for (const key in call) {
    const value = call[key];
    bytes += key.length + 6;
    if (typeof value === 'number') bytes += 17;
    else if (typeof value === 'string') bytes += value.length * (key === 'label' ? 3 : 1) + 2;
    else bytes += Array.isArray(value) && value.length > MAX_ITEMS ? MAX_BYTES : JSON.stringify(value).length * 2;
  }
  return bytes;
}

class Recording {
  constructor(device, descriptor) {
    Object.assign(this, {
      device, calls: [], answers: [], places: [], passed: [], notes: [], scopes: [], errors: new Set(), promises: new Set(), counts: {}, left: new Map(), leftNow: [],
      limits: {}, ofDevice: [], ended: null, frames: 0, updates: 0, hasQueued: false, repeated: new Map(), last: performance.now(), isLost: false, isWatching: false, bytes: 0,
    });
    recordings.push(this);
    this.limited(descriptor && descriptor.requiredLimits || {});
    for (const feature of descriptor && descriptor.requiredFeatures || []) this.ofDevice.push(`feature ${feature}`);
    device.addEventListener('uncapturederror', event => {
      if (!event.isOfRecording) this.note({ stray: kindOf(event.error), message: event.error.message });
    });
    device.lost.then(info => {
      this.note({ lost: info.reason, message: info.message });
      if (!this.isLost) this.write({ do: 'lose' });
      this.isLost = true;
    });
  }

  limited(asked) {
    for (const [name, value] of Object.entries(asked)) {
      if (value === undefined) continue;
      const limit = TABLES.limits[name];
      const isBetter = limit && (limit.isAlignment ? value < limit.best : value > limit.best);
      if (!limit || isBetter) this.ofDevice.push(`limit ${name}`);
      if (limit && value !== limit.default) this.limits[name] = isBetter ? limit.best : value;
    }
  }

  fresh(letter) {
    this.counts[letter] = (this.counts[letter] || 0) + 1;
    return letter + (this.counts[letter] - 1);
  }
  note(note) { if (!this.ended) this.notes.push({ before: this.calls.length, ...note }); }
  end(why) { if (!this.ended) this.ended = { call: this.calls.length, why }; }

  // Something of the call that the script does not say.
  leave(word) {
    this.left.set(word, (this.left.get(word) || 0) + 1);
    if (!TABLES.harmless.includes(word)) this.leftNow.push(word);
  }

  // Adds a call to the script, and returns what will hold the browser's answer to it.
  write(call, place = here, answer = {}) {
    answer.do = call.do;
    this.last = performance.now();
    if (this.ended) return answer;
    this.bytes += bytesOf(call);
    if (this.calls.length >= MAX_CALLS) this.end('a script has at most 65,536 calls');
    else if (this.bytes > MAX_BYTES) this.end('a script has at most 4,194,304 bytes, and a list of it 1,024 items');
    if (this.ended) return answer;
    this.calls.push(call);
    this.answers.push(answer);
    this.places.push(place);
    return answer;
  }
  takeBack(length) { for (const list of [this.calls, this.answers, this.places]) list.length = length; }

  // Does something inside error scopes of our own; what they catch is noted, and then goes where the page would have it.
  watch(answer, act) {
    if (this.isLost) return act();
    const scopes = this.scopes.slice(), update = frame;
    answer.unanswered = true;
    for (const filter of ['internal', 'out-of-memory', 'validation']) NATIVE['GPUDevice.pushErrorScope'].call(this.device, filter);
    try { return act(); } finally {
      const popped = [0, 1, 2].map(() => NATIVE['GPUDevice.popErrorScope'].call(this.device).catch(() => null));
      const done = Promise.all(popped).then(found => {
        delete answer.unanswered;
        const error = found.find(each => each);
        if (error) this.deliver(answer, error, scopes);
        if (error) this.repeat(`${answer.do} ${answer.error}`, answer.message, update);
        this.errors.delete(done);
      });
      this.errors.add(done);
    }
  }
  // An error goes to the innermost scope that the page had open and that catches its kind, or else to the page's handlers.
  deliver(answer, error, scopes) {
    answer.error = kindOf(error);
    answer.message = error.message;
    const at = scopes.map(scope => scope.filter).lastIndexOf(answer.error);
    answer.caught = at < 0 ? 'uncaptured' : `scope ${at}`;
    if (at >= 0) { scopes[at].found.push(error); return; }
    const event = new GPUUncapturedErrorEvent('uncapturederror', { error, cancelable: true });
    event.isOfRecording = true;
    if (this.device.dispatchEvent(event)) console.warn(error.message);
  }

  // The same error in ten updates of the page: more of them tell nothing new.
  repeat(kind, message, update) {
    const key = `${kind} ${message}`, found = (this.repeated.get(key) || new Set()).add(update);
    this.repeated.set(key, found);
    if (found.size >= MAX_REPEATS) this.end(`the same error came in ${MAX_REPEATS} frames: ${String(message).split('\n')[0]}`);
  }

  // A promise of the page was settled. After the end the script has nothing that could settle it.
  settle(answer, how) { if (!this.ended) answer.settle = how; }

  // All operations before a call are done; their number is found at the end.
  completed(upto) {
    if (this.ended || this.calls.length >= MAX_CALLS) return;
    this.calls.push({ do: 'complete', upto });
    this.answers.push({ do: 'complete', implied: true });
    this.places.push(null);
  }
  // Asks when the work is done, once in each turn of the page in which it queued something.
  watchWork() {
    if (this.isWatching || this.ended || this.isLost) return;
    this.isWatching = true;
    queueMicrotask(() => {
      this.isWatching = false;
      const upto = this.calls.length;
      NATIVE['GPUQueue.onSubmittedWorkDone'].call(this.device.queue).then(() => this.completed(upto), () => {});
    });
  }

  // The calls with their numbers of operations; a mark that says nothing new is taken out. Each with its answer and its place.
  numbered() {
    const before = [], found = [];
    let operations = 0, done = 0;
    this.calls.forEach((call, n) => {
      before[n] = operations;
      const answer = this.answers[n];
      if (['submit', 'writeBuffer', 'writeTexture'].includes(call.do) && !answer.error && !answer.throws) operations++;
    });
    this.calls.forEach((call, n) => {
      let said = call;
      if (call.do === 'complete') {
        const op = before[Math.min(call.upto, n)];
        if (op <= done) return;
        done = op;
        said = { do: 'complete', op };
      }
      found.push({ n, call: said, answer: this.answers[n], place: this.places[n] });
    });
    return found;
  }
}
