// Workers. The recorder of a worker is one of its own, since no object of WebGPU goes from one thread to another: it tells the page's recorder
// through a channel how far it is, and hands over what it recorded when it is asked to.

const isWorker = typeof WorkerGlobalScope === 'function' && globalThis instanceof WorkerGlobalScope;
const threads = typeof BroadcastChannel === 'function' ? new BroadcastChannel('wgsimRecord') : null;
const workers = new Map();             // of the page: of the number of a worker whether it has a device and is done, and what it handed over
const SLOWEST = 1000;                  // how much longer than its promises a worker is waited for, in milliseconds

// How far this thread is: whether it has a device, and whether it asks for nothing more.
function standing() {
  const isIdle = ({ ended, last, promises, errors }) => ended || performance.now() - last > asked.idle && !promises.size && !errors.size;
  const isOver = recordings.length > 0 && recordings.every(recording => recording.ended);
  const isDrawing = expected.size > 0 && recordings.length > 0 && !recordings.some(({ ended }) => ended);
  return { has: recordings.length > 0, isQuiet: isOver || !asking.size && !isDrawing && recordings.every(isIdle) };
}
// How many workers the page began, and when the last one: what has a recorder says so soon, and what has none never does.
let begun = 0, lastBegun = 0;
function countWorkers() {
  globalThis.Worker = new Proxy(globalThis.Worker, { construct(cls, words, own) {
    begun++;
    lastBegun = performance.now();
    return Reflect.construct(cls, words, own);
  } });
}
// Whether there is something recorded, in the page or in a worker, and all of them ask for nothing more.
function isAllQuiet() {
  const all = [standing(), ...workers.values()];
  const isHeard = workers.size >= begun || performance.now() - lastBegun > LONGEST;
  return isHeard && all.some(({ has }) => has) && all.every(({ isQuiet }) => isQuiet);
}

// In a worker: says that it is there, is then told what the tool asks, says how it stands whenever that changes, and hands over.
function tellPage() {
  const id = Math.random();
  let said = '';
  threads.onmessage = async ({ data }) => {
    if (data.to === id) Object.assign(asked, data.asked);
    if (data.why) threads.postMessage({ id, recordings: await recordingsTold(data.why) });
  };
  const timer = setInterval(() => {
    const now = standing(), text = JSON.stringify(now);
    if (text !== said) threads.postMessage({ id, ...now });
    said = text;
  }, 50);
  // Under node a timer keeps a thread.
  if (timer.unref) timer.unref();
  threads.postMessage({ id, has: false, isQuiet: false });
}

// In the page: hears of workers.
function hearWorkers() {
  if (globalThis.Worker) countWorkers();
  threads.onmessage = ({ data }) => {
    if (data.id === undefined) return;
    const { idle, frames, patience: long } = asked;
    if (!workers.has(data.id)) threads.postMessage({ to: data.id, asked: { page: location.href, ...Number.isFinite(frames) ? { frames } : {}, ...idle ? { idle } : {}, ...long ? { patience: long } : {} } });
    workers.set(data.id, { ...workers.get(data.id), ...data });
  };
  if (threads.unref) threads.unref();
}
// What the workers recorded, in the order in which they came; of one that has ended nothing is there any longer.
async function ofWorkers(why) {
  if (!workers.size) return [];
  threads.postMessage({ why });
  const until = performance.now() + patience() + SLOWEST, isTold = worker => worker.recordings || !worker.has;
  while (![...workers.values()].every(isTold) && performance.now() < until) await new Promise(done => setTimeout(done, 20));
  return [...workers.values()].flatMap(worker => worker.recordings || []);
}
