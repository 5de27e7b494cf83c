// The end of a recording: what was noted is put into one text, which the tool takes over, or which is saved as a file.

const LONGEST = 3000;                  // how long promises of the page are waited for at the end, in milliseconds
const patience = () => Math.max(LONGEST, asked.patience || 0);   // and the browser's answers, which may come late where it has much to do
const OWN = /wgsim-record\.js$/;
const IN_WORDS = [/^\s*at (?:async )?(?:(.*?) \()?((?:\w+:|<).*?):(\d+):(\d+)\)?$/, /^(.*?)@(.+?):(\d+):(\d+)$/];

// The places of a stack that are the page's own, the innermost first.
function placesOf(error) {
  const base = (asked.page || location.href).replace(/[^/]*(?:[?#].*)?$/, ''), ahead = globalThis.wgsimRecordAhead || 0, found = [];
  for (const line of String(error && error.stack || '').split('\n')) {
    const place = IN_WORDS.map(words => words.exec(line)).find(Boolean);
    if (!place || OWN.test(place[2].replace(/[?#].*$/, ''))) continue;
    const file = place[2].startsWith(base) ? place[2].slice(base.length) || '(the page)' : place[2];
    // What the tool put before the script of a worker stands in its first line.
    const column = place[3] === '1' && place[2] === location.href ? place[4] - ahead : place[4];
    found.push(`${file}:${place[3]}:${column}${place[1] ? ` in ${place[1]}` : ''}`);
  }
  return found.slice(0, DEEPEST);
}
function placed(error) {
  const [at, ...by] = placesOf(error);
  return at === undefined ? {} : by.length ? { at, by } : { at };
}

// Waits until some promises are settled, or some milliseconds are over.
const within = (time, list) => Promise.race([new Promise(done => setTimeout(done, time)), Promise.all(list.map(promise => promise.catch(() => {})))]);

async function toldOf(recording) {
  recording.end(asked.why);
  // Our own scopes are answered in the end, and promises of the page may never be settled.
  await Promise.all([within(patience(), [...recording.errors]), within(LONGEST, [...recording.promises])]);
  const found = recording.numbered(), at = found.map(each => each.n);
  const before = n => { const next = at.findIndex(each => each >= n); return next < 0 ? at.length : next; };
  const script = { budget: 2 ** 53 - 1, phases: [[found.map(each => each.call)]] };
  if (Object.keys(recording.limits).length) script.limits = recording.limits;
  const answers = found.map(({ answer: { modules, implied, standsFor, ...answer } }, call) => {
    if ((modules || []).some(module => module && module.told.error)) answer.left = [...answer.left || [], 'shader'];
    return { call, ...answer };
  }).filter(answer => Object.keys(answer).length > 2);
  const noted = list => list.map(({ before: n, place, told, ...note }) => ({ before: before(n), ...note, ...told, ...placed(place) }));
  const calls = found.map(({ place, answer }) => ({ ...placed(place), ...answer.implied ? { implied: true } : {}, ...answer.standsFor ? { standsFor: answer.standsFor } : {} }));
  return {
    script, calls, answers, passed: noted(recording.passed), notes: noted(recording.notes), ended: { call: found.length, why: recording.ended.why },
    left: Object.fromEntries(recording.left), device: recording.ofDevice,
  };
}

async function recordingsTold(why) {
  asked.why = why;
  const found = [];
  for (const recording of recordings) found.push(await toldOf(recording));
  return found;
}
async function told(why = asked.why) {
  const [own, others] = await Promise.all([recordingsTold(why), ofWorkers(why)]);
  return JSON.stringify({ form: 1, page: location.href, browser: navigator.userAgent, ...lacks ? { lacks } : {}, recordings: [...own, ...others] });
}

// Ends the recording, and saves it as a file, of which `./wgsim record --saved FILE` makes a folder.
async function save() {
  const text = await told(), link = document.createElement('a');
  link.href = URL.createObjectURL(new Blob([text], { type: 'application/json' }));
  link.download = `${location.pathname.split('/').pop().replace(/\.\w+$/, '') || 'page'}.recording.json`;
  link.click();
}

function noteFaultsOfThePage() {
  const note = (what, error) => { for (const recording of recordings) recording.note({ page: String(what), place: error instanceof Error ? error : undefined }); };
  globalThis.addEventListener('error', event => note(event.message, event.error));
  globalThis.addEventListener('unhandledrejection', event => note(event.reason, event.reason));
}

// Where the tool opened the page: hands the recording over when nothing more comes, or when its time is up.
function handOver(hand) {
  const begun = performance.now(), timer = setInterval(() => {
    const isQuiet = !!lacks || isAllQuiet();
    if (!isQuiet && performance.now() - begun <= asked.seconds * 1000) return;
    clearInterval(timer);
    told(isQuiet ? 'the page asked for nothing more' : `${asked.seconds} seconds were over`).then(hand);
  }, 100);
}

// `data-frames` of the element that loads this says after how many frames the recording ends by itself.
const element = globalThis.document && document.currentScript;
const asked = { frames: Number(element && element.dataset && element.dataset.frames) || Infinity, why: 'it was saved', ...globalThis.wgsimRecordAsked };

// A page that is not secure has no WebGPU in any browser.
const lacks = globalThis.navigator && navigator.gpu ? null : globalThis.isSecureContext === false ? 'a secure address' : 'WebGPU';

globalThis.wgsimRecord = { save, text: told };
if (!lacks) {
  wrapCalls();
  wrapDevices();
  wrapScopes();
  wrapCanvases();
  noteFaultsOfThePage();
  if (threads) (isWorker ? tellPage : hearWorkers)();
}
if (asked.hand) handOver(text => globalThis[asked.hand](text));
