// Opens each picture in a frame of each width, looks at it, uses its filters and folds, and posts what was found. The list of pictures comes from the
// server: name, the counts of the report, and what each is to have; `faults` is how many are shown at once, or null where that is not known.
"use strict";
const found = [];
const WIDTHS = [800, 1200, 2000];
const USUAL = [1280, 800];
const frame = document.createElement("iframe");
document.body.append(frame);

const wait = (milliseconds) => new Promise((done) => setTimeout(done, milliseconds));
// Events that were queued have run.
const settled = () => wait(20);
// A frame was painted, so that what waits for a change of size has run.
async function resized() {
  for (let n = 0; n < 2; n++) await new Promise((done) => requestAnimationFrame(done));
  await settled();
}
function say(picture, lines, when) {
  for (const line of lines.slice(0, 5)) found.push(`${picture.name}, ${when}: ${line}`);
  if (lines.length > 5) found.push(`${picture.name}, ${when}: and ${lines.length - 5} more`);
}
function need(picture, holds, what) {
  if (!holds) found.push(`${picture.name}: ${what}`);
}

async function opened(picture, width) {
  frame.style.cssText = `width: ${width}px; height: 1000px; border: 0`;
  const start = performance.now();
  await new Promise((done) => {
    frame.onload = done;
    frame.src = `/pictures/${encodeURIComponent(picture.name)}`;
  });
  await settled();
  picture.milliseconds = Math.round(performance.now() - start);
  return frame.contentWindow;
}

// Where there is a fault, what it is about stands whole in a window of a usual size, before anything is moved.
function firstFault(picture, window) {
  const faults = shown(window, ".faults > li");
  need(picture, picture.faults === null || faults.length === picture.faults, `${faults.length} faults are shown at once, and not ${picture.faults}`);
  const first = faults.find((item) => !item.matches(".follows"));
  const { left, right, bottom } = first ? first.getBoundingClientRect() : { left: 0, right: 0, bottom: 0 };
  need(picture, left >= 0 && right <= USUAL[0] && bottom <= USUAL[1], `the first fault is not in view: it ends at ${Math.round(bottom)} of ${USUAL[1]}`);
}

async function atAllWidths(picture) {
  const window = await opened(picture, USUAL[0]);
  firstFault(picture, window);
  picture.isDrawn = window.document.querySelector("main") !== null;
  for (const width of WIDTHS) {
    frame.style.width = `${width}px`;
    await resized();
    need(picture, window.innerWidth === width, `the window is ${window.innerWidth} wide, and not ${width}`);
    say(picture, look(window), `${width} wide`);
  }
  say(picture, readable(window), "colors and fonts");
  if (picture.isDrawn) await folds(picture, window);
  return window;
}

// Steps in groups of a hundred: the first is open, each opens and closes on a click, and all of them at once.
async function folds(picture, window) {
  const groups = [...window.document.querySelectorAll("details.group")];
  const wanted = picture.counts.steps > 100 ? Math.ceil(picture.counts.steps / 100) : 0;
  need(picture, groups.length === wanted, `${groups.length} groups of steps, and not ${wanted}`);
  if (wanted) {
    const steps = () => shown(window, "main header").filter((head) => /^step \d/.test(head.textContent)).length;
    need(picture, steps() === 100, `${steps()} steps are open at first, and not 100`);
    groups[1].querySelector("summary").click();
    await settled();
    need(picture, steps() === 200, `${steps()} steps are open after a click, and not 200`);
    say(picture, look(window), "with a group opened");
    window.document.getElementById("fold").click();
    await settled();
    need(picture, steps() === 0, `${steps()} steps are open after all were folded`);
    const start = performance.now();
    window.document.getElementById("open").click();
    await settled();
    picture.opening = Math.round(performance.now() - start);
    say(picture, look(window), "with all groups opened");
  }
  for (const details of window.document.querySelectorAll(".bars details")) details.open = true;
  say(picture, whole(window, picture.counts), "with all steps");
}

// How much of an element is to be seen, with all that it stands in.
function seen(window, element) {
  let much = 1;
  for (let at = element; at && at.nodeType === 1; at = at.parentElement) much *= Number(window.getComputedStyle(at).opacity);
  return much;
}

// A click on a name dims all that is of other resources, and a second one, or the key Escape, takes that back.
async function byResource(picture, window) {
  const { document } = window;
  const resourceOf = (button) => button.nextElementSibling.textContent.split(",")[0];
  const names = new Map(shown(window, ".label button").map((button) => [button.textContent, resourceOf(button)]));
  const button = shown(window, ".label button")[0];
  const own = resourceOf(button), before = shown(window, "main header").length;
  const isOwn = (mark) => names.get(mark.closest(".cell").getAttribute("aria-label")) === own;
  const marks = () => shown(window, "main :is(.bar, .box, .free)");
  const all = () => marks().every((mark) => seen(window, mark) === 1);
  const others = new Set(names.values()).size > 1;
  need(picture, button.tabIndex >= 0, "a name cannot be reached by keyboard");
  button.click();
  need(picture, button.getAttribute("aria-pressed") === "true", "a name that was clicked is not pressed");
  need(picture, marks().every((mark) => (isOwn(mark) ? seen(window, mark) === 1 : seen(window, mark) < 0.5)), `a click on ${button.textContent} does not dim just the rest`);
  need(picture, !others || marks().some((mark) => !isOwn(mark)), "nothing is there to be dimmed");
  button.click();
  need(picture, all(), "a second click on a name does not take the first back");
  button.click();
  document.dispatchEvent(new window.KeyboardEvent("keydown", { key: "Escape" }));
  need(picture, all() && button.getAttribute("aria-pressed") === "false", "Escape does not take a click back");
  const input = document.getElementById("resource");
  input.value = button.querySelector("b").textContent;
  input.dispatchEvent(new window.Event("change", { bubbles: true }));
  need(picture, button.getAttribute("aria-pressed") === "true", "a name that was typed is not chosen");
  document.getElementById("alone").click();
  await settled();
  const steps = new Set(shown(window, "main header").map((head) => head.parentElement));
  need(picture, steps.size > 0 && [...steps].every((step) => [...step.querySelectorAll(".bar, .box, .free")].some(isOwn)), "with `only its steps`, other steps are shown");
  say(picture, look(window), "with one resource");
  document.getElementById("alone").click();
  document.getElementById("all").click();
  await settled();
  need(picture, shown(window, "main header").length === before, `${shown(window, "main header").length} columns are shown after the filter by resource, and ${before} before it`);
}

// Each kind can be left out, and then it alone is.
async function byKind(picture, window) {
  const kinds = { bar: ".bar", wipe: ".box.wipe", free: ".free", access: ".box:not(.wipe)" };
  const counts = () => Object.fromEntries(Object.entries(kinds).map(([kind, matching]) => [kind, count(window, matching)]));
  const before = counts();
  for (const kind of Object.keys(kinds)) {
    const box = window.document.querySelector(`input[data-kind=${kind}]`);
    for (const isOn of [false, true]) {
      box.click();
      await settled();
      const wanted = { ...before, [kind]: isOn ? before[kind] : 0 };
      need(picture, JSON.stringify(counts()) === JSON.stringify(wanted), `with ${kind} ${isOn ? "on again" : "off"} the page shows ${JSON.stringify(counts())}, and not ${JSON.stringify(wanted)}`);
      if (!isOn) say(picture, look(window), `with ${kind} off`);
    }
  }
}

// A box with many lines opens on a click, a step is found by its number, and so is a fault past the first ones.
async function rest(picture, window) {
  for (const details of window.document.querySelectorAll(".cell details, .more")) details.open = true;
  await settled();
  say(picture, look(window).filter((line) => !/piece \d+ (has room|is wider)|beside the window/.test(line)), "with all that is folded opened");
  const last = picture.counts.steps - 1, input = window.document.getElementById("goto");
  window.document.getElementById("fold").click();
  input.value = String(last);
  input.dispatchEvent(new window.Event("change", { bubbles: true }));
  await settled();
  const head = shown(window, "main header").find((each) => each.textContent.startsWith(`step ${last}`) && /^step \d+(?=\D)/.exec(each.textContent)[0] === `step ${last}`);
  const at = head ? head.getBoundingClientRect() : null;
  need(picture, at && at.top >= 0 && at.bottom <= window.innerHeight, `step ${last} is not shown after it was asked for`);
}

async function run() {
  const pictures = await (await fetch("/list")).json();
  const isDark = matchMedia("(prefers-color-scheme: dark)").matches;
  for (const picture of pictures) {
    if (isDark) {
      const window = await opened(picture, WIDTHS[1]);
      const behind = window.getComputedStyle(window.document.body).backgroundColor;
      need(picture, behind !== "rgb(255, 255, 255)", "the page is white in dark surroundings");
      say(picture, readable(window), "colors and fonts in dark surroundings");
      continue;
    }
    const window = await atAllWidths(picture);
    if (picture.isFiltered) {
      // A look at thousands of steps takes seconds: of these the first hundred will do.
      window.document.getElementById("fold").click();
      const first = window.document.querySelector("details.group");
      if (first) first.open = true;
      await settled();
      await byResource(picture, window);
      if (picture.counts.steps <= 100) await byKind(picture, window);
      await rest(picture, window);
    }
  }
  return pictures;
}

run().then(
  (pictures) => fetch("/found", { method: "POST", body: JSON.stringify({ found, isDark: matchMedia("(prefers-color-scheme: dark)").matches, pictures }) }),
  (error) => fetch("/found", { method: "POST", body: JSON.stringify({ found: [...found, `the look at the pictures broke off: ${error.stack}`], pictures: [] }) }),
);
