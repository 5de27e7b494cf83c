// Looks at a picture that is open in a window, and says what is wrong with it. What is expected comes from the report: the counts of its steps,
// barriers, clears and releases.
"use strict";
const NEAR = 1; // pixels by which boxes may touch
const FRAMES = ".box, .bar, .free, .label, .step header, .faults > li, .legend > span, .controls fieldset, .controls output, .group > summary, h1, .more > summary";

// Whether an element stands in what is folded.
function isFolded(element) {
  const details = element.closest("details:not([open])");
  if (details === null) return false;
  const summary = element.closest("summary");
  return summary === null || summary.parentElement !== details || isFolded(details.parentElement);
}

// The elements of a window that are shown and match.
function shown(window, matching) {
  return [...window.document.querySelectorAll(matching)].filter((element) => !isFolded(element) && element.getClientRects().length > 0);
}

function count(window, matching) {
  return shown(window, `main :is(${matching})`).length;
}

// Each line of text that is shown, with its rectangle.
function texts(window) {
  const { FILTER_REJECT, FILTER_SKIP, FILTER_ACCEPT, SHOW_ELEMENT, SHOW_TEXT } = window.NodeFilter;
  const walker = window.document.createTreeWalker(window.document.body, SHOW_ELEMENT | SHOW_TEXT, (node) => {
    const isText = node.nodeType === 3;
    const isAway = node.parentElement.matches("details:not([open])") && (isText || !node.matches("summary"));
    if (isAway || (!isText && node.matches("script, datalist"))) return FILTER_REJECT;
    return isText && node.data.trim() ? FILTER_ACCEPT : FILTER_SKIP;
  });
  const found = [], range = window.document.createRange();
  while (walker.nextNode()) {
    const node = walker.currentNode;
    range.selectNodeContents(node);
    for (const rectangle of range.getClientRects()) if (rectangle.width > 0) found.push({ node, rectangle, what: node.data.trim().slice(0, 60) });
  }
  return found;
}

function meet(a, b) {
  const wide = Math.min(a.right, b.right) - Math.max(a.left, b.left);
  const high = Math.min(a.bottom, b.bottom) - Math.max(a.top, b.top);
  return wide > NEAR && high > NEAR;
}

// Pairs of things whose rectangles overlap, gone through from top to bottom.
function overlaps(things, isRelated) {
  const sorted = [...things].sort((a, b) => a.rectangle.top - b.rectangle.top);
  const found = [];
  let open = [];
  for (const thing of sorted) {
    open = open.filter((other) => other.rectangle.bottom > thing.rectangle.top);
    for (const other of open) if (!isRelated(thing.node, other.node) && meet(thing.rectangle, other.rectangle)) found.push(`"${thing.what}" lies on "${other.what}"`);
    open.push(thing);
  }
  return found;
}

function noOverlaps(window) {
  const frames = shown(window, FRAMES).map((node) => ({ node, rectangle: node.getBoundingClientRect(), what: node.textContent.trim().slice(0, 60) }));
  const written = texts(window);
  const found = [...overlaps(written, (a, b) => a === b), ...overlaps(frames, (a, b) => a.contains(b) || b.contains(a))];
  const wide = window.document.documentElement.clientWidth;
  for (const { node, rectangle, what } of written) {
    const frame = node.parentElement.closest(FRAMES);
    const around = frame ? frame.getBoundingClientRect() : { left: 0, right: wide, top: -Infinity, bottom: Infinity };
    const isIn = rectangle.left >= around.left - NEAR && rectangle.right <= around.right + NEAR && rectangle.top >= around.top - NEAR && rectangle.bottom <= around.bottom + NEAR;
    if (!isIn) found.push(`"${what}" reaches out of its frame`);
    if (rectangle.left < 0 || rectangle.right > wide) found.push(`"${what}" lies beside the window`);
  }
  return found;
}

// The columns of a piece from left to right: the head of each, and where it begins and ends.
function columnsOf(piece) {
  const heads = [...piece.querySelectorAll("header")];
  const lefts = heads.map((head) => head.getBoundingClientRect().left);
  return heads.map((head, n) => ({ head, left: lefts[n], right: n + 1 < lefts.length ? lefts[n + 1] : piece.getBoundingClientRect().right }));
}

// Each barrier and box stands in the column of its step, the barrier before the box, and in the row whose name its cell has.
function inPlace(window) {
  const found = [];
  for (const piece of shown(window, ".piece")) {
    const rectangles = new Map([...piece.querySelectorAll(".bar, .box, .free")].filter((mark) => !isFolded(mark)).map((mark) => [mark, mark.getBoundingClientRect()]).filter(([, at]) => at.width > 0));
    const labels = [...piece.querySelectorAll(".label")].map((label) => ({ name: label.querySelector("button").textContent, rectangle: label.getBoundingClientRect() }));
    for (const { head, left, right } of columnsOf(piece)) {
      for (const cell of head.parentElement.querySelectorAll(".cell")) {
        const marks = [...cell.querySelectorAll(".bar, .box, .free")].filter((mark) => rectangles.has(mark));
        const at = marks.map((mark) => rectangles.get(mark));
        const what = `${head.textContent}, ${cell.getAttribute("aria-label")}`;
        if (at.some((each) => each.left < left - NEAR || each.right > right + NEAR)) found.push(`${what}: not in the column of its step`);
        const boxes = at.filter((_, n) => !marks[n].matches(".bar"));
        if (at.some((each, n) => marks[n].matches(".bar") && boxes.some((box) => each.right > box.left + NEAR))) found.push(`${what}: a barrier is not before its step`);
        const rows = at.map((each) => labels.filter(({ rectangle }) => each.top >= rectangle.top - NEAR && each.bottom <= rectangle.bottom + NEAR).map(({ name }) => name));
        if (rows.some((names) => names.length !== 1 || names[0] !== cell.getAttribute("aria-label"))) found.push(`${what}: not in its row, but in ${rows.join()}`);
      }
    }
    for (const { name, rectangle } of labels) {
      if (![...rectangles.values()].some((each) => each.top >= rectangle.top - NEAR && each.bottom <= rectangle.bottom + NEAR)) found.push(`the row ${name} has nothing in it`);
    }
  }
  return found;
}

// The page is as wide as its window: nothing goes beyond it, and no piece has room for the first column of the next.
function asWide(window) {
  const root = window.document.documentElement;
  const found = root.scrollWidth > root.clientWidth ? [`the page is ${root.scrollWidth} wide in a window of ${root.clientWidth}`] : [];
  const pieces = shown(window, ".piece");
  for (const [n, piece] of pieces.entries()) {
    if (piece.scrollWidth > piece.clientWidth) found.push(`piece ${n} is wider than its window`);
    const next = pieces[n + 1] && pieces[n + 1].parentElement === piece.parentElement ? columnsOf(pieces[n + 1]) : [];
    if (next.length < 2) continue;
    const marks = [...piece.querySelectorAll(".bar, .box, .free, header")].map((mark) => mark.getBoundingClientRect().right);
    const room = piece.getBoundingClientRect().right - Math.max(...marks) - 10;
    if (next[0].right - next[0].left < room) found.push(`piece ${n} has room for a further step: ${room} of ${next[0].right - next[0].left}`);
  }
  return found;
}

// How far the colors of a text and of what is behind it differ, as the Web Content Accessibility Guidelines measure it.
function contrast(window, element) {
  const parts = (color) => color.match(/[\d.]+/g).map(Number);
  const light = (color) => {
    const [red, green, blue] = parts(color).slice(0, 3).map((part) => part / 255).map((part) => (part <= 0.04045 ? part / 12.92 : ((part + 0.055) / 1.055) ** 2.4));
    return 0.2126 * red + 0.7152 * green + 0.0722 * blue;
  };
  let behind = element;
  while (behind && parts(window.getComputedStyle(behind).backgroundColor)[3] === 0) behind = behind.parentElement;
  const both = [light(window.getComputedStyle(element).color), light(behind ? window.getComputedStyle(behind).backgroundColor : "rgb(255, 255, 255)")].sort((a, b) => b - a);
  return (both[0] + 0.05) / (both[1] + 0.05);
}

// Texts are readable: large enough, and far enough from what is behind them.
function readable(window) {
  const found = [];
  for (const element of new Set(texts(window).map(({ node }) => node.parentElement))) {
    const much = contrast(window, element), size = parseFloat(window.getComputedStyle(element).fontSize);
    if (much < 4.5) found.push(`"${element.textContent.slice(0, 40)}" has a contrast of ${much.toFixed(2)}`);
    if (size < 12) found.push(`"${element.textContent.slice(0, 40)}" is ${size} pixels high`);
  }
  return found;
}

// Whether all of a page is there: steps, barriers, clears and releases as many as the report has.
function whole(window, wanted) {
  const steps = shown(window, "main header").filter((head) => /^step \d/.test(head.textContent)).length;
  const clears = new Set(shown(window, "main .box.wipe").map((box) => box.closest(".step"))).size;
  const found = { steps, barriers: count(window, ".bar"), clears, releases: count(window, ".free") };
  return Object.keys(found).filter((what) => found[what] !== wanted[what]).map((what) => `${found[what]} ${what} are shown, and the report has ${wanted[what]}`);
}

function look(window) {
  return [...noOverlaps(window), ...inPlace(window), ...asWide(window)];
}
