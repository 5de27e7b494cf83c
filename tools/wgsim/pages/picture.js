// Lays out the steps of a picture as wide as the window, and shows and dims what is asked for. The steps stand in <main>, each with a cell for
// each of its rows; the rows are a table: name, piece, kind and number, and the first and last column in which each is used.
"use strict";
(() => {
  const MOST = 100; // steps of a group that is folded as one
  const NAME = 0, PIECE = 1, WHAT = 2, FIRST = 3, LAST = 4; // places in the table of rows
  const main = document.querySelector("main");
  const controls = document.querySelector(".controls");
  const rows = JSON.parse(document.getElementById("rows").textContent);
  const resources = rows.map((row) => row[WHAT].split(",")[0]); // by row
  const chosen = new Set(); // resources
  const hidden = new Set(); // kinds
  let isAlone = false, groups = [], width = 0;

  const made = (tag, look, text) => {
    const element = document.createElement(tag);
    element.className = look;
    if (text !== undefined) element.textContent = text;
    return element;
  };
  const place = (element, row, column, span = 1) => {
    element.style.gridRow = row;
    element.style.gridColumn = `${column} / span ${span}`;
    return element;
  };
  const count = (number, one, many) => `${number} ${number === 1 ? one : many}`;

  // A column of the picture: a step, or what is given back between two.
  class Column {
    constructor(section, number) {
      this.section = section;
      this.number = number;
      this.head = section.querySelector("header");
      const step = this.head.querySelector("small").textContent.match(/\d+/);
      this.step = step ? Number(step[0]) : null;
      this.cells = [...section.querySelectorAll(".cell")].map((cell) => ({
        row: Number(cell.dataset.row),
        bars: cell.querySelector(".bars"),
        boxes: [...cell.children].filter((child) => !child.matches(".bars")),
      }));
      this.isClear = section.matches(".clear");
      this.marks = { bar: section.querySelectorAll(".bar").length, free: section.querySelectorAll(".free").length };
      this.kinds = new Set([this.step === null ? "free" : this.isClear ? "wipe" : "access"]);
      if (this.marks.bar) this.kinds.add("bar");
    }
    shownKinds() {
      return [...this.kinds].filter((kind) => !hidden.has(kind));
    }
    uses(which) {
      return this.cells.some((cell) => which.has(resources[cell.row]));
    }
    isShown() {
      return this.shownKinds().length > 0 && !(isAlone && chosen.size && !this.uses(chosen));
    }
    // The cells of which something is shown.
    shownCells() {
      const main = this.shownKinds().some((kind) => kind !== "bar");
      return this.cells.filter((cell) => main || (cell.bars && !hidden.has("bar")));
    }
    hasBars() {
      return this.marks.bar > 0 && !hidden.has("bar");
    }
  }
  const columns = [...main.children].map((section, number) => new Column(section, number));

  // Some columns side by side, with the rows that they use.
  function piece(side) {
    const grid = made("div", "piece");
    const tracks = side.map((column) => (column.hasBars() ? "max-content max-content" : "0px max-content")).join(" ");
    grid.style.gridTemplateColumns = `var(--label) ${tracks} 1fr`;
    const used = [...new Set(side.flatMap((column) => column.shownCells().map((cell) => cell.row)))].sort((a, b) => a - b);
    const at = new Map(used.map((row, n) => [row, n + 2]));
    side.forEach((column, n) => {
      const side = place(made("i", "side"), 1, 2 + 2 * n);
      side.style.gridRow = `1 / span ${used.length + 1}`;
      grid.append(side);
    });
    for (const row of used) grid.append(...rowOf(row, at.get(row), side));
    side.forEach((column, n) => {
      place(column.head, 1, 2 + 2 * n, 2);
      for (const cell of column.cells) {
        const row = at.get(cell.row) || 2;
        if (cell.bars) place(cell.bars, row, 2 + 2 * n);
        for (const box of cell.boxes) place(box, row, 3 + 2 * n);
      }
      grid.append(column.section);
    });
    return grid;
  }

  // A row's rule, the line from its first use to its last, and its label.
  function rowOf(row, at, side) {
    const [name, part, what, first, last] = rows[row];
    const rule = place(made("i", "rule"), at, 2);
    rule.style.gridColumnEnd = -1;
    const label = place(made("div", "label"), at, 1);
    const button = made("button", "");
    button.type = "button";
    button.append(made("b", "", name), part ? ` ${part}` : "");
    button.dataset.resource = resources[row];
    label.append(button, made("small", "", what));
    const within = side.map((column) => column.number).filter((number) => number >= first && number <= last);
    const elements = [rule];
    if (within.length && first < last) {
      const [low, high] = [within[0], within[within.length - 1]].map((number) => side.findIndex((column) => column.number === number));
      const from = first < side[low].number ? 2 + 2 * low : 3 + 2 * low;
      // At its end the line reaches into the last mark: a box is as wide as its column, and what is given back is not.
      const isGiven = side[high].step === null;
      const line = place(made("i", "line"), at, from, (isGiven ? 3 : 4) + 2 * high - from);
      line.style.marginLeft = first < side[low].number ? "0" : "8px";
      if (last > side[high].number) line.style.gridColumnEnd = -1;
      else line.style.marginRight = isGiven ? "-8px" : "8px";
      line.dataset.resource = resources[row];
      elements.push(line);
    }
    return [...elements, label];
  }

  // Some hundred columns that are folded as one.
  class Group {
    constructor(side, isOne, isOpen) {
      this.side = side;
      this.isLaid = false;
      this.element = made(isOne ? "div" : "details", "group");
      this.body = made("div", "");
      if (!isOne) {
        this.element.append(made("summary", "", this.told()));
        this.element.open = isOpen;
        this.element.addEventListener("toggle", () => this.layOut());
      }
      this.isOne = isOne;
      this.element.append(this.body);
      this.body.append(...side.map((column) => column.section));
    }
    told() {
      const steps = this.side.filter((column) => column.step !== null).map((column) => column.step);
      const sum = (what) => this.side.reduce((total, column) => total + what(column), 0);
      const [bars, clears, frees] = [sum((column) => column.marks.bar), sum((column) => Number(column.isClear)), sum((column) => column.marks.free)];
      const uses = chosen.size ? `; ${count(sum((column) => Number(column.uses(chosen))), "uses", "use")} what is chosen` : "";
      const range = steps.length ? `steps ${steps[0]} to ${steps[steps.length - 1]}` : "no steps";
      return `${range}: ${count(bars, "barrier", "barriers")}, ${count(clears, "clear", "clears")}, ${count(frees, "release", "releases")}${uses}`;
    }
    isOpen() {
      return this.isOne || this.element.open;
    }
    // Parts the columns into pieces that are as wide as the window.
    layOut() {
      if (this.isLaid || !this.isOpen()) return;
      this.isLaid = true;
      const measured = piece(this.side);
      measured.classList.add("measured");
      this.body.replaceChildren(measured);
      const tracks = getComputedStyle(measured).gridTemplateColumns.split(" ").map(parseFloat);
      const room = this.body.clientWidth - tracks[0] - 1;
      const parts = [];
      let left = 0;
      this.side.forEach((column, n) => {
        const wide = tracks[1 + 2 * n] + tracks[2 + 2 * n];
        if (!parts.length || wide > left) {
          parts.push([]);
          left = room;
        }
        parts[parts.length - 1].push(column);
        left -= wide;
      });
      this.body.replaceChildren(...parts.map(piece));
      dim(this.body, this.side);
    }
  }

  // Marks what is not of a chosen resource, and the names of those that are.
  function dim(within, side) {
    const isOut = (resource) => chosen.size > 0 && !chosen.has(resource);
    for (const column of side) {
      column.head.classList.toggle("dim", chosen.size > 0 && !column.uses(chosen));
      for (const cell of column.cells) {
        for (const element of [cell.bars, ...cell.boxes]) if (element) element.classList.toggle("dim", isOut(resources[cell.row]));
      }
    }
    for (const line of within.querySelectorAll(".line")) line.classList.toggle("dim", isOut(line.dataset.resource));
    for (const button of within.querySelectorAll(".label button")) {
      button.setAttribute("aria-pressed", String(chosen.has(button.dataset.resource)));
      for (const part of button.parentElement.children) part.classList.toggle("dim", isOut(button.dataset.resource));
    }
  }

  // Groups what is shown anew, in hundreds.
  function regroup() {
    for (const kind of ["bar", "wipe", "free", "access"]) main.classList.toggle(`without-${kind}`, hidden.has(kind));
    const shown = columns.filter((column) => column.isShown());
    const parts = [[]];
    let steps = 0;
    for (const column of shown) {
      if (column.step !== null && steps === MOST) {
        parts.push([]);
        steps = 0;
      }
      parts[parts.length - 1].push(column);
      steps += Number(column.step !== null);
    }
    groups = parts.filter((part) => part.length).map((part, n, all) => new Group(part, all.length === 1, n === 0));
    main.replaceChildren(...groups.map((group) => group.element));
    for (const group of groups) group.layOut();
    tell();
  }

  function tell() {
    const names = [...chosen].map((resource) => rows[resources.indexOf(resource)][NAME]);
    const shown = groups.reduce((total, group) => total + group.side.filter((column) => column.step !== null).length, 0);
    const all = columns.filter((column) => column.step !== null).length;
    const uses = columns.filter((column) => column.step !== null && column.uses(chosen)).length;
    const said = names.length ? `; chosen: ${names.join(", ")}, of ${count(uses, "step", "steps")} (Escape takes that back)` : "";
    document.getElementById("told").textContent = `${shown} of ${count(all, "step", "steps")} shown${said}`;
  }

  // After the chosen resources have changed.
  function choose() {
    const summary = (group) => group.element.querySelector("summary");
    if (isAlone) return regroup();
    for (const group of groups) if (!group.isOne) summary(group).textContent = group.told();
    dim(main, columns);
    tell();
  }

  function goTo(step) {
    const column = columns.find((each) => each.step === step);
    const group = groups.find((each) => each.side.includes(column));
    if (!group) return;
    if (!group.isOne) group.element.open = true;
    group.layOut();
    column.head.scrollIntoView({ block: "center", inline: "center" });
  }

  main.addEventListener("click", (event) => {
    const button = event.target.closest(".label button");
    if (!button) return;
    const resource = button.dataset.resource;
    if (!chosen.delete(resource)) chosen.add(resource);
    choose();
    // Where the names were made anew the keyboard stays on the one that was pressed.
    const again = button.isConnected ? button : [...main.querySelectorAll(".label button")].find((each) => each.dataset.resource === resource);
    if (again) again.focus();
  });
  const clear = () => {
    chosen.clear();
    document.getElementById("resource").value = "";
    choose();
  };
  document.addEventListener("keydown", (event) => {
    if (event.key === "Escape" && chosen.size) clear();
  });
  controls.addEventListener("submit", (event) => event.preventDefault());
  controls.addEventListener("change", (event) => {
    const input = event.target;
    if (input.dataset.kind) {
      if (input.checked) hidden.delete(input.dataset.kind);
      else hidden.add(input.dataset.kind);
      regroup();
    } else if (input.id === "alone") {
      isAlone = input.checked;
      regroup();
    } else if (input.id === "goto") {
      goTo(Number(input.value));
    } else if (input.id === "resource") {
      const found = rows.findIndex((row) => row[NAME] === input.value.trim());
      if (found < 0 && input.value.trim()) return;
      chosen.clear();
      if (found >= 0) chosen.add(resources[found]);
      choose();
    }
  });
  document.getElementById("all").addEventListener("click", clear);
  for (const [id, isOpen] of [["open", true], ["fold", false]]) {
    document.getElementById(id).addEventListener("click", () => {
      for (const group of groups) if (!group.isOne) group.element.open = isOpen;
      for (const group of groups) group.layOut();
    });
  }

  // Lays out anew what is open where the width has changed.
  function fit() {
    if (main.clientWidth === width) return;
    width = main.clientWidth;
    for (const group of groups) {
      group.isLaid = false;
      group.layOut();
    }
  }

  const names = [...new Set(rows.map((row) => row[NAME]))];
  document.getElementById("resources").append(...names.map((name) => Object.assign(made("option", ""), { value: name })));
  document.querySelector(".folds").hidden = columns.length <= MOST;
  controls.hidden = false;
  width = main.clientWidth;
  regroup();
  new ResizeObserver(fit).observe(main);
})();
