"use strict";
// Shows a run at a stop: before its first item, or behind one of them. All that it shows comes from the element
// `data`, and is put into the page as text, never as markup.

const data = JSON.parse(document.getElementById("data").textContent);
const last = data.items.length;
const ROW = 18, NEAR = 12, LEAP = 20, PACE = 250, COLOURS = 6;
// the places in an item
const NUMBER = 0, PID = 1, LINE = 2, TEXT = 3, CODE = 4, ABOUT = 5, CAME = 6;
let at = 0, playing = 0;
// the records of the state by their keys, and those of each kind by the number in their key
let state = new Map(), records = {};

const part = (id) => document.getElementById(id);
const textOf = (item, place) => data.texts[item[place]];

function make(tag, kind, text, ...children) {
  const element = document.createElement(tag);
  element.className = kind;
  if (text) element.append(text);
  element.append(...children);
  return element;
}

// Each process has the next colour.
const pids = data.keys.filter((key) => key.endsWith("p")).map((key) => parseInt(key, 10)).sort((one, other) => one - other);
const colours = new Map(pids.map((pid, number) => [pid, `var(--colour-${number % COLOURS})`]));

function coloured(element, pid) {
  element.style.setProperty("--colour", colours.get(pid));
  return element;
}

// ---- states

function change(numbers) {
  for (let n = 0; n < numbers.length; n += 2) {
    if (numbers[n + 1] < 0) state.delete(data.keys[numbers[n]]);
    else state.set(data.keys[numbers[n]], data.records[numbers[n + 1]]);
  }
}

// The state at a stop: the kept one before it, and what changed from there on.
function reckon(stop) {
  const kept = Math.floor(stop / data.apart);
  state = new Map();
  change(data.kept[kept]);
  for (let n = kept * data.apart + 1; n <= stop; n++) change(data.changes[n]);
  records = { p: [], h: [], o: [] };
  for (const [key, record] of state) records[key.slice(-1)].push([parseInt(key, 10), record]);
  for (const kind of Object.values(records)) kind.sort((one, other) => one[0] - other[0]);
}

// ---- lists of which only the rows in sight are there

class Rows {
  constructor(box, count, fill) {
    Object.assign(this, { box, count, fill });
    this.rows = new Map();
    this.space = make("div", "space", "");
    this.space.style.height = `${count * ROW}px`;
    box.append(this.space);
    box.addEventListener("scroll", () => this.draw());
    new ResizeObserver(() => this.draw()).observe(box);
  }

  row(index) {
    const row = make("div", "row", "", make("span", "number", this.fill.number(index)));
    row.style.top = `${index * ROW}px`;
    this.fill.row(row, index);
    return row;
  }

  // Rows that stay in sight stay the same elements, so that a click on one isn't lost.
  draw() {
    const first = Math.max(0, Math.floor(this.box.scrollTop / ROW) - NEAR);
    const end = Math.min(this.count, Math.ceil((this.box.scrollTop + this.box.clientHeight) / ROW) + NEAR);
    for (const [index, row] of this.rows) {
      if (index >= first && index < end) continue;
      row.remove();
      this.rows.delete(index);
    }
    for (let index = first; index < end; index++) {
      if (!this.rows.has(index)) this.rows.set(index, this.box.appendChild(this.row(index)));
    }
  }

  // Scrolls so that a row is in sight, not at the edge.
  show(index) {
    const top = index * ROW, margin = Math.min(3 * ROW, this.box.clientHeight / 3);
    const isInSight = top >= this.box.scrollTop + margin && top + ROW + margin <= this.box.scrollTop + this.box.clientHeight;
    if (index >= 0 && !isInSight) this.box.scrollTop = top - this.box.clientHeight / 2;
    this.rows.clear();
    this.box.replaceChildren(this.space);
    this.draw();
  }
}

// The processes that stand at each line.
let standing = new Map();

const itemAt = (stop) => data.items[stop - 1];

const source = new Rows(part("source"), data.source.length, {
  number: (index) => String(index + 1),
  row(row, index) {
    row.append(make("span", "code", data.source[index]));
    row.classList.toggle("current", at > 0 && itemAt(at)[LINE] === index + 1);
    for (const [pid, process] of standing.get(index + 1) || []) {
      const mark = coloured(make("span", "mark", process.who), pid);
      mark.style.background = "var(--colour)";
      row.append(mark);
    }
  },
});

const trace = new Rows(part("trace"), last, {
  number: (index) => String(data.items[index][NUMBER]),
  row(row, index) {
    const item = data.items[index], text = textOf(item, TEXT);
    const dot = coloured(make("span", "dot", ""), item[PID]);
    dot.style.background = "var(--colour)";
    row.append(dot, make("span", outcomeOf(text), text));
    row.classList.toggle("current", index + 1 === at);
    row.dataset.stop = index + 1;
  },
});

function outcomeOf(text) {
  if (/ (OK|run \d+)$/.test(text)) return "plain";
  return / (ended -?\d|stuck)/.test(text) ? "over" : "note";
}

// ---- what an item was about

function drawNow() {
  const box = part("now"), lines = [];
  if (at === 0) lines.push(make("div", "empty", "before the first item"));
  else {
    const item = itemAt(at);
    lines.push(make("div", "item", textOf(item, TEXT)), make("div", "code", textOf(item, CODE)));
    lines.push(make("div", "about", textOf(item, ABOUT)));
    lines.push(...item[CAME].map((number) => make("div", "came", data.texts[number])));
  }
  if (at === last) {
    // the cards have the states of the processes
    lines.unshift(...data.last.slice(-1).map((text) => make("div", "empty", `behind the last item: ${text}`)));
    if (data.fault) lines.unshift(make("div", "fault", data.fault));
  }
  box.replaceChildren(...lines);
  box.scrollTop = 0;
}

// ---- processes

function handleTable(handles) {
  const table = make("table", "", "");
  table.append(make("tr", "", "", ...["handle", "by", "object", "rights"].map((text) => make("th", "", text))));
  for (const [value, by, , title, rights] of handles) {
    table.append(make("tr", "", "", ...[String(value), by, title, rights].map((text) => make("td", "", text))));
  }
  return table;
}

function card(pid, process) {
  const word = process.state.split(" ")[0];
  const head = make("div", "head", "", make("span", "who", process.name), make("span", `state ${word}`, process.state));
  head.append(make("span", "soft", process.who === String(pid) ? process.program : `process ${pid}, ${process.program}`));
  const box = coloured(make("div", `process ${word === "ended" ? "over" : ""}`, "", head), pid);
  if (process.next) box.append(make("div", "next", process.next));
  if (process.waits) box.append(make("div", "waits", "waits for ", make("span", "awaited", process.waits)));
  const handles = state.get(`${pid}h`) || [];
  if (handles.length) box.append(handleTable(handles));
  box.classList.toggle("actor", at > 0 && itemAt(at)[PID] === pid);
  box.dataset.pid = pid;
  return box;
}

// ---- the graph of objects

// Who holds each object: pairs of a process, or of the object in whose queue it lies, and rights.
function holdersOf() {
  const holders = new Map();
  const add = (koid, holder) => holders.set(koid, [...(holders.get(koid) || []), holder]);
  for (const [pid, handles] of records.h) {
    for (const [, , koid, , rights] of handles) add(koid, { pid, who: state.get(`${pid}p`).who, rights });
  }
  for (const [, object] of records.o) {
    for (const [, handles] of object.messages || []) {
      for (const [koid, rights] of handles) add(koid, { who: `a message at ${object.title}`, rights });
    }
  }
  return holders;
}

function lies(kind, texts, more) {
  const told = more ? [...texts, `and ${more.toLocaleString("en")} more`] : texts || [];
  return told.map((text) => make("div", `lies ${kind}`, text));
}

function objectBox(koid, object, holders) {
  const about = [object.kind === "process" ? "process" : "", object.signals.replace(/^no signal$/, "")];
  const name = make("div", "top", "", make("span", "name", object.title));
  name.append(...about.map((text, n) => make("span", ["kind", "signals"][n], text)));
  const box = make("div", "object", "", name);
  for (const { pid, who, rights } of holders) {
    const row = make("div", "holder", "", make("span", "who", who), make("span", "rights", rights));
    if (pid) coloured(row, pid).dataset.pid = pid;
    box.append(row);
  }
  const messages = (object.messages || []).map(([text]) => data.texts[text]);
  const packets = (object.packets || []).map((text) => data.texts[text]);
  box.append(...lies("message", messages, object["more messages"]), ...lies("packet", packets, object["more packets"]),
    ...lies("wait", object.waits), ...lies("policy", object.policy));
  box.dataset.koid = koid;
  return box;
}

function drawGraph() {
  const holders = holdersOf();
  // a process, or the root job, is shown among the objects where somebody holds it, or something was raised at it
  const isShown = ([koid, object]) => holders.has(koid) || object.raised || (object.kind !== "process" && koid !== 1);
  const objects = records.o.filter(isShown);
  const chips = records.p.filter(([pid, process]) => process.waits || (state.get(`${pid}h`) || []).length);
  const left = make("div", "holders", ""), right = make("div", "objects", "");
  for (const [pid, process] of chips) {
    const chip = coloured(make("div", "chip", process.who), pid);
    chip.dataset.pid = pid;
    left.append(chip);
  }
  for (const [koid, object] of objects) right.append(objectBox(koid, object, holders.get(koid) || []));
  if (!objects.length) right.append(make("div", "empty", "no objects"));
  part("graph").replaceChildren(document.createElementNS("http://www.w3.org/2000/svg", "svg"), left, right);
  drawLines();
}

function path(kind, d, pid) {
  const line = document.createElementNS("http://www.w3.org/2000/svg", "path");
  line.setAttribute("class", kind);
  line.setAttribute("d", d);
  if (pid) coloured(line, pid);
  return line;
}

// Lines from who holds or waits to the object, and between the ends of a pair.
function drawLines() {
  const graph = part("graph"), svg = graph.querySelector("svg");
  if (!svg) return;
  const corner = graph.getBoundingClientRect(), chips = new Map(), boxes = new Map(), lines = [];
  const middle = (box) => (box.top + box.bottom) / 2 - corner.top;
  for (const chip of graph.querySelectorAll(".chip")) chips.set(chip.dataset.pid, chip.getBoundingClientRect());
  for (const box of graph.querySelectorAll(".object")) boxes.set(Number(box.dataset.koid), box);
  const join = (kind, pid, element) => {
    const chip = chips.get(String(pid)), end = element.getBoundingClientRect();
    const x = chip.right - corner.left, y = middle(chip), toX = end.left - corner.left, toY = middle(end), bow = (toX - x) / 2;
    lines.push(path(kind, `M${x},${y} C${x + bow},${y} ${toX - bow},${toY} ${toX},${toY}`, pid));
  };
  for (const row of graph.querySelectorAll(".holder[data-pid]")) join("holds", Number(row.dataset.pid), row);
  for (const [pid, process] of records.p) {
    if (process.waits && boxes.has(process.awaits)) join("awaits", pid, boxes.get(process.awaits).querySelector(".top"));
  }
  for (const [koid, box] of boxes) {
    const peer = (state.get(`${koid}o`) || {}).peer;
    if (!(peer > koid) || !boxes.has(peer)) continue;
    const one = box.querySelector(".top").getBoundingClientRect();
    const other = boxes.get(peer).querySelector(".top").getBoundingClientRect();
    const x = box.getBoundingClientRect().right - corner.left, bow = x + 14 + 7 * (lines.length % 3);
    lines.push(path("peers", `M${x},${middle(one)} C${bow},${middle(one)} ${bow},${middle(other)} ${x},${middle(other)}`));
  }
  svg.replaceChildren(...lines);
}

// ---- where it stands

function whereText() {
  const total = data.total.toLocaleString("en");
  if (at === 0) return `start of ${total} items`;
  const told = `item ${itemAt(at)[NUMBER].toLocaleString("en")} of ${total}`;
  return data.each > 1 ? `${told}, each ${data.each}th is here` : told;
}

function go(stop) {
  at = Math.max(0, Math.min(last, stop || 0));
  reckon(at);
  part("slider").value = at;
  part("where").textContent = whereText();
  drawNow();
  trace.show(at - 1);
  standing = new Map();
  for (const [pid, process] of records.p) {
    if (process.line) standing.set(process.line, [...(standing.get(process.line) || []), [pid, process]]);
  }
  source.show(at > 0 ? itemAt(at)[LINE] - 1 : -1);
  part("processes").replaceChildren(...records.p.map(([pid, process]) => card(pid, process)));
  drawGraph();
  if (at === last) stopPlaying();
  try {
    history.replaceState(null, "", `#${at}`);
  } catch {
    // a page in a frame may keep its address
  }
}

function stopPlaying() {
  clearInterval(playing);
  playing = 0;
  part("play").textContent = "play";
}

function play() {
  if (playing) return stopPlaying();
  if (at === last) go(0);
  part("play").textContent = "stop";
  playing = setInterval(() => go(at + 1), PACE);
}

const KEYS = {
  ArrowRight: () => go(at + 1), ArrowDown: () => go(at + 1), ArrowLeft: () => go(at - 1), ArrowUp: () => go(at - 1),
  PageDown: () => go(at + LEAP), PageUp: () => go(at - LEAP), Home: () => go(0), End: () => go(last), " ": play,
};

function isDark() {
  const theme = document.documentElement.dataset.theme;
  return theme ? theme === "dark" : matchMedia("(prefers-color-scheme: dark)").matches;
}

function begin() {
  part("title").textContent = part("title").title = data.title;
  part("slider").max = last;
  part("slider").addEventListener("input", (event) => go(Number(event.target.value)));
  const buttons = { first: KEYS.Home, back: KEYS.ArrowLeft, next: KEYS.ArrowRight, last: KEYS.End, play };
  for (const [id, act] of Object.entries(buttons)) part(id).addEventListener("click", act);
  part("trace").addEventListener("click", (event) => {
    const row = event.target.closest(".row");
    if (row) go(Number(row.dataset.stop));
  });
  document.addEventListener("keydown", (event) => {
    const isModified = event.ctrlKey || event.altKey || event.metaKey;
    // on a button the space bar presses it
    if (isModified || !(event.key in KEYS) || (event.key === " " && event.target.closest("button"))) return;
    event.preventDefault();
    KEYS[event.key]();
  });
  const label = () => { part("theme").textContent = isDark() ? "light" : "dark"; };
  part("theme").addEventListener("click", () => {
    document.documentElement.dataset.theme = isDark() ? "light" : "dark";
    label();
  });
  label();
  matchMedia("(prefers-color-scheme: dark)").addEventListener("change", label);
  addEventListener("hashchange", () => go(parseInt(location.hash.slice(1), 10)));
  new ResizeObserver(drawLines).observe(part("graph"));
  go(parseInt(location.hash.slice(1), 10));
}

begin();
