"use strict";
// Draws the requests and bursts of an observation in a window of time. DATA has `rows`, the names of the lines of the picture;
// `bars`, each [row, kind, label, begin, end, beats]; a beat is [time, line, isReply]; `wrong`, each [time, line, text, row of its own
// or -1, when what is behind it began, first lines of that]; `lines`, the text of each line; `resets`, times; `late`, the first lines of
// the bars that took too long; `texts`, what is said of the wrong beats.
const DATA = JSON.parse(document.getElementById("data").textContent);
const LEFT = 150, TOP = 18, HIGH = 20, MOST = 4000;
const SVG = "http://www.w3.org/2000/svg";
const wrongLines = new Set(DATA.wrong.map(it => it[1])), lateLines = new Set(DATA.late);
const ends = DATA.bars.reduce((most, it) => Math.max(most, it[4]), DATA.wrong.reduce((most, it) => Math.max(most, it[0]), 1));
const begins = DATA.bars.reduce((least, it) => Math.min(least, it[3]), ends - 1);
let from = begins, to = ends, at = -1, behind = new Set();

function element(parent, name, attributes, text) {
  const made = document.createElementNS(SVG, name);
  for (const key in attributes) made.setAttribute(key, attributes[key]);
  if (text !== undefined) made.textContent = text;
  parent.appendChild(made);
  return made;
}

function described(made, lines) {
  made.dataset.lines = lines.join(",");
  return made;
}

function lineText(line) {
  return (wrongLines.has(line) ? "! " : "  ") + line + ": " + DATA.lines[line];
}

// A step of 1, 2 or 5 times a power of ten, of which some ten fit.
function step(span) {
  const power = Math.pow(10, Math.floor(Math.log10(Math.max(span / 10, 1))));
  return [1, 2, 5, 10].map(it => it * power).find(it => span / it <= 12);
}

// The rows that have anything in the window, so that a picture of many sources stays readable.
function rowsShown(bars, marks) {
  const used = new Set(bars.map(it => it[0]).concat(marks.map(it => it[3])));
  const shown = new Map();
  DATA.rows.forEach((name, row) => { if (used.has(row)) shown.set(row, shown.size); });
  return shown;
}

function drawBar(svg, bar, y, x) {
  const [, kind, label, begin, end, beats] = bar;
  const blamed = beats.some(it => wrongLines.has(it[1])), isBehind = behind.has(beats[0][1]);
  const left = x(begin), wide = Math.max(3, x(end) - left + 3);
  const group = described(element(svg, "g", {}), beats.map(it => it[1]));
  const look = "bar " + kind + (isBehind ? " behind" : "") + (blamed ? " blamed" : "");
  element(group, "rect", { class: look, x: left, y: y + 2, width: wide, height: HIGH - 5 });
  if (lateLines.has(beats[0][1])) element(group, "rect", { class: "late", x: left - 2, y: y, width: wide + 4, height: HIGH - 1, rx: 4 });
  if (wide > label.length * 6.8) element(group, "text", { x: left + 3, y: y + 12 }, label);
  for (const [time, line, isReply] of beats) {
    const place = x(time) + 1.5;
    if (time < from || time > to) continue;
    const tick = { class: "beat lines" + (isReply ? " reply" : ""), x1: place, x2: place, y1: y + 12, y2: y + HIGH - 3 };
    described(element(group, "line", tick), [line]);
    if (!wrongLines.has(line)) continue;
    described(element(svg, "circle", { class: "wrong", cx: place, cy: y + HIGH / 2, r: 8 }), [line]);
  }
}

function drawAxis(svg, height, x) {
  const each = step(to - from);
  for (let time = Math.ceil(from / each) * each; time <= to; time += each) {
    element(svg, "line", { class: "grid", x1: x(time), x2: x(time), y1: TOP, y2: height });
    element(svg, "text", { class: "axis", x: x(time) + 2, y: 12 }, time);
  }
  for (const time of DATA.resets)
    if (from <= time && time <= to) element(svg, "line", { class: "reset", x1: x(time), x2: x(time), y1: TOP, y2: height });
}

function draw() {
  const inWindow = DATA.bars.filter(it => it[3] <= to && it[4] >= from), bars = inWindow.slice(0, MOST);
  const marks = DATA.wrong.filter(it => it[0] >= from && it[0] <= to && it[3] >= 0);
  const rows = rowsShown(bars, marks);
  const width = Math.max(700, document.documentElement.clientWidth - 20), height = TOP + Math.max(1, rows.size) * HIGH + 4;
  const x = time => LEFT + (Math.max(from, Math.min(to, time)) - from) / (to - from) * (width - LEFT - 12);
  const picture = document.getElementById("picture");
  picture.textContent = "";
  const svg = element(picture, "svg", { width: width, height: height, id: "svg" });
  drawAxis(svg, height, x);
  rows.forEach((place, row) => {
    const y = TOP + place * HIGH;
    element(svg, "line", { class: "row", x1: 0, x2: width, y1: y + HIGH, y2: y + HIGH });
    element(svg, "text", { class: "name", x: 4, y: y + 13 }, DATA.rows[row]);
  });
  for (const bar of bars) drawBar(svg, bar, TOP + rows.get(bar[0]) * HIGH, x);
  for (const [time, line, , row] of marks) {
    const place = x(time) + 1.5, y = TOP + rows.get(row) * HIGH + HIGH / 2;
    described(element(svg, "path", { class: "flag", d: `M${place},${y - 7}l7,7l-7,7l-7,-7z` }), [line]);
  }
  drawHead(inWindow.length - bars.length);
}

function drawHead(left) {
  const head = document.getElementById("head"), count = DATA.wrong.length, shown = DATA.wrong[Math.max(at, 0)];
  head.textContent = "";
  const said = head.appendChild(document.createElement("b"));
  said.className = count ? "wrong" : "right";
  said.textContent = count ? `${count} wrong: line ${shown[2].slice(8)}` : "nothing is wrong";
  if (DATA.late.length) head.appendChild(document.createElement("span")).textContent = `${DATA.late.length} took too long`;
  for (const [name, act] of Object.entries({ first, previous, next, "zoom in": zoomIn, "zoom out": zoomOut, all })) {
    const button = head.appendChild(document.createElement("button"));
    button.textContent = name;
    button.onclick = act;
  }
  const window_ = head.appendChild(document.createElement("span"));
  window_.id = "window";
  window_.textContent = `${Math.round(from)} to ${Math.round(to)} of ${begins} to ${ends}` + (left ? `; ${left} bars more: zoom in` : "");
  const keys = head.appendChild(document.createElement("span"));
  keys.id = "keys";
  keys.textContent = "keys: + - \u2190 \u2192 n p f a";
}

function look(begin, end) {
  from = begin;
  to = Math.max(begin + 1, end);
  draw();
}

// The window around a wrong beat: what goes on there, with the requests behind it.
function around(index) {
  if (!DATA.wrong.length) return;
  at = Math.max(0, Math.min(DATA.wrong.length - 1, index));
  const [time, , , , begin, firstLines] = DATA.wrong[at], span = Math.max(time - begin, (ends - begins) / 1000, 10);
  behind = new Set(firstLines);
  look(time - span * 1.08, time + span * 0.15);
}

function zoom(factor) {
  const middle = (from + to) / 2, half = (to - from) / 2 * factor;
  look(middle - half, middle + half);
}

const first = () => around(0), next = () => around(at + 1), previous = () => around(at - 1), all = () => look(begins, ends);
const zoomIn = () => zoom(0.5), zoomOut = () => zoom(2), move = part => look(from + (to - from) * part, to + (to - from) * part);
const KEYS = {
  "+": zoomIn, "=": zoomIn, "-": zoomOut, n: next, p: previous, f: first, a: all, Home: first,
  ArrowLeft: () => move(-0.25), ArrowRight: () => move(0.25),
};

function point(event) {
  const tip = document.getElementById("tip"), over = event.target.closest ? event.target.closest("[data-lines]") : null;
  tip.style.display = over ? "block" : "none";
  if (!over) return;
  const lines = over.dataset.lines.split(",").map(Number);
  tip.textContent = lines.slice(0, 24).map(lineText).join("\n") + (lines.length > 24 ? `\n  and ${lines.length - 24} more` : "");
  tip.style.left = Math.min(event.clientX + 14, window.innerWidth - tip.offsetWidth - 8) + "px";
  tip.style.top = Math.min(event.clientY + 14, window.innerHeight - tip.offsetHeight - 8) + "px";
}

document.addEventListener("mousemove", point);
document.addEventListener("keydown", event => {
  if (KEYS[event.key] && !event.ctrlKey && !event.metaKey) { event.preventDefault(); KEYS[event.key](); }
});
window.addEventListener("resize", draw);
for (const text of DATA.texts) document.getElementById("texts").appendChild(document.createElement("pre")).textContent = text;
if (location.hash === "#all") all();
else if (DATA.wrong.length) first();
else look(begins, Math.min(ends, begins + Math.max(1, (ends - begins) / Math.max(1, DATA.bars.length / 120))));
