"use strict";
const data = JSON.parse(document.getElementById("data").textContent);
const { actions, clients, texts, counts } = data;
const LAST = counts.entries + 1;
const GUTTER = 82, AXIS = 22, CHART = 118, EDGE = 14;
const COLOURS = ["#2f6fed", "#d9632a", "#1f9d6b", "#8a4fd3", "#c2377f", "#0d8ea8", "#8f7300", "#5a6b85"];
const byId = (id) => document.getElementById(id);
const colourOf = (client) => COLOURS[Math.max(0, clients.indexOf(client)) % COLOURS.length];

// ---- What follows from the actions

const accepted = [];            // by position
const writers = new Map();      // for each object, the positions that write it
const influenced = new Map();   // for each position, the actions that read what it wrote
for (const action of actions) { if (action.p) accepted[action.p] = action; }
for (const action of accepted) {
  if (!action) continue;
  for (const object of action.w) { if (!writers.has(object)) writers.set(object, []); writers.get(object).push(action.p); }
}
for (const action of actions) {
  for (const [, place] of action.f) {
    if (!place) continue;
    if (!influenced.has(place)) influenced.set(place, new Set());
    influenced.get(place).add(action);
  }
}

const nameOf = (action) => `c${action.c}.${action.n}`;
const textOf = (action) => texts[action.t] || "(it never reached the server)";
const isOpen = (action) => action.p && action.e === null;
const isLost = (action) => action.d !== null || action.z !== null;
// The positions whose results waited for another one, and for which.
const waitedFor = new Map();
for (const wait of data.waits) for (const place of wait.w) { if (!waitedFor.has(place)) waitedFor.set(place, []); waitedFor.get(place).push(wait); }
// A wait is long where each client could have made two requests meanwhile. Who was silent for as long slept.
const isLong = ([, from, to]) => to - from > 2 * clients.length;
const isAsleep = ([, , , from, to]) => to - from > 2 * clients.length;

// The positions that an action's values come from, back to the opening world; or the unfinished ones alone.
function sourcesOf(places, floor) {
  const found = new Set(), left = places.slice();
  while (left.length) {
    const place = left.pop();
    if (place <= floor || found.has(place)) continue;
    found.add(place);
    for (const [, next] of accepted[place].f) left.push(next);
  }
  return [...found].sort((a, b) => a - b);
}
const chainOf = (action) => sourcesOf(action.f.map((each) => each[1]), action.b);

// The value of an object after the action at this position wrote it: as it was reported, and as the action gives it.
function valueAfter(object, place) {
  if (!place) return object in data.opening ? data.opening[object] : "?";
  const action = accepted[place], slot = action.w.indexOf(object);
  if (!action.v) return `${action.u[slot]}, not reported`;
  return action.v[slot] === action.u[slot] || action.u[slot] === "?" ? action.v[slot] : `${action.v[slot]}, and its text gives ${action.u[slot]}`;
}
const isLied = (action) => action.v !== null && action.u !== null && action.v.some((value, slot) => action.u[slot] !== "?" && action.u[slot] !== value);

// The world after a position, by doing the actions: each object with its value and its last writer.
function worldAt(place) {
  const found = new Map(objects.map((object) => [object, { value: data.opening[object] ?? "?", by: 0 }]));
  for (let at = 1; at <= place; at += 1) accepted[at].w.forEach((object, slot) => found.set(object, { value: accepted[at].u[slot], by: at }));
  return found;
}
const objects = data.world.length ? data.world.map((_, object) => object)
  : [...new Set([...Object.keys(data.opening).map(Number), ...writers.keys()])].sort((a, b) => a - b);

// ---- Time: an entry that brought nothing is narrow

const NARROW = 0.18, quiet = new Set(data.quiet), cut = [0];
for (let entry = 1; entry <= LAST + 1; entry += 1) cut.push(cut[entry - 1] + (quiet.has(entry) ? NARROW : 1));
const wideOf = (time) => { const entry = Math.min(Math.max(Math.floor(time), 0), LAST); return cut[entry] + (time - entry) * (cut[entry + 1] - cut[entry]); };
const WIDE = cut[LAST];
function timeAt(wide) {
  let low = 0, high = LAST;
  while (low < high) { const middle = (low + high + 1) >> 1; if (cut[middle] <= wide) low = middle; else high = middle - 1; }
  return low + (wide - cut[low]) / (cut[low + 1] - cut[low]);
}

// ---- Lanes: each action has a row in its client's lane, but for looks, which stand in a strip below

const ends = (action) => action.p ? (action.e ?? LAST) : (action.g ?? action.a ?? action.m + 1);
// Between two actions of a row is room for the tick of the first one; none where marks are small anyway.
const ROOM = WIDE <= 400 ? WIDE / 45 : 0.05;
const rows = new Map(), depth = new Map();
for (const client of clients) {
  const busy = [];
  for (const action of actions.filter((each) => each.c === client && !each.l)) {
    let row = busy.findIndex((end) => end <= wideOf(action.m));
    if (row < 0 && busy.length < 10) row = busy.length;
    if (row < 0) row = busy.indexOf(Math.min(...busy));
    busy[row] = wideOf(ends(action)) + ROOM;
    rows.set(action, row);
  }
  depth.set(client, Math.max(1, busy.length));
}
const allRows = [...depth.values()].reduce((sum, each) => sum + each, 0);
const PITCH = allRows <= 24 ? 19 : allRows <= 70 ? 12 : allRows <= 140 ? 8 : 6;
const tops = new Map();
let height = AXIS + CHART + 8;
for (const client of clients) { tops.set(client, height); height += depth.get(client) * PITCH + 24; }
const stripY = (client) => tops.get(client) + depth.get(client) * PITCH + 14;
const rowY = (action) => action.l ? stripY(action.c) : tops.get(action.c) + 10 + (rows.get(action) + 0.5) * PITCH;

// ---- The view

const canvas = byId("lanes"), pen = canvas.getContext("2d");
let width = 800, scale = 1, left = 0, chosen = null, pointed = null, due = false;
const least = () => (width - GUTTER - EDGE) / WIDE;
const xOf = (time) => GUTTER + (wideOf(time) - left) * scale;
const timeOf = (x) => timeAt(left + (x - GUTTER) / scale);
function settle() {
  scale = Math.min(Math.max(scale, least()), Math.max(190, least()));
  left = Math.min(Math.max(left, 0), Math.max(0, WIDE - (width - GUTTER - EDGE) / scale));
  if (!due) { due = true; requestAnimationFrame(paint); }
}
function zoom(factor, x) {
  const at = left + (x - GUTTER) / scale;
  scale = Math.min(Math.max(scale * factor, least()), Math.max(190, least()));
  left = at - (x - GUTTER) / scale;
  settle();
}
function wholeRun() { scale = least(); left = 0; settle(); }
function bringIn(action) {
  const x = xOf(action.a ?? action.m);
  if (x < GUTTER + 40 || x > width - 60) left = wideOf(action.a ?? action.m) - (width - GUTTER) / 2 / scale;
  settle();
}
function measure() {
  const before = width, wasWhole = scale <= least() * 1.001;
  width = Math.max(320, byId("stage").clientWidth);
  const ratio = window.devicePixelRatio || 1;
  canvas.width = width * ratio; canvas.height = height * ratio; canvas.style.height = `${height}px`;
  pen.setTransform(ratio, 0, 0, ratio, 0, 0);
  if (wasWhole || before !== width && scale < least()) scale = least();
  settle();
}

// ---- Painting

const yOfPlace = (place) => AXIS + CHART - 8 - (CHART - 22) * (accepted.length > 1 ? place / (accepted.length - 1) : 0);
function line(x1, y1, x2, y2, colour, thick = 1) { pen.strokeStyle = colour; pen.lineWidth = thick; pen.beginPath(); pen.moveTo(x1, y1); pen.lineTo(x2, y2); pen.stroke(); }
function disc(x, y, r, colour, hollow) { pen.beginPath(); pen.arc(x, y, r, 0, 7); if (hollow) { pen.fillStyle = "#fff"; pen.fill(); pen.strokeStyle = colour; pen.lineWidth = 1.6; pen.stroke(); } else { pen.fillStyle = colour; pen.fill(); } }
function diamond(x, y, r, colour, hollow) { pen.beginPath(); pen.moveTo(x, y - r); pen.lineTo(x + r, y); pen.lineTo(x, y + r); pen.lineTo(x - r, y); pen.closePath(); pen.fillStyle = hollow ? "#fff" : colour; pen.fill(); pen.strokeStyle = colour; pen.lineWidth = 1.2; pen.stroke(); }
function cross(x, y, r, colour) { line(x - r, y - r, x + r, y + r, colour, 2); line(x - r, y + r, x + r, y - r, colour, 2); }
function label(text, x, y, colour, font = "11px system-ui, sans-serif", align = "left") { pen.fillStyle = colour; pen.font = font; pen.textAlign = align; pen.textBaseline = "middle"; pen.fillText(text, x, y); }

function paintAxis() {
  const steps = [1, 2, 5, 10, 20, 50, 100, 200, 500, 1000, 2000, 5000, 10000];
  const step = steps.find((each) => each * scale >= 46) || 20000;
  let before = -Infinity;
  for (let time = Math.max(step, Math.ceil(timeOf(GUTTER) / step) * step); time <= LAST - 1 && xOf(time) < width; time += step) {
    if (xOf(time) - before < 34) continue;
    before = xOf(time);
    line(xOf(time), AXIS, xOf(time), height, "#eef1f5");
    label(String(time), xOf(time), AXIS / 2, "#667085", undefined, "center");
  }
}

function paintChart() {
  const bottom = yOfPlace(0);
  const steps = (points, upTo) => { let y = bottom; for (const [time, place] of points) { pen.lineTo(xOf(time), y); y = yOfPlace(place); pen.lineTo(xOf(time), y); } pen.lineTo(xOf(upTo), y); };
  const takes = accepted.filter(Boolean).map((each) => [each.a, each.p]);
  const start = timeOf(GUTTER), end = Math.min(LAST, timeOf(width));
  const shape = (points, fill, stroke) => {
    pen.beginPath(); pen.moveTo(xOf(0), bottom); steps(points, LAST);
    if (stroke) { pen.strokeStyle = stroke; pen.lineWidth = 1.5; pen.stroke(); }
    if (fill) { pen.lineTo(xOf(LAST), bottom); pen.closePath(); pen.fillStyle = fill; pen.fill(); }
  };
  shape(takes, "#fff1d6", null);
  shape(data.commits, "#d9f0e4", null);
  shape(takes, null, "#c98a1b");
  shape(data.commits, null, "#12805c");
  const wide = scale >= 20;
  for (const action of actions) {
    if (action.a === null || action.a < start - 1 || action.a > end + 1) continue;
    const x = xOf(action.a);
    if (action.p && action.l) disc(x, yOfPlace(action.p), 1.6, colourOf(action.c) + "90");
    else if (action.p) {
      disc(x, yOfPlace(action.p), wide ? 5 : 2.2, colourOf(action.c));
      if (wide) label(String(action.p), x, yOfPlace(action.p) - 11, "#1c2330", undefined, "center");
    } else if (isLost(action)) cross(x, bottom - 5, action.l ? 2.5 : wide ? 4.5 : 3, "#d02b3b");
  }
}

function paintStays() {
  for (const stay of data.sessions) {
    const top = tops.get(stay.client), tall = depth.get(stay.client) * PITCH + 20;
    const x1 = Math.max(GUTTER, xOf(stay.from)), x2 = Math.min(width - EDGE + 6, xOf(stay.to));
    if (x2 < GUTTER || x1 > width) continue;
    pen.fillStyle = colourOf(stay.client) + "12"; pen.beginPath(); pen.roundRect(x1, top, Math.max(2, x2 - x1), tall, 5); pen.fill();
    if (scale >= 20) label(`s${stay.session}`, x1 + 3, top + 6, "#98a1b0", "10px system-ui, sans-serif");
  }
  paintWaits();
  for (const [time, client, kind] of data.marks) {
    if (!tops.has(client) || xOf(time) < GUTTER - 20 || xOf(time) > width) continue;
    const x = xOf(time) + (kind === "join" ? 2 : kind === "cut" ? -2 : 0), top = tops.get(client), low = top + depth.get(client) * PITCH + 20;
    if (kind === "cut" || kind === "quit" || kind === "gone") { line(x, top, x, low, "#d02b3b", 1.5); if (scale >= 14) label(kind, x - 3, low - 6, "#d02b3b", "10px system-ui, sans-serif", "right"); }
    else if (kind === "join" && time > 1) line(x, top, x, low, "#12805c", 1.5);
    else if (kind === "refused") cross(x, low - 6, 3, "#98a1b0");
    else if (kind === "adopt" && scale >= 14) label("poll", x - 8, low - 6, "#667085", "10px system-ui, sans-serif");
    else if (kind === "news" && scale >= 3) diamond(x, low - 6, 2.6, "#667085");
    else if (kind === "news" || kind === "same") disc(x, low - 6, 1, kind === "news" ? "#667085" : "#98a1b0");
    else if (kind === "show" && scale >= 20) { pen.strokeStyle = "#98a1b0"; pen.lineWidth = 1.2; pen.beginPath(); pen.ellipse(x, low - 6, 5, 3, 0, 0, 7); pen.stroke(); disc(x, low - 6, 1.2, "#98a1b0"); }
  }
}

// Where a client was waited for, for long.
function paintWaits() {
  for (const wait of data.waits) for (const who of wait.who) {
    const [client, from, to] = who, x1 = Math.max(GUTTER, xOf(from)), x2 = Math.min(width - EDGE + 6, xOf(to));
    if (!isLong(who) || !tops.has(client) || x2 < GUTTER || x1 > width) continue;
    const top = tops.get(client), tall = depth.get(client) * PITCH + 20;
    pen.fillStyle = "#c7770018"; pen.fillRect(x1, top, x2 - x1, tall);
    line(x1, top + 1, x2, top + 1, "#c77700", 2);
    if (x2 - x1 > 74) label("waited for", x2 - 4, top + 8, "#8a5300", "10px system-ui, sans-serif", "right");
  }
}

// A look is small, in the strip below its client's actions.
function paintLook(action) {
  const y = rowY(action), x = xOf(action.a ?? action.m), colour = colourOf(action.c);
  if (scale >= 12 && action.e !== null) line(x, y, xOf(action.e), y, colour + "60", 1.2);
  if (isLost(action)) cross(x, y, 2, "#d02b3b");
  else if (scale >= 30) disc(x, y, 2, colour, true);
  else disc(x, y, 1.2, colour + "b0");
}

function paintAction(action, faint) {
  if (action.l) { pen.globalAlpha = faint ? 0.3 : 1; paintLook(action); pen.globalAlpha = 1; return; }
  const colour = colourOf(action.c), y = rowY(action), thin = PITCH <= 8;
  const made = xOf(action.m), answered = action.a === null ? null : xOf(action.a);
  const took = xOf(action.g ?? (action.a === null ? LAST : Math.min(LAST, action.a + 0.5)));
  pen.globalAlpha = faint ? 0.22 : 1;
  pen.fillStyle = isLost(action) ? "#d02b3b40" : colour + "45";
  const tall = Math.max(2, PITCH * 0.5);
  pen.beginPath(); pen.roundRect(made, y - tall / 2, Math.max(1, took - made), tall, Math.min(3, tall / 2)); pen.fill();
  if (action.p) line(took, y, xOf(action.e ?? LAST), y, colour + (action.e ? "90" : "40"), thin ? 1 : 1.5);
  if (scale < 3) {
    if (answered !== null) { if (isLost(action)) cross(answered, y, 2.5, "#d02b3b"); else { pen.fillStyle = action.r ? "#c77700" : colour; pen.fillRect(answered - 0.7, y - tall / 2, 1.6, tall); } }
    pen.globalAlpha = 1; return;
  }
  const r = PITCH >= 19 ? 4 : PITCH >= 12 ? 3 : 2.2;
  disc(made, y, r, colour, true);
  if (answered !== null && action.p) disc(answered, y, r, colour);
  if (isLost(action)) cross(answered, y, r, "#d02b3b");
  for (const again of action.q) disc(xOf(again), y, r * 0.8, colour, true);
  if (action.o !== null) { pen.fillStyle = action.y === null ? colour : colourOf(action.y); pen.fillRect(xOf(action.o) - r * 0.85, y - r * 0.85, r * 1.7, r * 1.7); }
  if (action.e !== null) { const x = xOf(action.e) + (action.e === action.o ? r * 2.6 : 0); pen.strokeStyle = "#12805c"; pen.lineWidth = 1.8; pen.beginPath(); pen.moveTo(x - r, y + 1); pen.lineTo(x - r * 0.2, y + r); pen.lineTo(x + r * 1.1, y - r - 1); pen.stroke(); }
  if (action.r && action.g !== null) { pen.fillStyle = "#c77700"; pen.beginPath(); pen.moveTo(took, y - r - 2.5); pen.lineTo(took + r + 1, y + r); pen.lineTo(took - r - 1, y + r); pen.closePath(); pen.fill(); }
  if (PITCH >= 12 && scale >= 34) label(action.p ? `${action.n}` : nameOf(action), made + r + 3, y - (PITCH >= 19 ? 0 : 0.5), "#1c2330", PITCH >= 19 ? "11px system-ui, sans-serif" : "9px system-ui, sans-serif");
  pen.globalAlpha = 1;
}

function arrow(from, to, colour, thick) {
  const x1 = xOf(from.a), y1 = rowY(from), x2 = xOf(to.a ?? to.m), y2 = rowY(to);
  const bend = Math.max(18, Math.abs(x2 - x1) * 0.35), same = Math.abs(y1 - y2) < 2;
  pen.strokeStyle = colour; pen.lineWidth = thick; pen.beginPath(); pen.moveTo(x1, y1);
  if (same) pen.quadraticCurveTo((x1 + x2) / 2, y1 - Math.min(40, 12 + (x2 - x1) * 0.15), x2, y2);
  else pen.bezierCurveTo(x1 + bend, y1, x2 - bend, y2, x2, y2);
  pen.stroke();
  pen.fillStyle = colour; pen.beginPath(); pen.moveTo(x2, y2); pen.lineTo(x2 - 8, y2 - 4); pen.lineTo(x2 - 8, y2 + 4); pen.fill();
}

function paintShown(action) {
  const direct = new Set(action.f.map((each) => each[1]).filter(Boolean));
  for (const place of chainOf(action)) for (const [, next] of accepted[place].f) if (next > action.b) arrow(accepted[next], accepted[place], "#0b5fff55", 1.2);
  for (const place of direct) arrow(accepted[place], action, place > action.b ? "#0b5fff" : "#0b5fff88", place > action.b ? 2 : 1.2);
  if (action.p) for (const next of influenced.get(action.p) || []) arrow(action, next, "#8a4fd3aa", 1.4);
  const y = rowY(action);
  pen.strokeStyle = "#1c2330"; pen.lineWidth = 1.4; pen.beginPath();
  if (action.l) pen.arc(xOf(action.a ?? action.m), y, 5, 0, 7);
  else pen.roundRect(xOf(action.m) - 6, y - PITCH / 2, Math.max(12, xOf(ends(action)) - xOf(action.m) + (action.e !== null && action.e === action.o ? 24 : 12)), PITCH, 5);
  pen.stroke();
}

function paint() {
  due = false;
  pen.clearRect(0, 0, width, height);
  pen.save(); pen.beginPath(); pen.rect(GUTTER - 8, 0, width - GUTTER + 8, height); pen.clip();
  paintAxis(); paintChart(); paintStays();
  const shown = pointed || chosen, to = timeOf(width), from = timeOf(GUTTER - 8);
  const near = shown ? new Set([shown, ...shown.f.map((each) => accepted[each[1]]), ...chainOf(shown).map((place) => accepted[place]), ...(influenced.get(shown.p) || [])]) : null;
  let drawn = 0;
  for (const action of actions) {
    if (ends(action) < from || action.m > to) continue;
    paintAction(action, near && !near.has(action));
    drawn += 1;
  }
  if (shown) paintShown(shown);
  pen.restore();
  label("position", 4, AXIS + CHART / 2, "#667085"); label(String(Math.max(0, accepted.length - 1)), GUTTER - 12, yOfPlace(accepted.length - 1), "#667085", undefined, "right");
  label("0", GUTTER - 12, yOfPlace(0), "#667085", undefined, "right"); label("entry", 4, AXIS / 2, "#667085");
  for (const client of clients) { disc(10, tops.get(client) + 14, 5, colourOf(client)); label(`client ${client}`, 20, tops.get(client) + 14, "#1c2330", "12px system-ui, sans-serif"); }
  document.body.dataset.drawn = drawn;
}

// ---- What is pointed at and chosen

function actionAt(x, y) {
  let best = null, nearest = 15;
  for (const action of actions) {
    const row = rowY(action), made = xOf(action.m), end = xOf(ends(action));
    if (Math.abs(y - row) <= (action.l ? 6 : Math.max(4, PITCH / 2)) && x >= made - 6 && x <= end + 6) {
      const off = Math.abs(y - row) + Math.min(Math.abs(x - made), Math.abs(x - xOf(action.a ?? action.m)), Math.abs(x - end)) / 60;
      if (off < nearest) { nearest = off; best = action; }
    }
    if (action.a !== null && y < AXIS + CHART) {
      const off = Math.hypot(x - xOf(action.a), y - (action.p ? yOfPlace(action.p) : yOfPlace(0) - 5));
      if (off < Math.min(nearest, 12)) { nearest = off; best = action; }
    }
  }
  return best;
}
function point(action) { if (action === pointed) return; pointed = action; tell(pointed || chosen); settle(); }
function choose(action) { chosen = action; pointed = null; tell(chosen); if (action) { if (action.p) step(action.p); bringIn(action); history.replaceState(null, "", `#action=${nameOf(action)}`); } settle(); }
const order = actions.slice().sort((a, b) => (a.a ?? a.m) - (b.a ?? b.m));
function stepTo(by) { if (!order.length) return; const at = chosen ? order.indexOf(chosen) + by : 0; choose(order[Math.min(Math.max(at, 0), order.length - 1)]); }

let drag = null;
const fingers = new Map();
canvas.addEventListener("pointerdown", (event) => { fingers.set(event.pointerId, event.offsetX); drag = { x: event.offsetX, left, moved: false }; });
canvas.addEventListener("pointermove", (event) => {
  if (fingers.has(event.pointerId) && fingers.size === 2) {
    const before = [...fingers.values()]; fingers.set(event.pointerId, event.offsetX); const now = [...fingers.values()];
    const was = Math.abs(before[0] - before[1]), is = Math.abs(now[0] - now[1]);
    if (was > 10 && is > 10) zoom(is / was, (now[0] + now[1]) / 2);
    drag = null; return;
  }
  if (drag && event.buttons) {
    if (Math.abs(event.offsetX - drag.x) > 4) drag.moved = true;
    if (drag.moved) { left = drag.left - (event.offsetX - drag.x) / scale; settle(); return; }
  }
  point(actionAt(event.offsetX, event.offsetY));
});
canvas.addEventListener("pointerup", (event) => { fingers.delete(event.pointerId); if (drag && !drag.moved) { const found = actionAt(event.offsetX, event.offsetY); if (found) choose(found); else { chosen = null; tell(null); settle(); } } drag = null; });
canvas.addEventListener("pointercancel", (event) => { fingers.delete(event.pointerId); drag = null; });
canvas.addEventListener("pointerleave", () => { fingers.clear(); drag = null; point(null); });
canvas.addEventListener("wheel", (event) => { event.preventDefault(); if (Math.abs(event.deltaX) > Math.abs(event.deltaY)) { left += event.deltaX / scale; settle(); } else zoom(Math.exp(-event.deltaY / 400), event.offsetX); }, { passive: false });
canvas.addEventListener("keydown", (event) => {
  const does = { ArrowLeft: () => stepTo(-1), ArrowRight: () => stepTo(1), "+": () => zoom(1.5, width / 2), "=": () => zoom(1.5, width / 2), "-": () => zoom(1 / 1.5, width / 2), "0": wholeRun, Escape: () => { chosen = null; tell(null); settle(); } }[event.key];
  if (does) { event.preventDefault(); does(); }
});
byId("whole").onclick = wholeRun;
byId("in").onclick = () => zoom(1.7, width / 2);
byId("out").onclick = () => zoom(1 / 1.7, width / 2);
byId("before").onclick = () => stepTo(-1);
byId("after").onclick = () => stepTo(1);

// ---- Words

const safe = (text) => String(text).replace(/[&<>"]/g, (each) => ({ "&": "&amp;", "<": "&lt;", ">": "&gt;", '"': "&quot;" })[each]);
const link = (action) => `<a data-action="${nameOf(action)}"><span class="dot" style="background:${colourOf(action.c)}"></span>${nameOf(action)}</a>`;
const placed = (place) => `${link(accepted[place])} at ${place}`;
const listed = (pairs) => pairs.map(([object, value]) => `${object}=${value}`).join(" ") || "nothing: it writes no object";
const fact = (name, said) => `<dt>${name}</dt><dd>${said}</dd>`;

function outcomeOf(action) {
  if (action.d) return `<span class="badge bad">dropped</span>`;
  if (action.z !== null) return `<span class="badge bad">denied</span>`;
  if (action.a === null) return `<span class="badge">no answer</span>`;
  if (isOpen(action)) return `<span class="badge warn">accepted, not finished</span>`;
  return `<span class="badge good">finished</span>`;
}

function tell(action) {
  if (!action) { byId("said").innerHTML = `<p class="quiet">None is chosen. Point at one in the picture, or choose one in the list.</p>`; return; }
  const facts = [];
  if (action.k !== null) facts.push(fact("expected", action.k === "none" ? "no guess: its client did not know all that it reads" : safe(listed(action.k))));
  if (action.p) facts.push(fact("accepted", `at position ${action.p}, by entry ${action.a} of session ${action.s}, when ${action.b} were finished`));
  if (action.x.length > 1) facts.push(fact("brought with it", action.x.filter((place) => place !== action.p).map(placed).join(", ")));
  if (action.d) {
    facts.push(fact("dropped", `by entry ${action.a}: ${action.d[0]} unfinished actions mattered to it, the farthest at a distance of ${action.d[1]}`));
    facts.push(fact("its chain", chainOf(action).map(placed).join(", ") || "none"));
  }
  if (action.z !== null) facts.push(fact("denied", `by entry ${action.a}: its client may not write object ${action.z}`));
  if (action.q.length) facts.push(fact("asked again", `by entry ${action.q.join(", ")}`));
  if (action.o !== null) facts.push(fact("result", `${safe(listed(action.w.map((object, at) => [object, action.v[at]])))}, reported by client ${action.y} in entry ${action.o}`));
  if (isLied(action)) facts.push(fact("its text gives", `<span class="badge bad">other values</span> ${safe(listed(action.w.map((object, at) => [object, action.u[at]])))}`));
  if (action.p && action.v === null) facts.push(fact("its text gives", `${safe(listed(action.w.map((object, at) => [object, action.u[at]])))}; nobody has reported it`));
  for (const wait of waitedFor.get(action.p) || []) facts.push(fact("its result waited", `for ${placed(wait.p)} (${whoHad(wait)}), from entry ${Math.max(action.o, wait.from)} ${untilOf(wait)}`));
  for (const wait of data.waits) if (wait.p === action.p) facts.push(fact("was waited for", `from entry ${wait.from} ${untilOf(wait)}, of ${whoHad(wait)}; ${meanwhileOf(wait)}`));
  if (action.r) facts.push(fact("guess", `<span class="badge warn">wrong</span> taken back when its client took the answer`));
  if (action.e !== null) facts.push(fact("finished", `by entry ${action.e}`));
  const from = action.f.map(([object, place]) => `object ${object}: ${place ? placed(place) + (place > action.b ? ", unfinished then" : "") : "the opening value"}`);
  facts.push(fact("influenced by", from.join("<br>") || "nothing"));
  if (action.p) facts.push(fact("influences", [...(influenced.get(action.p) || [])].map(link).join(", ") || "nothing that was asked"));
  byId("said").innerHTML = `<p><b>${link(action)}</b> ${outcomeOf(action)}</p><div class="text">${safe(textOf(action))}</div><dl>${facts.join("")}</dl>`;
}

// ---- Who was waited for

const untilOf = (wait) => wait.to === LAST ? "to the end" : `to ${wait.to}`;
const some = (all, shown) => all.slice(0, 4).map(shown).join(", ") + (all.length > 4 ? ` and ${all.length - 4} more` : "");
const named = ([client, number]) => actions.find((each) => each.c === client && each.n === number);
const whoHad = (wait) => {
  const did = ([client, from, to, ...silent]) => `client ${client}, silent ${silent[0] === from && silent[1] === to ? "meanwhile" : `from ${silent[0]} to ${silent[1]}`}${to < wait.to ? `, until its session was over at ${to}` : ""}`;
  const isGone = wait.who.every(([, , to]) => to < wait.to);
  return [wait.who.length ? some(wait.who, did) : "", isGone ? "nobody who was sent it is there: a client that polls is sent it" : ""].filter(Boolean).join("; then ");
};
function meanwhileOf(wait) {
  const said = [];
  if (wait.w.length) said.push(`the result${wait.w.length === 1 ? "" : "s"} of ${some(wait.w, placed)} waited`);
  if (wait.d.length) said.push(`${some(wait.d.map(named), link)} ${wait.d.length === 1 ? "was" : "were"} dropped`);
  return said.join(", and ") || "nothing waited for it";
}

function waitTable(limit) {
  if (!data.waits.length) { byId("waited").innerHTML = `<p class="quiet">Nobody: no result waited for another one.</p>`; return; }
  const sums = clients.map((client) => [client, data.waits.flatMap((wait) => wait.who.filter((who) => who[0] === client && isLong(who)))]).filter(([, all]) => all.length);
  const lines = sums.map(([client, all]) => `<li><span class="dot" style="background:${colourOf(client)}"></span>client ${client} was waited for${all.length === 1 ? "" : ` ${all.length} times`}, in all for ${all.reduce((sum, who) => sum + who[2] - who[1], 0)} entries${all.some(isAsleep) ? `; it <b>slept</b> for ${all.filter(isAsleep).reduce((sum, who) => sum + who[4] - who[3], 0)}` : ""}</li>`);
  const found = data.waits.slice().sort((a, b) => b.to - b.from - (a.to - a.from));
  const body = found.slice(0, limit).map((wait) => `<tr><td class="number">${placed(wait.p)}</td><td class="number">${wait.from} ${wait.to === LAST ? "to the end" : `to ${wait.to}`}</td><td>${whoHad(wait)}; ${meanwhileOf(wait)}</td></tr>`).join("");
  const more = found.length > limit ? `<p><a data-more="waits">all ${found.length}</a></p>` : "";
  byId("waited").innerHTML = `<p class="quiet">No action is finished before all before it are. Here one had no result when its turn came.</p>${lines.length ? `<ul class="plain">${lines.join("")}</ul>` : ""}<div class="scroll"><table><tr><th>waited for</th><th>entries</th><th>who had it, and what waited</th></tr>${body}</table></div>${more}`;
}

function whyOf(place) {
  const found = sourcesOf([place], 0);
  return `<div class="why">${found.map((each) => `<div><code>${each} ${link(accepted[each])} ${safe(textOf(accepted[each]))}</code></div>`).join("")}</div>`;
}

function story(word) {
  const object = Number(word), all = writers.get(object) || [], known = data.world[object];
  byId("object").value = word;
  if (!/^[0-9]+$/.test(word) || (data.world.length && object >= data.world.length)) { byId("story").innerHTML = `<p class="quiet">There is no object ${safe(word)}.</p>`; return; }
  const shown = all.slice(0, 500);
  const rowsOf = [`<tr><td class="number">0</td><td>the opening world</td><td class="number">${safe(all.length ? valueAfter(object, 0) : known ?? valueAfter(object, 0))}</td><td></td></tr>`];
  for (const place of shown) rowsOf.push(`<tr><td class="number">${place}</td><td>${link(accepted[place])}${place > counts.commit ? " <span class=\"badge warn\">not finished</span>" : ""}</td><td class="number">${safe(valueAfter(object, place))}</td><td><a data-why="${place}">why</a></td></tr>`);
  const more = all.length > shown.length ? `<p class="quiet">and ${all.length - shown.length} more</p>` : "";
  byId("story").innerHTML = `<p>Object ${object} was written ${all.length} times${known ? `, and is <b>${safe(known)}</b> at the end` : ""}.</p><div class="scroll"><table><tr><th>position</th><th>by</th><th>value</th><th></th></tr>${rowsOf.join("")}</table></div>${more}`;
}
byId("search").addEventListener("submit", (event) => { event.preventDefault(); story(byId("object").value.trim()); });

let place = counts.commit;
function step(to) {
  if (!Number.isInteger(to)) return;
  place = Math.min(Math.max(to, 0), Math.max(0, accepted.length - 1));
  worldTable(100);
}
byId("earlier").onclick = () => step(place - 1);
byId("later").onclick = () => step(place + 1);
byId("end").onclick = () => step(counts.commit);
byId("steps").addEventListener("submit", (event) => { event.preventDefault(); step(Number(byId("place").value)); });

function worldTable(limit) {
  const world = worldAt(place), action = accepted[place], isNew = (object) => place > 0 && world.get(object).by === place;
  const rowOf = (object) => {
    const { value, by } = world.get(object), installed = place === counts.commit && data.world.length ? data.world[object] : value;
    const other = installed !== value && value !== "?" ? ` <span class="badge bad">the actions give ${safe(value)}</span>` : "";
    return `<tr${isNew(object) ? ' class="new"' : ""}><td class="number"><a data-object="${object}">${object}</a></td><td class="number">${safe(installed)}${other}</td><td class="number">${by ? placed(by) : ""}</td></tr>`;
  };
  const shown = objects.length <= limit ? objects : [...objects.filter(isNew), ...objects.filter((object) => !isNew(object))].slice(0, limit);
  const more = objects.length > limit ? `<p><a data-more="world">all ${objects.length} objects</a></p>` : "";
  const told = data.world.length || !objects.some((object) => world.get(object).value === "?") ? "" : `<p class="quiet">?: no reply tells it. Name the scenario behind the journal.</p>`;
  const at = !place ? "before all actions" : `after ${placed(place)}: ${place <= counts.commit ? `finished${place === counts.commit ? ", the last one" : ""}` : `<span class="badge warn">not finished</span>`}${isLied(action) ? ` <span class="badge bad">reported otherwise</span>` : ""}`;
  byId("place").value = place;
  byId("objects").innerHTML = `<p class="quiet">${at}${place && !action.w.length ? "; it writes nothing" : ""}</p><div class="scroll"><table><tr><th>object</th><th>value</th><th>last written by</th></tr>${shown.map(rowOf).join("")}</table></div>${more}${told}`;
}

function actionTable(limit) {
  const kind = byId("kind").value, who = byId("who").value;
  const tests = { all: () => true, acts: (each) => !each.l, looks: (each) => each.l, waited: (each) => waitedFor.has(each.p), dropped: isLost, corrected: (each) => each.r, open: isOpen, repeated: (each) => each.q.length };
  const found = order.filter((each) => tests[kind](each) && (who === "all" || each.c === Number(who)));
  const body = found.slice(0, limit).map((each) => `<tr><td class="number">${each.p || ""}</td><td class="number">${link(each)}</td><td><code>${safe(textOf(each))}</code></td></tr>`).join("");
  const more = found.length > limit ? `<p><a data-more="list">all ${found.length}</a></p>` : "";
  byId("rows").innerHTML = found.length ? `<div class="scroll"><table><tr><th>position</th><th>action</th><th>text</th></tr>${body}</table></div>${more}` : `<p class="quiet">There are none.</p>`;
}
byId("who").innerHTML = `<option value="all">all clients</option>` + clients.map((client) => `<option value="${client}">client ${client}</option>`).join("");
if (2 * counts.looks > counts.made) byId("kind").value = "acts";
byId("kind").onchange = byId("who").onchange = () => actionTable(100);

document.addEventListener("click", (event) => {
  const at = event.target.closest("a");
  if (!at) return;
  if (at.dataset.action) { const found = actions.find((each) => nameOf(each) === at.dataset.action); if (found) choose(found); }
  if (at.dataset.object) story(at.dataset.object);
  if (at.dataset.why) { const row = at.closest("tr"), next = row.nextElementSibling; if (next && next.dataset.open) next.remove(); else row.insertAdjacentHTML("afterend", `<tr data-open="1"><td colspan="4">${whyOf(Number(at.dataset.why))}</td></tr>`); }
  if (at.dataset.more === "world") worldTable(4096);
  if (at.dataset.more === "waits") waitTable(100000);
  if (at.dataset.more === "list") actionTable(100000);
});

// What `serve` prints tells of no guess.
const guesses = actions.some((each) => each.k !== null);
const SHOWN = { all: "all", acts: "all but looks", looks: "looks", dropped: "dropped", corrected: "guessed wrong", open: "not finished", waited: "waited for another", repeated: "asked again" };
byId("kind").innerHTML = Object.entries(SHOWN).filter(([kind]) => guesses || kind !== "corrected").map(([kind, name]) => `<option value="${kind}">${name}</option>`).join("");

function icon(inside) { return `<svg width="16" height="14" viewBox="0 0 16 14">${inside}</svg>`; }
byId("legend").innerHTML = [
  [`<circle cx="8" cy="7" r="4" fill="#fff" stroke="#2f6fed" stroke-width="2"/>`, "made"],
  [`<rect x="0" y="4" width="16" height="6" rx="3" fill="#2f6fed55"/>`, "pending"],
  [`<circle cx="8" cy="7" r="4" fill="#2f6fed"/>`, "accepted and relayed"],
  [`<rect x="4" y="3" width="8" height="8" fill="#2f6fed"/>`, "result reported"],
  [`<path d="M3 8l3 3 7-9" fill="none" stroke="#12805c" stroke-width="2"/>`, "finished (committed)"],
  [`<path d="M8 2l6 10H2z" fill="#c77700"/>`, "guess was wrong"],
  [`<path d="M3 2l9 9M12 2l-9 9" stroke="#d02b3b" stroke-width="2"/>`, "dropped"],
  [`<path d="M4 0v14" stroke="#d02b3b" stroke-width="2"/><path d="M11 0v14" stroke="#12805c" stroke-width="2"/>`, "cut, joined again"],
  [`<path d="M0 7h16" stroke="#2f6fed88" stroke-width="2"/><circle cx="8" cy="7" r="3" fill="#fff" stroke="#2f6fed" stroke-width="1.6"/>`, "asked again"],
  [`<ellipse cx="8" cy="7" rx="6" ry="4" fill="none" stroke="#98a1b0" stroke-width="1.4"/><circle cx="8" cy="7" r="1.6" fill="#98a1b0"/>`, "show"],
  [`<path d="M5 4l3 3-3 3-3-3z" fill="#667085"/><circle cx="12" cy="7" r="1.2" fill="#98a1b0"/>`, "observed: news, none"],
  [`<circle cx="4" cy="7" r="1.6" fill="#2f6fed"/><circle cx="12" cy="7" r="2.2" fill="#fff" stroke="#2f6fed" stroke-width="1.6"/>`, "looked"],
  [`<rect x="0" y="1" width="16" height="12" fill="#c7770022"/><path d="M0 2h16" stroke="#c77700" stroke-width="2"/>`, "waited for"],
  [`<rect x="0" y="2" width="16" height="10" fill="#fff1d6"/>`, "not finished"],
  [`<rect x="0" y="2" width="16" height="10" fill="#d9f0e4"/>`, "finished"],
].filter(([, name]) => guesses || name !== "guess was wrong").map(([inside, name]) => `<span>${icon(inside)}${name}</span>`).join("");
const NAMES = { clients: "clients", sessions: "sessions", entries: "entries", made: "made", accepted: "accepted", dropped: "dropped", denied: "denied", looks: "looks", commit: "finished", corrected: "guessed wrong", unguessed: "no guess", rejoined: "joined again", observed: "observed", refused: "refused" };
const ONE = { clients: "client", sessions: "session", entries: "entry" };
const CLASSES = { dropped: "bad", denied: "bad", refused: "bad", corrected: "warn" };
byId("counts").innerHTML = Object.entries(NAMES).filter(([key]) => (guesses || key !== "corrected") && (counts[key] || !["denied", "looks", "unguessed", "rejoined", "observed", "refused"].includes(key))).map(([key, name]) => `<li class="${counts[key] ? CLASSES[key] || "" : ""}"><b id="count-${key}">${counts[key]}</b> ${counts[key] === 1 && ONE[key] || name}</li>`).join("");

tell(null);
worldTable(100);
waitTable(30);
actionTable(100);
window.addEventListener("resize", measure);
measure();
wholeRun();
const asked = /^#(action|position|object)=(.+)$/.exec(decodeURIComponent(location.hash));
if (asked && asked[1] === "object") story(asked[2]);
if (asked && asked[1] !== "object") { const found = asked[1] === "action" ? actions.find((each) => nameOf(each) === asked[2]) : accepted[Number(asked[2])]; if (found) choose(found); }
paint();
document.body.dataset.ready = "1";
