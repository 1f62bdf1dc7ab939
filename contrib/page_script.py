"""The program of the web page of a job, which a browser runs over the page's data."""

SCRIPT = r"""
"use strict";
const D = JSON.parse(document.getElementById("data").textContent);
const el = id => document.getElementById(id);
const last = D.events.length, many = D.workers.length > 40;
const number = value => value.toLocaleString("en");
const MOST_ROWS = 1000; // (of a table, so that the page stays quick)
const KINDS = ["map", "backup", "part"];
const HOWS = ["done", "done, and then lost with its worker", "the split's other attempt was done first", "failed",
  "withdrawn", "lost with its worker", "still runs at the end"];
const SAYS = { 0: "on a holder", 2: "in its rack", 4: "to another rack", 6: "to another centre" };
const STEPS = D.centres.length > 1 ? [0, 2, 4, 6] : [0, 2, 4];
const attempts = D.attempts.map(([kind, of, worker, start, end, how, steps, undone], at) =>
  ({ number: at + 1, kind, of, worker, start, end, how, steps, undone }));
const byWorker = D.workers.map(() => []);
for (const it of attempts) byWorker[it.worker].push(it);
const waveOf = new Map();
D.waves.forEach((wave, at) => wave[3].forEach(it => waveOf.set(it, at)));
const waveName = at => D.waves[at][6] + " " + (at + 1);
let now = 0, chosen = 0, seen = null, zoom = 1, timer = 0;

// A new element with its words, classes and attributes.
function make(tag, words = "", kind = "", attributes = {}) {
  const it = document.createElement(tag);
  if (words !== "") it.textContent = words;
  if (kind) it.className = kind;
  for (const name in attributes) it.setAttribute(name, attributes[name]);
  return it;
}

function bytes(value) {
  const units = ["bytes", "KiB", "MiB", "GiB", "TiB"];
  let at = 0;
  while (value >= 1024 && at < 4) { value /= 1024; at += 1; }
  return (at && value < 100 ? value.toFixed(1) : number(Math.round(value))) + " " + units[at];
}

const some = (count, name) => number(count) + " " + name + (count === 1 ? "" : "s");
const split = it => D.splits[it.of];
const workerName = w => D.workers[w][0];
const work = it => it.kind === 2 ? "part " + it.of : KINDS[it.kind] + " of " + split(it)[0];
const runsAt = (it, place) => it.start <= place && (it.end === 0 || it.end > place);
const isDoneAt = (it, place) => it.how < 2 && it.end <= place && (it.undone === 0 || it.undone > place);

// The lane of each attempt: the first of its worker that is free. What is hit is found by it.
for (const some of byWorker) {
  const until = [];
  for (const it of some) {
    let lane = until.findIndex(end => end <= it.start);
    if (lane < 0) lane = until.length;
    until[lane] = it.end || last + 1;
    it.lane = lane;
  }
}

// Who lives and who holds how many splits after an event.
function stateAt(place) {
  const lives = D.workers.map(() => true), held = D.splits.map(it => new Set(it[2]));
  for (const [at, what, w, splits] of D.moves) {
    if (at > place) break;
    if (what === "dies") { lives[w] = false; for (const some of held) some.delete(w); }
    if (what === "joins") lives[w] = true;
    for (const s of splits) { if (what === "loses") held[s].delete(w); else held[s].add(w); }
  }
  const holds = D.workers.map(() => 0), done = D.workers.map(() => 0), running = D.workers.map(() => []);
  for (const some of held) for (const w of some) holds[w] += 1;
  const counts = { mapped: 0, maps: new Set(), parts: 0, merging: 0 };
  for (const it of attempts) {
    if (it.start > place) break;
    if (runsAt(it, place)) {
      running[it.worker].push(it);
      if (it.kind === 2) counts.merging += 1; else counts.maps.add(it.of);
    } else if (isDoneAt(it, place)) {
      done[it.worker] += 1;
      if (it.kind === 2) counts.parts += 1; else counts.mapped += 1;
    }
  }
  return { lives, holds, done, running, counts };
}

// An event in words.
function said(place) {
  if (place === 0) return "Nothing has happened: all splits are pending, and all workers live.";
  const [keyword, ...words] = D.events[place - 1].split(" ");
  const of = it => work(it) + " on " + workerName(it.worker) + " (attempt " + it.number + ")";
  const died = D.moves.filter(it => it[0] === place && it[1] === "dies").map(it => workerName(it[2]));
  switch (keyword) {
    case "wave": case "ahead": {
      const name = waveName(D.waves.findIndex(it => it[0] === place));
      return name[0].toUpperCase() + name.slice(1) + " starts " + some(+words[0], "map") +
        ", at a byte-distance of " + number(+words[1]);
    }
    case "backup": case "reduce": return "Started: " + of(attempts[words[0] - 1]);
    case "done": return "Done: " + of(attempts[words[0] - 1]);
    case "fail": return "Failed: " + of(attempts[words[0] - 1]);
    case "withdraw": return "Withdrawn: " + of(attempts[words[0] - 1]);
    case "die": return words[0] + " dies";
    case "join": return words[0] + " returns with " + some(words.length - 1, "split");
    case "add": return words[1] + " holds " + words[0] + " too";
    case "lose": return words[1] + " holds " + words[0] + " no more";
    case "sweep": return "A sweep reads the beats" + (died.length ? ", and finds dead: " + died.join(", ") : "");
  }
  return D.events[place - 1];
}

function about(it) {
  const lines = ["attempt " + it.number + ", " + work(it) + " on " + workerName(it.worker)];
  lines.push("from event " + number(it.start) + (it.end ? " to " + number(it.end) : "") + ": " + HOWS[it.how]);
  if (it.undone) lines.push("lost at event " + number(it.undone));
  if (it.kind < 2) {
    const steps = it.steps < 0 ? "no holder lives" : it.steps + " steps, " + SAYS[it.steps];
    lines.push(bytes(split(it)[1]) + ", " + steps);
    const wave = D.waves[waveOf.get(it.number)];
    if (wave && wave[5].length) {
      lines.push("price of the split " + number(wave[5][it.of]) + ", of a slot of the worker " +
        number(wave[5][D.splits.length + it.worker]));
    }
  }
  return lines.join("\n");
}

// Of a wave how many maps went how many steps, and the bytes.
function moved(wave) {
  const found = Object.fromEntries(STEPS.map(it => [it, [0, 0]]));
  for (const at of wave[3]) {
    const it = attempts[at - 1], row = found[it.steps] || (found[it.steps] = [0, 0]);
    row[0] += 1; row[1] += split(it)[1];
  }
  return found;
}

function aboutWave(at) {
  const wave = D.waves[at], rows = moved(wave);
  const lines = [waveName(at) + ", event " + number(wave[0]) + ": " + some(wave[1], "map") + ", byte-distance " +
    number(wave[2])];
  for (const steps of STEPS) if (rows[steps][0]) {
    lines.push(number(rows[steps][0]) + " " + SAYS[steps] + ", " + bytes(rows[steps][1]) + (steps ? " moved" : ""));
  }
  if (wave[5].length) {
    const of = wave[5].map((price, i) => [price, i]).filter(it => it[0]).sort((a, b) => b[0] - a[0]).slice(0, 4);
    const name = i => i < D.splits.length ? "split " + D.splits[i][0] : "slot of " + workerName(i - D.splits.length);
    if (of.length) lines.push("greatest prices: " + of.map(it => name(it[1]) + " " + number(it[0])).join(", "));
    lines.push("with its prices: " + wave[4]);
  }
  return lines.join("\n");
}

// ---- what stays
function facts() {
  el("slider").max = last;
  document.querySelector("h1").textContent = D.title;
  const [keyword, count] = D.ending.split(" ");
  el("ending").textContent = keyword === "index" ? "Done: an index of " + number(+count) + " words."
    : +count ? "Stuck: " + number(+count) + " splits are open." : "Every split is done, and not every part is told of.";
  const kinds = what => D.moves.filter(it => it[1] === what).length;
  const planned = keyword => D.waves.filter(it => it[6] === keyword).length;
  const plural = { copy: "copies", "plan ahead": "plans ahead" };
  const list = [
    [D.centres.length, "data centre"], [D.racks.length, "rack"], [D.workers.length, "worker"],
    [D.splits.length, "split"], [D.documents, "document"], [D.parts, "part"], [last, "event"],
    [planned("wave"), "wave"], [planned("ahead"), "plan ahead"], [attempts.length, "attempt"],
    [attempts.filter(it => it.kind === 1).length, "backup"],
    [kinds("dies"), "death"], [kinds("joins"), "return"], [kinds("adds"), "copy"], [D.ignored, "ignored command"],
  ];
  for (const [count, name] of list) if (count) {
    const it = make("li", " " + (count === 1 ? name : plural[name] || name + "s"));
    it.prepend(make("b", number(count)));
    el("facts").append(it);
  }
  const total = D.splits.reduce((sum, it) => sum + it[1], 0);
  el("facts").append(make("li", bytes(total) + " of splits"));
}

function legend() {
  const list = STEPS.map(steps => [steps + " " + SAYS[steps], { kind: 0, how: 0, steps }]);
  list.push(["part", { kind: 2, how: 0, steps: -1 }], ["backup", { kind: 1, how: 0, steps: 0 }]);
  const found = new Set(attempts.map(it => it.how));
  HOWS.forEach((words, how) => { if (how && found.has(how)) list.push([words, { kind: 0, how, steps: 0 }]); });
  el("legend").replaceChildren();
  for (const [words, it] of list) {
    const item = make("li"), canvas = make("canvas", "", "", { width: 52, height: 28, "aria-hidden": "true" });
    const pen = canvas.getContext("2d");
    pen.scale(2, 2);
    bar(pen, it, 1, 1, 24, 12, inks());
    item.append(canvas, make("span", words));
    el("legend").append(item);
  }
}

const workerRows = [];
function cluster() {
  const boxes = D.centres.map(name => {
    const box = make("div", "", "centre"), racks = make("div", "", "racks");
    box.append(make("div", name), racks);
    el("cluster").append(box);
    return racks;
  });
  const racks = D.racks.map(([name, centre]) => {
    const box = make("div", "", "rack"), list = make("div");
    box.append(make("div", name, "faint"), list);
    (boxes[centre] || el("cluster")).append(box);
    return list;
  });
  const letters = Math.max(...D.short.map(it => it.length), 1);
  el("cluster").classList.toggle("many", many);
  const sizes = racks.map(() => 0);
  D.workers.forEach(([name, rack, slots], w) => {
    const row = make("div", "", "worker"), cells = make("div", "", "cells");
    cells.style.gridTemplateColumns = "repeat(" + Math.max(Math.min(slots, many ? 16 : 4), 1) + ", " +
      (many ? "10px" : "88px") + ")";
    const all = Array.from({ length: slots }, () => make("span", "", "cell"));
    cells.append(...all);
    row.append(make("b", D.short[w].padEnd(letters)), cells);
    row.addEventListener("mouseenter", () => { chosen = w; showWorker(); });
    row.addEventListener("mousemove", event => {
      const at = all.indexOf(event.target);
      tip(event, at >= 0 && all[at].of ? about(all[at].of) : aboutWorker(w));
    });
    row.addEventListener("mouseleave", noTip);
    racks[rack].append(row);
    sizes[rack] += 1;
    workerRows[w] = { row, all };
  });
  racks.forEach((list, rack) => {
    const rows = Math.ceil(sizes[rack] / Math.ceil(sizes[rack] / 24)) || 1;
    list.style.gridTemplateRows = "repeat(" + rows + ", auto)";
  });
}

function aboutWorker(w) {
  const [name, rack, slots] = D.workers[w];
  const runs = seen.running[w].map(work);
  return name + " in " + D.racks[rack][0] + (seen.lives[w] ? "" : ", dead") + ": " + runs.length + " of " + slots +
    " slots taken" + (runs.length ? " (" + runs.slice(0, 6).join(", ") + (runs.length > 6 ? ", .." : "") + ")" : "") +
    "; holds " + some(seen.holds[w], "split") + "; what it has done stands of " + some(seen.done[w], "attempt");
}

function tables() {
  const head = (table, names) => {
    const row = make("tr");
    names.forEach(([words, side]) => row.append(make("th", words, side, { scope: "col" })));
    table.append(row);
  };
  const hasPrices = D.waves.some(it => it[4]);
  el("noPrices").hidden = hasPrices;
  head(el("waves"), [["wave"], ["maps"], ["byte-distance"], ...STEPS.map(it => [SAYS[it]]), ...(hasPrices ?
    [["with its prices", "left"]] : [])]);
  D.waves.slice(0, MOST_ROWS).forEach((wave, at) => {
    const row = make("tr"), rows = moved(wave), cell = make("td");
    cell.append(go(wave[0], waveName(at)));
    row.append(cell, make("td", number(wave[1])), make("td", number(wave[2])));
    for (const steps of STEPS) {
      row.append(make("td", rows[steps][0] ? number(rows[steps][0]) + ", " + bytes(rows[steps][1]) : ""));
    }
    if (hasPrices) row.append(make("td", wave[4], "left"));
    row.addEventListener("mousemove", event => tip(event, aboutWave(at)));
    row.addEventListener("mouseleave", noTip);
    row.addEventListener("focusin", () => tip(row, aboutWave(at)));
    row.addEventListener("focusout", noTip);
    el("waves").append(row);
  });
  head(el("others"), [["event"], ["what", "left"]]);
  const list = [];
  D.events.forEach((line, at) => {
    const died = line.startsWith("sweep") && D.moves.some(it => it[0] === at + 1);
    if (died || /^(die|join|fail|withdraw|backup|add|lose)/.test(line)) list.push(at + 1);
  });
  for (const place of list.slice(0, MOST_ROWS)) {
    const row = make("tr"), cell = make("td");
    cell.append(go(place, number(place)));
    row.append(cell, make("td", said(place), "left"));
    el("others").append(row);
  }
  for (const [id, all] of [["waves", D.waves], ["others", list]]) if (all.length > MOST_ROWS) {
    el(id).append(make("caption", number(all.length - MOST_ROWS) + " more are in the time line"));
  }
  el("others").closest("section").hidden = !list.length;
  for (const id of ["h-waves", "h-starts"]) el(id).closest("section").hidden = !D.waves.length;
}

// A button that goes to an event.
function go(place, words) {
  const it = make("button", words, "", { type: "button" });
  it.addEventListener("click", () => show(place));
  return it;
}

// ---- what turns with the event
let shownWave = -1;
function showStarts() {
  let at = -1;
  D.waves.forEach((wave, i) => { if (wave[0] <= now) at = i; });
  [...el("waves").rows].forEach((row, i) => row.classList.toggle("now", i - 1 === at));
  if (at === shownWave) return;
  shownWave = at;
  const table = el("starts");
  table.replaceChildren();
  el("h-starts").textContent = at < 0 ? "No wave has started" : "What " + waveName(at) + " started";
  if (at < 0) return;
  const wave = D.waves[at], row = make("tr"), priced = wave[5].length > 0;
  for (const words of ["split", "worker"]) row.append(make("th", words, "left", { scope: "col" }));
  for (const words of ["attempt", "bytes", "steps", ...(priced ? ["price of the split", "price of a slot"] : [])]) {
    row.append(make("th", words, "", { scope: "col" }));
  }
  table.append(row);
  for (const i of wave[3]) {
    const it = attempts[i - 1], line = make("tr");
    line.append(make("td", split(it)[0], "left"), make("td", workerName(it.worker), "left"), make("td", number(i)),
      make("td", number(split(it)[1])), make("td", it.steps + " " + SAYS[it.steps]));
    if (priced) line.append(make("td", number(wave[5][it.of])),
      make("td", number(wave[5][D.splits.length + it.worker])));
    table.append(line);
  }
}

function progress() {
  const { mapped, maps, parts, merging } = seen.counts;
  const rows = [["splits", mapped, maps.size, D.splits.length], ["parts", parts, merging, D.parts]];
  el("progress").replaceChildren();
  for (const [name, done, runs, all] of rows) {
    const track = make("div", "", "track", { role: "img", "aria-label": name + ": " + done + " of " + all + " done, " +
      runs + " running" });
    for (const [count, colour] of [[done, "var(--good)"], [runs, "var(--near)"]]) {
      const piece = make("i");
      piece.style.width = (all ? 100 * count / all : 0) + "%";
      piece.style.background = colour;
      track.append(piece);
    }
    el("progress").append(make("span", name), track,
      make("span", number(done) + " of " + number(all) + " done, " + number(runs) + " run"));
  }
}

function showCluster() {
  workerRows.forEach(({ row, all }, w) => {
    row.classList.toggle("dead", !seen.lives[w]);
    const by = [];
    for (const it of seen.running[w]) by[it.lane % Math.max(all.length, 1)] = it;
    all.forEach((cell, at) => {
      const it = by[at];
      if (cell.of === it) return;
      cell.of = it;
      cell.className = "cell" + (!it ? "" : it.kind === 2 ? " part" : " s" + it.steps);
      cell.classList.toggle("backup", !!it && it.kind === 1);
      cell.textContent = !it ? "" : many ? (it.kind === 2 ? "" : it.steps)
        : it.kind === 2 ? "part " + it.of : D.shortSplits[it.of] + " " + it.steps;
    });
  });
}

function showWorker() {
  if (!D.workers.length) return;
  workerRows.forEach(({ row }, w) => row.classList.toggle("chosen", w === chosen));
  el("worker").textContent = aboutWorker(chosen);
}

function show(place) {
  now = Math.max(0, Math.min(last, place));
  el("slider").value = now;
  el("at").textContent = number(now) + " of " + number(last);
  el("slider").setAttribute("aria-valuetext", "event " + now + " of " + last);
  el("said").textContent = said(now);
  seen = stateAt(now);
  progress();
  showCluster();
  showWorker();
  showStarts();
  draw();
}

// ---- the time line
const pixels = { left: 0, top: 26, foot: 24, row: D.workers.length <= 16 ? 26 : D.workers.length <= 64 ? 18 : 12 };
const font = size => size + "px ui-monospace, monospace";

function inks() {
  const style = getComputedStyle(document.documentElement), found = {};
  for (const name of ["paper", "ink", "faint", "line", "box", "accent", "good", "near", "far", "bad", "grey"]) {
    found[name] = style.getPropertyValue("--" + name);
  }
  return found;
}

// A bar: its colour tells the steps, its form how the attempt ended.
function bar(pen, it, x, y, wide, high, ink) {
  const colour = it.kind === 2 ? ink.grey : ink[{ 0: "good", 2: "near", 4: "far", 6: "bad" }[it.steps] || "faint"];
  const hollow = it.how === 2 || it.how === 4 || it.how === 5;
  if (high < 4) { // (no room for an edge)
    pen.fillStyle = it.how === 5 ? ink.bad : hollow || it.how === 1 ? ink.faint : colour;
    pen.fillRect(x, y, wide, high);
    return;
  }
  pen.fillStyle = hollow ? ink.paper : colour;
  pen.beginPath();
  pen.roundRect(x, y, wide, high, it.kind === 2 ? Math.min(wide, high) / 2 : 0);
  pen.fill();
  if (hollow || it.how === 1) {
    pen.strokeStyle = it.how === 5 ? ink.bad : it.how === 1 ? ink.ink : ink.faint;
    pen.setLineDash(it.how === 4 ? [] : [3, 2]);
    pen.lineWidth = 1.4;
    pen.stroke();
    pen.setLineDash([]);
  }
  const mark = (x1, y1, x2, y2, width) => {
    pen.strokeStyle = ink.ink;
    pen.lineWidth = width;
    pen.beginPath();
    pen.moveTo(x1, y1);
    pen.lineTo(x2, y2);
    pen.stroke();
  };
  if (it.kind === 1) mark(x, y + high - 1, x + wide, y + high - 1, 1.5);
  if (it.how === 3) mark(x + wide, y, x + wide, y + high, 2.5);
  if (it.how === 5) mark(x + Math.max(wide - high, 0), y + high, x + wide, y, 1);
  if (it.how === 6) mark(x + wide - 4, y, x + wide, y + high / 2, 1.4);
  if (it.how === 6) mark(x + wide, y + high / 2, x + wide - 4, y + high, 1.4);
}

// The first and the last place that are in view, about the present one where it is closer.
function view() {
  const span = Math.max((last + 1) / zoom, 2);
  const from = Math.max(0.5, Math.min(now - span / 2, last + 1 - span));
  return [from, Math.min(from + span, Math.max(last + 1, 2.5))];
}

// The time line but for what turns with the event, which is drawn anew where the view, the room or the scheme has.
const base = document.createElement("canvas");
let drawn = "";
function draw() {
  const canvas = el("lines").querySelector("canvas"), ink = inks(), [from, to] = view();
  const wide = Math.max(el("lines").clientWidth, 160), high = pixels.top + pixels.row * D.workers.length + pixels.foot;
  const sharp = Math.min(window.devicePixelRatio || 1, 2), key = [from, to, wide, sharp, ink.paper].join();
  const bottom = high - pixels.foot;
  if (key !== drawn) {
    drawn = key;
    for (const it of [canvas, base]) { it.width = Math.round(wide * sharp); it.height = Math.round(high * sharp); }
    canvas.style.width = wide + "px";
    canvas.style.height = high + "px";
    const pen = base.getContext("2d");
    pen.setTransform(sharp, 0, 0, sharp, 0, 0);
    drawBase(pen, ink, from, to, wide, high, bottom);
  }
  const pen = canvas.getContext("2d");
  pen.setTransform(1, 0, 0, 1, 0, 0);
  pen.drawImage(base, 0, 0);
  pen.setTransform(sharp, 0, 0, sharp, 0, 0);
  pen.strokeStyle = ink.accent;
  pen.lineWidth = 2;
  const x = pixels.x(now);
  pen.beginPath(); pen.moveTo(x, pixels.top - 8); pen.lineTo(x, bottom + 4); pen.stroke();
  pen.fillStyle = ink.accent;
  if (D.workers.length) pen.fillRect(0, pixels.top + chosen * pixels.row, 3, pixels.row);
  el("view").textContent = zoom === 1 ? "all " + number(last) + " events" :
    "events " + number(Math.ceil(from)) + " to " + number(Math.min(Math.floor(to), last));
  el("zoomOut").disabled = zoom === 1;
  el("zoomIn").disabled = (last + 1) / zoom <= 16;
}

function drawBase(pen, ink, from, to, wide, high, bottom) {
  pen.fillStyle = ink.paper;
  pen.fillRect(0, 0, wide, high);
  const size = Math.min(pixels.row - 1, 12);
  pen.font = font(size);
  pixels.left = Math.max(0, ...D.short.map(it => pen.measureText(it).width)) + 14;
  pixels.wide = wide - pixels.left - 12;
  const x = pixels.x = place => pixels.left + pixels.wide * (place - from) / (to - from);
  pixels.place = at => Math.round(from + (at - pixels.left) / pixels.wide * (to - from) - 0.25);
  D.workers.forEach((_, w) => {
    const y = pixels.top + w * pixels.row;
    if (w % 2 === 0) { pen.fillStyle = ink.box; pen.fillRect(0, y, wide, pixels.row); }
    pen.fillStyle = ink.ink;
    pen.textBaseline = "middle";
    pen.fillText(D.short[w], 6, y + pixels.row / 2);
  });
  pen.save();
  pen.beginPath();
  pen.rect(pixels.left - 4, 0, pixels.wide + 16, high);
  pen.clip();
  pen.textBaseline = "alphabetic";
  waveLines(pen, ink, from, to, bottom);
  for (const it of attempts) {
    const end = it.end || last + 1;
    if (end < from || it.start > to) continue;
    const lanes = Math.max(D.workers[it.worker][2], 1), each = (pixels.row - 4) / lanes;
    const y = pixels.top + it.worker * pixels.row + 2 + (it.lane % lanes) * each;
    const left = x(it.start), width = Math.max(x(end) - left - (each > 4 ? 2 : 0.5), 1.5);
    bar(pen, it, left, y, width, Math.max(each - (each > 3 ? 1 : 0), 0.7), ink);
    if (each >= 10 && width > 26) words(pen, it, left, y, width, each, ink);
  }
  marks(pen, ink, from, to);
  ticks(pen, ink, from, to, bottom);
  pen.restore();
}

function waveLines(pen, ink, from, to, bottom) {
  let after = -100;
  pen.strokeStyle = pen.fillStyle = ink.faint;
  pen.lineWidth = 1;
  pen.font = font(11);
  D.waves.forEach((wave, at) => {
    const x = pixels.x(wave[0]);
    if (wave[0] < from || wave[0] > to || x < after && at % 8) return;
    pen.setLineDash([2, 3]);
    pen.beginPath(); pen.moveTo(x, pixels.top - 8); pen.lineTo(x, bottom); pen.stroke();
    pen.setLineDash([]);
    if (x < after) return;
    pen.fillText(waveName(at), x, pixels.top - 11);
    after = x + pen.measureText(waveName(at) + "  ").width;
  });
}

function words(pen, it, left, y, width, each, ink) {
  const name = it.kind === 2 ? "part " + it.of : D.shortSplits[it.of];
  pen.font = font(10);
  if (pen.measureText(name).width > width - 6) return;
  pen.fillStyle = it.how === 2 || it.how === 4 || it.how === 5 ? ink.ink : "#111111";
  pen.fillText(name, left + 3, y + each / 2 + 3);
}

// Deaths as crosses, returns as arrows, copies as rhombs.
function marks(pen, ink, from, to) {
  const size = Math.max(Math.min(pixels.row / 3.2, 6), 3);
  for (const [place, what, w] of D.moves) {
    if (place < from || place > to || what === "loses") continue;
    const x = pixels.x(place), y = pixels.top + w * pixels.row + pixels.row / 2;
    pen.beginPath();
    if (what === "dies") {
      pen.moveTo(x - size, y - size); pen.lineTo(x + size, y + size);
      pen.moveTo(x - size, y + size); pen.lineTo(x + size, y - size);
    } else if (what === "joins") {
      pen.moveTo(x - size, y - size); pen.lineTo(x + size, y); pen.lineTo(x - size, y + size); pen.closePath();
    } else {
      pen.moveTo(x, y - size); pen.lineTo(x + size * 0.7, y); pen.lineTo(x, y + size); pen.lineTo(x - size * 0.7, y);
      pen.closePath();
    }
    pen.strokeStyle = ink.ink;
    pen.lineWidth = 2;
    pen.stroke();
  }
}

function ticks(pen, ink, from, to, bottom) {
  let step = 1;
  for (const times of [1, 2, 5, 10, 20, 50, 100, 200, 500, 1000, 2000, 5000, 10000, 20000]) {
    if ((to - from) / step <= 14) break;
    step = times;
  }
  pen.fillStyle = ink.faint;
  pen.font = font(11);
  pen.textAlign = "center";
  for (let place = Math.ceil(from / step) * step; place <= Math.min(to, last); place += step) {
    if (place > 0) pen.fillText(number(place), pixels.x(place), bottom + 15);
  }
  pen.textAlign = "left";
}

// The worker and the attempt under a pointer.
function under(event) {
  const area = el("lines").querySelector("canvas").getBoundingClientRect();
  const x = event.clientX - area.left, y = event.clientY - area.top - pixels.top;
  const w = Math.floor(y / pixels.row), place = pixels.place(x);
  if (w < 0 || w >= D.workers.length) return { w: -1, place, x };
  const lanes = Math.max(D.workers[w][2], 1);
  const lane = Math.floor((y - w * pixels.row - 2) / ((pixels.row - 4) / lanes));
  const on = byWorker[w].filter(it => pixels.x(it.start) <= x && x <= pixels.x(it.end || last + 1));
  return { w, place, x, it: on.find(it => it.lane % lanes === lane) || on[0] };
}

function tip(where, text) {
  const box = el("tip");
  box.textContent = text;
  box.hidden = false;
  const area = where.getBoundingClientRect && where.getBoundingClientRect();
  const x = area ? area.left + 40 : where.clientX + 14, y = area ? area.bottom + 4 : where.clientY + 16;
  box.style.left = Math.max(4, Math.min(x, window.innerWidth - box.offsetWidth - 8)) + "px";
  box.style.top = (y + box.offsetHeight > window.innerHeight ? Math.max(4, y - box.offsetHeight - 30) : y) + "px";
}

function noTip() { el("tip").hidden = true; }

function hover(event) {
  const { w, it, x } = under(event);
  const near = D.waves.findIndex(wave => Math.abs(pixels.x(wave[0]) - x) < 4);
  if (w >= 0 && w !== chosen) { chosen = w; showWorker(); draw(); }
  if (near >= 0 && (!it || w < 0)) tip(event, aboutWave(near));
  else if (it) tip(event, about(it) + (near >= 0 && it.start === D.waves[near][0] ? "\n" + aboutWave(near) : ""));
  else if (w >= 0) tip(event, aboutWorker(w));
  else noTip();
}

// ---- keys and buttons
function nextWave(step) {
  const places = [0, ...D.waves.map(it => it[0]), last];
  show(step > 0 ? places.find(it => it > now) ?? last : places.filter(it => it < now).pop() ?? 0);
}

function play() {
  const plays = timer !== 0;
  if (plays) { clearInterval(timer); timer = 0; }
  else {
    if (now === last) show(0);
    const pace = Math.max(1, Math.round(last / 600));
    timer = setInterval(() => { show(now + pace); if (now === last) play(); }, 100);
  }
  el("play").textContent = plays ? "Play" : "Stop";
  el("play").setAttribute("aria-pressed", String(!plays));
}

function keys(event) {
  const inLines = document.activeElement === el("lines");
  if (event.ctrlKey || event.metaKey || event.altKey) return;
  if (document.activeElement !== document.body && !inLines) return;
  const step = { ArrowLeft: -1, ArrowRight: 1 }[event.key];
  if (step) show(now + step);
  else if (inLines && (event.key === "ArrowUp" || event.key === "ArrowDown")) {
    chosen = Math.max(0, Math.min(D.workers.length - 1, chosen + (event.key === "ArrowUp" ? -1 : 1)));
    showWorker();
    draw();
    const y = pixels.top + chosen * pixels.row, box = el("lines");
    const isSeen = y >= box.scrollTop && y + pixels.row <= box.scrollTop + box.clientHeight;
    if (!isSeen) box.scrollTop = y - box.clientHeight / 2;
  } else if (inLines && event.key === "Home") show(0);
  else if (inLines && event.key === "End") show(last);
  else return;
  event.preventDefault();
}

function closer(times) {
  zoom = Math.max(1, Math.min(zoom * times, (last + 1) / 8));
  draw();
}

function begin() {
  facts();
  legend();
  cluster();
  tables();
  el("slider").addEventListener("input", event => show(+event.target.value));
  el("back").addEventListener("click", () => show(now - 1));
  el("on").addEventListener("click", () => show(now + 1));
  el("waveBack").addEventListener("click", () => nextWave(-1));
  el("waveOn").addEventListener("click", () => nextWave(1));
  el("play").addEventListener("click", play);
  el("zoomIn").addEventListener("click", () => closer(2));
  el("zoomOut").addEventListener("click", () => closer(0.5));
  document.addEventListener("keydown", keys);
  el("lines").addEventListener("click", event => {
    const { x, place } = under(event);
    if (x > pixels.left) show(place);
  });
  el("lines").addEventListener("mousemove", hover);
  el("lines").addEventListener("mouseleave", noTip);
  el("lines").addEventListener("scroll", noTip);
  document.addEventListener("keydown", event => { if (event.key === "Escape") noTip(); });
  window.addEventListener("resize", draw);
  window.addEventListener("hashchange", () => show(+location.hash.slice(1) || 0));
  window.matchMedia("(prefers-color-scheme: dark)").addEventListener("change", () => { legend(); draw(); });
  show(location.hash ? +location.hash.slice(1) || 0 : last);
}

begin();
"""
