// The page of tools/preview.py, which puts this script and preview_paint.js into preview.html. It asks its server for frames as
// raw planes and shows them, and it hears from the server when a script was read again.
"use strict";

const KEYS = [["Space", "play, stop"], ["← →", "one frame back, on; with Shift ten"],
  ["Page Up  Page Down", "a second back, on"], ["Home  End", "first frame, last frame"],
  ["0 … 9", "the number of a frame; Enter goes there"], ["+ −  wheel", "zoom; drag moves"],
  ["F", "the whole picture"], ["C", "colour: all planes"], ["Y  U  V", "one plane alone"], ["M", "matrix: by height, 601, 709"],
  ["R", "range: limited, full"], ["W  H", "waveform, histogram"], ["X", "swap the two scripts"], ["S", "split at the pointer"],
  ["D", "difference, times 8"], ["P", "the shown frame as PNG"], ["L", "read the scripts again"],
  ["?", "this help; Esc closes it"]];
const ZOOMS = [0, 1, 2, 4, 8];  // 0 is the whole picture
const KEPT_BYTES = 384 << 20;
const AHEAD_AT_ONCE = 2;  // requests of a script
const LONG = 250;  // milliseconds of a frame
const SCREEN = 60;  // pictures a second
const PREPARED = 3;  // frames that are made ready while it plays
const SAMPLES_AT_PLAY = 250000;  // that the scopes take while it plays, and how often, in milliseconds
const SCOPES_AT_PLAY = 80;
const WHEEL = 120;  // milliseconds between two steps of the wheel, as some wheels have many

const $ = id => document.getElementById(id);
const stage = $("stage");
// The frame that is wanted and the one that is seen, how it is shown, the middle of the stage as a place of the picture, where
// the split is, and the pointer's place on the stage.
const view = {n: 0, seen: -1, front: 0, mode: "one", plane: 0, matrix: "", range: "limited", zoom: 0, x: 0, y: 0, line: 0.5,
  pointer: null, waveform: true, histogram: true, direction: 1, last: 0};
let clips = [], play = null, painter = null, gone = false, scopesWait = 0;

// ---- Frames: asked, kept and dropped ----

const kept = new Map();  // frames by clip, version and number; the one that was used last is last
let keptBytes = 0;
const numberIn = (clip, n) => Math.min(n, clip.info.frames - 1);
const keyOf = (clip, n) => `${clip.index}/${clip.version}/${numberIn(clip, n)}`;
const hasFrame = (clip, n) => kept.has(keyOf(clip, n));

function keep(clip, n, data) {
  const info = clip.info, Samples = info.bits > 8 ? Uint16Array : Uint8Array, planes = [];
  let at = 0;
  for (const [width, height] of info.planes) {
    planes.push({width, height, samples: new Samples(data, at, width * height)});
    at += width * height * Samples.BYTES_PER_ELEMENT;
  }
  const key = keyOf(clip, n);
  if (kept.has(key)) drop(key);
  kept.set(key, {clip, n, info, planes, bytes: data.byteLength});
  keptBytes += data.byteLength;
  for (const oldest of kept.keys()) {
    if (keptBytes <= KEPT_BYTES || kept.size <= 8) break;
    drop(oldest);
  }
}

function drop(key) {
  keptBytes -= kept.get(key).bytes;
  kept.delete(key);
}

function frameAt(clip, n) {
  const key = keyOf(clip, n), frame = kept.get(key);
  if (frame) {
    kept.delete(key);
    kept.set(key, frame);
  }
  return frame;
}

// Asks for a frame. One that is asked ahead waits, in the server too, while another is wanted.
async function ask(clip, n, ahead) {
  const job = {control: new AbortController(), ahead, begun: performance.now()}, {version, jobs} = clip;
  jobs.set(n, job);
  try {
    const answer = await fetch(`frame?clip=${clip.index}&version=${version}&n=${n}${ahead ? "&ahead=1" : ""}`,
      {signal: job.control.signal, cache: "no-store"});
    const data = answer.ok ? await answer.arrayBuffer() : null;
    if (clip.version !== version) return;
    if (data) keep(clip, n, data);
    else clip.stale = true;  // its session is over, and the news will say why
    clip.cost = performance.now() - Math.max(job.begun, clip.last);
    clip.last = performance.now();
  } catch (error) {
    if (error.name !== "AbortError") later(clip);
  } finally {
    if (jobs.get(n) === job) jobs.delete(n);
  }
  if (clip.version === version) arrived(clip, n, ahead);
}

// The server didn't answer: it is asked again in a second, if it is still there.
function later(clip) {
  clip.stale = true;
  setTimeout(() => {
    clip.stale = false;
    pump();
  }, 1000);
}

function arrived(clip, n, ahead) {
  if (view.seen !== view.n) {
    // A frame on the way to where the slider is by now is shown too.
    if (!show() && !ahead && !play && clip === clips[view.front] && hasFrame(clip, n)) show(n);
  }
  pump();
}

// The scripts that are shown, the one in front first.
function shownClips() {
  if (clips.length < 2) return clips;
  return view.mode === "one" ? [clips[view.front]] : [clips[view.front], clips[1 - view.front]];
}

// Asks for what is to be shown, and once that is there for what may be shown next.
function pump() {
  let lacks = false;
  for (const clip of shownClips()) {
    if (!clip.info || hasFrame(clip, view.n)) continue;
    lacks = true;
    const n = numberIn(clip, view.n), jobs = [...clip.jobs];
    if (clip.stale || jobs.some(([number, job]) => number === n || !job.ahead)) continue;
    giveUp(clip);
    ask(clip, n, false);
  }
  if (lacks) return;
  if (play) prepare();
  for (const [clip, n] of aheads()) {
    if (clip.jobs.size < AHEAD_AT_ONCE && !clip.jobs.has(n) && !clip.stale) ask(clip, n, true);
  }
}

// The next frames are made ready to be painted.
function prepare() {
  const [clip, other] = shownClips();
  if (!clip.info || other || !painter) return;
  for (let n = view.n + 1; n <= Math.min(view.n + PREPARED, lastFrame()); n++) {
    if (hasFrame(clip, n)) painter.prepare(kept.get(keyOf(clip, n)), view.plane, view);
  }
}

// Whether a script's frame can be painted.
const canPaint = (clip, n) => clip.info && hasFrame(clip, n) && painter.isReady(kept.get(keyOf(clip, n)));

const giveUp = clip => clip.jobs.forEach(job => job.control.abort());

// What may be shown next, the likeliest first. Where a frame takes long nothing is asked ahead, since a seek would wait for it.
function aheads() {
  const shown = shownClips().filter(it => it.info), made = [];
  const add = (clip, n) => {
    if (n >= 0 && n < clip.info.frames && !hasFrame(clip, n) && (play || clip.cost < LONG)) made.push([clip, n]);
  };
  if (play) {
    const bytes = shown.reduce((sum, it) => sum + it.info.width * it.info.height * 3, 1);
    const far = Math.max(2, Math.min(24, Math.floor(KEPT_BYTES / bytes / 2)));
    for (let i = 1; i <= far; i++) for (const clip of shown) add(clip, view.n + i);
    return made;
  }
  for (const clip of clips) if (clip.info && !shown.includes(clip)) add(clip, numberIn(clip, view.n));
  for (const i of [1, -1, 2, 3]) for (const clip of shown) add(clip, view.n + i * view.direction);
  return made;
}

// ---- News of the scripts ----

async function listen() {
  for (let after = 0; ;) {
    try {
      const state = await (await fetch(`state?after=${after}`, {cache: "no-store"})).json();
      after = state.number;
      gone = false;
      take(state.clips);
    } catch (error) {
      gone = true;
      describe();
      await new Promise(done => setTimeout(done, 1000));
    }
  }
}

function take(told) {
  if (!clips.length) clips = told.map((_, index) => ({index, version: -1, jobs: new Map()}));
  told.forEach((it, index) => {
    const clip = clips[index];
    if (clip.version === it.version) return;
    giveUp(clip);
    for (const [key, frame] of kept) if (frame.clip === clip) drop(key);
    Object.assign(clip, it, {jobs: new Map(), stale: false, cost: 0, last: 0});
    view.seen = -1;
  });
  refresh();
}

// ---- What is shown ----

// A canvas keeps the kind of its first painter, so each painter has its own.
function paintBy(Kind) {
  const canvas = document.createElement("canvas");
  canvas.id = "picture";
  const made = new Kind(canvas);
  if (painter) painter.close();
  painter = made;
  $("picture").replaceWith(canvas);
  canvas.addEventListener("webglcontextlost", () => {
    paintBy(PlainPainter);
    refresh();
  });
}

function choosePainter(width, height) {
  const most = Math.max(width, height);
  if (painter && most <= painter.most) return;
  if (!painter) {
    try {
      paintBy(CardPainter);
    } catch (error) {
      paintBy(PlainPainter);
    }
  }
  if (most > painter.most) paintBy(PlainPainter);
}

// Width and height of what is shown; where nothing is, those of the picture that was.
function sidesOf() {
  const infos = shownClips().filter(it => it.info).map(it => it.info), canvas = $("picture");
  if (!infos.length) return [canvas.width, canvas.height];
  return [Math.max(...infos.map(it => it.width)), Math.max(...infos.map(it => it.height))];
}

// Shows frame n, where all of it is there.
function show(n = view.n) {
  const frames = shownClips().filter(it => it.info).map(it => frameAt(it, n)), [width, height] = sidesOf();
  if (!frames.length || frames.some(it => !it)) return false;
  choosePainter(width, height);
  const canvas = $("picture");
  if (canvas.width !== width || canvas.height !== height) {
    Object.assign(canvas, {width, height});
    place();
  }
  const line = Math.round(view.line * width);
  painter.paint({width, height, frames, mode: MODES[view.mode], line, plane: view.plane, look: view});
  if (view.seen !== n) {
    view.seen = n;
    // The picture comes first, and of many in a row only the last is counted.
    clearTimeout(scopesWait);
    if (play) scopes(frames[0]);
    else scopesWait = setTimeout(() => scopes(frames[0]), 0);
  }
  readOut();
  stage.dispatchEvent(new CustomEvent("shown", {detail: n}));
  return true;
}

function scopes(frame) {
  const now = performance.now();
  if (!view.waveform && !view.histogram || play && now - play.scopes < SCOPES_AT_PLAY) return;
  if (play) play.scopes = now;
  const found = measure(frame, play ? SAMPLES_AT_PLAY : Infinity), limits = view.range === "full" ? [] : [16, 235];
  if (view.waveform) drawWaveform($("waveform"), found, limits);
  if (view.histogram) drawHistogram($("histogram"), found, limits);
  $("numbers").textContent = `least ${found.least}   most ${found.most}   mean ${found.mean.toFixed(1)}`;
}

// Where the picture lies on the stage, in units of the page; it begins at a whole pixel of the screen.
function where() {
  const [width, height] = sidesOf(), dots = devicePixelRatio, room = [stage.clientWidth, stage.clientHeight];
  const fit = Math.min(room[0] * dots / (width || 1), room[1] * dots / (height || 1));
  const scale = (view.zoom || (fit > 1 ? Math.floor(fit) : fit)) / dots;
  const [left, top] = [[view.x, width], [view.y, height]].map(([middle, side], i) => {
    const free = room[i] - side * scale;
    const from = free >= 0 ? free / 2 : Math.max(free, Math.min(0, room[i] / 2 - middle * scale));
    return Math.round(from * dots) / dots;
  });
  return {width, height, scale, left, top, smooth: scale * dots < 1};
}

function place() {
  const {width, height, scale, left, top, smooth} = where();
  Object.assign($("picture").style, {left: `${left}px`, top: `${top}px`, width: `${width * scale}px`,
    height: `${height * scale}px`, imageRendering: smooth ? "auto" : "pixelated"});
  const two = clips.length > 1 && view.mode !== "one", split = two && view.mode === "split", [front, back] = shownClips();
  $("line").hidden = !split;
  $("line").style.left = `${left + Math.round(view.line * width) * scale}px`;
  $("tagA").hidden = !two;
  $("tagB").hidden = !split;
  if (!two) return;
  const name = clip => `${"AB"[clip.index]} ${clip.name}`;
  $("tagA").textContent = split ? name(front) : `the difference of ${name(front)} and ${name(back)}, times 8`;
  $("tagB").textContent = name(back);
  $("tagA").className = `tag ${split ? "ab"[front.index] : ""}`;
  $("tagB").className = `tag ${"ab"[back.index]}`;
}

function timeOf(n, [numerator, denominator]) {
  const thousandths = Math.floor(n * denominator * 1000 / numerator), seconds = Math.floor(thousandths / 1000);
  const digits = (x, count) => String(x).padStart(count, "0");
  return `${Math.floor(seconds / 3600)}:${digits(Math.floor(seconds / 60) % 60, 2)}:${digits(seconds % 60, 2)}` +
    `.${digits(thousandths % 1000, 3)}`;
}

const rateOf = clip => clip && clip.info ? clip.info.rate[0] / clip.info.rate[1] : 25;
const rateText = clip => String(Math.round(rateOf(clip) * 1000) / 1000);

// The number of the last frame; while an error is shown, that of the clip that was.
function lastFrame() {
  const ends = clips.filter(it => it.info).map(it => it.info.frames - 1);
  if (ends.length) view.last = Math.max(...ends);
  return view.last;
}

const here = () => Math.min(view.n, lastFrame());

// The number of the frame, and its time.
function describeFrame() {
  const info = clips[view.front] && clips[view.front].info, n = here();
  $("slider").value = n;
  if (document.activeElement !== $("number")) $("number").value = n;
  $("time").textContent = info ? timeOf(n, info.rate) : "";
}

function whatIs(clip) {
  if (gone) return "The preview has ended. Start it again.";
  if (!clip || !clip.info) return clip && clip.error ? "" : "opening …";
  const {width, height, format, bits, frames} = clip.info;
  return [`${width} × ${height}`, format, `${bits} bits`, `${rateText(clip)} fps`, `${frames} frames`].join("   ");
}

// The words of the page: the scripts, what the clip is, the buttons.
function describe() {
  const front = clips[view.front], info = front && front.info, last = lastFrame();
  clips.forEach((clip, i) => {
    const button = $(["nameA", "nameB"][i]);
    button.hidden = false;
    button.replaceChildren(...(clips.length > 1 ? [make("i", "ab"[i], "AB"[i])] : []), clip.name);
    button.setAttribute("aria-pressed", i === view.front);
  });
  $("what").textContent = whatIs(front);
  $("modes").hidden = clips.length < 2;
  for (const [box, name] of [["modes", "mode"], ["planes", "plane"], ["zooms", "zoom"]]) {
    for (const it of $(box).children) it.setAttribute("aria-pressed", it.dataset[name] === String(view[name]));
  }
  $("matrix").value = view.matrix;
  $("matrix").options[0].textContent = `Auto${info && !view.matrix ? ": " + matrixOf(info, view) : ""}`;
  $("range").value = view.range;
  $("slider").max = last;
  $("of").textContent = `/ ${last}`;
  $("play").textContent = play ? "❚❚" : "▶";
  if (!play) $("speed").textContent = "";
  $("waveformBox").hidden = !view.waveform;
  $("histogramBox").hidden = !view.histogram;
  $("scopes").hidden = !view.waveform && !view.histogram;
  document.title = front ? `${front.name}: avsserve preview` : "avsserve preview";
  describeFrame();
}

function refresh() {
  describe();
  place();
  showError();
  show();
  readOut();
  pump();
}

// The samples below the pointer, of each script that is shown, and the place.
function readOut() {
  $("readout").textContent = "";
  if (!view.pointer || view.seen < 0) return;
  const {scale, left, top, width, height} = where();
  const [x, y] = view.pointer.map((it, i) => Math.floor((it - [left, top][i]) / scale));
  if (x < 0 || y < 0 || x >= width || y >= height) return;
  const made = shownClips().map(clip => samplesAt(clip, x, y)).filter(it => it);
  $("readout").textContent = [...made, `x ${x}  y ${y}`].join("     ");
}

function samplesAt(clip, x, y) {
  const info = clip.info, frame = info && frameAt(clip, view.seen);
  if (!frame || x >= info.width || y >= info.height) return "";
  const samples = frame.planes.map(({width, samples: all}, i) => {
    const at = i ? Math.floor(y / info.down) * width + Math.floor(x / info.across) : y * width + x;
    return `${"YUV"[i]} ${String(all[at]).padStart(info.bits > 8 ? 5 : 3)}`;
  });
  return `${clips.length > 1 ? "AB"[clip.index] + "  " : ""}${samples.join("  ")}`;
}

// ---- Errors ----

function make(tag, className, ...children) {
  const made = document.createElement(tag);
  made.className = className;
  made.append(...children);
  return made;
}

function showError() {
  const clip = shownClips().find(it => it.error);
  stage.classList.toggle("fails", Boolean(clip));
  $("error").hidden = !clip;
  if (!clip) return;
  const {kind, name, line, lines, text, said, why, example} = clip.error, card = make("div", "card", make("h1", "", kind));
  const place = name === "Eval" ? `line ${line} of a text that the script made` : line ? `${name}, line ${line}` : name;
  card.append(make("p", "dim", place || clip.name));
  if (text) card.append(make("p", "", text));
  if (!name && said !== kind) card.append(make("p", "", said));
  if (lines.length) {
    const row = ([number, it]) => make("div", number === line ? "here" : "", make("b", "", String(number)), it || " ");
    card.append(make("pre", "", ...lines.map(row)));
  }
  if (why.length) card.append(make("p", "", ...why.map(([it, code]) => code ? make("code", "", it) : it)));
  if (example) card.append(make("p", "dim", "Another line with this error: ", make("code", "", example)));
  $("error").replaceChildren(card);
}

// ---- What one does ----

function seek(n) {
  const to = Math.max(0, Math.min(n, lastFrame()));
  if (to !== view.n) view.direction = to < view.n ? -1 : 1;
  view.n = to;
  if (play) Object.assign(play, {begun: performance.now(), first: to});
  describeFrame();
  show();
  pump();
}

// Frames are shown in their order at the clip's rate, those apart that the screen has no time for; where they come late, the
// clock waits.
function toggle() {
  if (play || !lastFrame()) {
    play = null;
    view.seen = -1;  // the scopes take every row again
    refresh();
    return;
  }
  if (view.n >= lastFrame()) view.n = 0;
  play = {begun: performance.now(), first: view.n, started: performance.now(), shown: [], scopes: 0};
  view.direction = 1;
  refresh();
  requestAnimationFrame(tick);
}

function tick(now) {
  if (!play) return;
  const before = view.n, rate = rateOf(clips[view.front]), most = Math.ceil(rate / SCREEN);
  for (let i = 0; i < most; i++) {
    const late = now - (play.begun + (view.n + 1 - play.first) * 1000 / rate);
    if (late < -4 || view.n >= lastFrame() || !shownClips().every(it => canPaint(it, view.n + 1))) break;
    view.n++;
    if (late > 100) Object.assign(play, {begun: now, first: view.n});
  }
  if (view.n !== before) {
    show();
    describeFrame();
    tellSpeed(now);
  }
  pump();
  if (view.n >= lastFrame()) toggle();
  else requestAnimationFrame(tick);
}

function tellSpeed(now) {
  play.shown.push(now);
  while (now - play.shown[0] > 1000) play.shown.shift();
  if (now - play.started < 1000) return;
  $("speed").textContent = `${play.shown.length} of ${rateText(clips[view.front])} frames a second`;
}

// The zoom changes around the pointer, or around the middle.
function zoom(to, around = view.pointer) {
  const before = where(), room = [stage.clientWidth, stage.clientHeight], point = around || room.map(it => it / 2);
  const seen = [(point[0] - before.left) / before.scale, (point[1] - before.top) / before.scale];
  view.zoom = to;
  const {scale} = where();
  view.x = seen[0] + (room[0] / 2 - point[0]) / scale;
  view.y = seen[1] + (room[1] / 2 - point[1]) / scale;
  describe();
  place();
  readOut();
}

function zoomBy(step) {
  const now = where().scale * devicePixelRatio, larger = ZOOMS.slice(1).find(it => it > now + 0.001);
  if (step > 0) zoom(larger || Math.max(view.zoom, 8));
  else zoom(ZOOMS[Math.max(0, ZOOMS.indexOf(view.zoom) - 1)]);
}

function set(name, value) {
  view[name] = value;
  view.seen = -1;
  refresh();
}

async function save() {
  if (!show(view.seen < 0 ? view.n : view.seen)) return;
  const script = clips[view.front].name.replace(/\.avsi?$/i, ""), n = Math.min(view.seen, lastFrame());
  const name = `${script}-${n}${view.mode === "one" ? "" : "-" + view.mode}.png`;
  const blob = await new Promise(done => $("picture").toBlob(done, "image/png"));
  const link = Object.assign(make("a", ""), {href: URL.createObjectURL(blob), download: name});
  link.click();
  setTimeout(() => URL.revokeObjectURL(link.href), 60000);
}

const jump = count => event => seek(here() + (event.shiftKey ? 10 * count : count));
const second = () => Math.max(1, Math.round(rateOf(clips[view.front])));
const swap = () => clips.length > 1 && set("front", 1 - view.front);
const mode = to => () => clips.length > 1 && set("mode", view.mode === to ? "one" : to);
const alone = plane => () => set("plane", view.plane === plane ? 0 : plane);
const turn = (name, list) => () => set(name, list[(list.indexOf(view[name]) + 1) % list.length]);
const help = shown => { $("help").hidden = !shown; };
const ACTS = {" ": toggle, ArrowLeft: jump(-1), ArrowRight: jump(1), PageUp: () => seek(here() - second()),
  PageDown: () => seek(here() + second()), Home: () => seek(0), End: () => seek(lastFrame()),
  "+": () => zoomBy(1), "=": () => zoomBy(1), "-": () => zoomBy(-1), f: () => zoom(0),
  c: () => set("plane", 0), y: alone(1), u: alone(2), v: alone(3),
  m: turn("matrix", ["", "601", "709"]), r: turn("range", ["limited", "full"]), w: turn("waveform", [true, false]),
  h: turn("histogram", [true, false]), x: swap, s: mode("split"), d: mode("difference"), p: save,
  l: () => fetch("reload", {method: "POST"}), "?": () => help($("help").hidden), Escape: () => help(false)};

function onKey(event) {
  if (event.ctrlKey || event.altKey || event.metaKey) return;
  const key = event.key.length === 1 ? event.key.toLowerCase() : event.key, field = $("number"), focused = document.activeElement;
  if (focused === field) {
    typeNumber(key, field);
  } else if (/^\d$/.test(key)) {
    field.focus();
    field.value = "";  // the digit comes there
  } else if (ACTS[key] && !(key === " " && focused.tagName === "BUTTON")) {
    event.preventDefault();
    ACTS[key](event);
  }
}

function typeNumber(key, field) {
  if (key !== "Enter" && key !== "Escape") return;
  const typed = field.value.trim();
  field.blur();
  if (key === "Enter" && /^\d{1,10}$/.test(typed)) seek(Number(typed));
}

let drag = null, turned = 0;

function onMove(event) {
  const box = stage.getBoundingClientRect(), {left, scale, width} = where();
  view.pointer = [event.clientX - box.left, event.clientY - box.top];
  if (drag) {
    view.x = drag.x - (view.pointer[0] - drag.from[0]) / scale;
    view.y = drag.y - (view.pointer[1] - drag.from[1]) / scale;
    place();
  } else if (view.mode === "split" && clips.length > 1) {
    view.line = Math.max(0, Math.min(1, (view.pointer[0] - left) / (width * scale || 1)));
    place();
    show(view.seen < 0 ? view.n : view.seen);
  }
  readOut();
}

function onDown(event) {
  if (event.button || !$("error").hidden) return;
  const {left, top, scale} = where();
  onMove(event);
  stage.setPointerCapture(event.pointerId);
  stage.classList.add("drags");
  drag = {from: view.pointer, x: (stage.clientWidth / 2 - left) / scale, y: (stage.clientHeight / 2 - top) / scale};
}

function onUp() {
  drag = null;
  stage.classList.remove("drags");
}

function listenToPointer() {
  stage.addEventListener("pointermove", onMove);
  stage.addEventListener("pointerdown", onDown);
  stage.addEventListener("pointerup", onUp);
  stage.addEventListener("pointercancel", onUp);
  stage.addEventListener("pointerleave", () => {
    view.pointer = null;
    readOut();
  });
  stage.addEventListener("wheel", event => {
    event.preventDefault();
    if (!event.deltaY || event.timeStamp - turned < WHEEL) return;
    turned = event.timeStamp;
    zoomBy(event.deltaY < 0 ? 1 : -1);
  }, {passive: false});
  // A button that keeps the focus would take the space bar.
  document.addEventListener("mousedown", event => event.target.closest("button") && event.preventDefault());
}

function listenToButtons() {
  for (const [box, name, value] of [["modes", "mode", String], ["planes", "plane", Number]]) {
    for (const it of $(box).children) it.addEventListener("click", () => set(name, value(it.dataset[name])));
  }
  for (const it of $("zooms").children) it.addEventListener("click", () => zoom(Number(it.dataset.zoom), null));
  for (const name of ["matrix", "range"]) {
    $(name).addEventListener("change", event => {
      event.target.blur();
      set(name, event.target.value);
    });
  }
  const clicks = {nameA: () => set("front", 0), nameB: () => set("front", 1), save, play: toggle, ask: () => help(true),
    help: () => help(false)};
  for (const id in clicks) $(id).addEventListener("click", clicks[id]);
  $("slider").addEventListener("input", event => seek(Number(event.target.value)));
  $("slider").addEventListener("change", event => event.target.blur());
  $("number").addEventListener("blur", describeFrame);
}

function begin() {
  for (const [keys, text] of KEYS) {
    $("keys").append(make("span", "", ...keys.split("  ").map(it => make("kbd", "", it))), make("span", "", text));
  }
  document.addEventListener("keydown", onKey);
  listenToPointer();
  listenToButtons();
  new ResizeObserver(() => {
    place();
    readOut();
  }).observe(stage);
  listen();
}

begin();
