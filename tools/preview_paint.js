// What tools/preview.js draws with: frames as colours, by the graphics card or without it, and the scopes of luma. A frame has
// an `info` and `planes`, each with width, height and samples. A look says how it is shown: `matrix`, "" for the one by height, and
// `range`.
"use strict";

const MODES = {one: 0, split: 1, difference: 2};
const MATRICES = {601: [0.299, 0.114], 709: [0.2126, 0.0722]};  // what red and blue add to luma
const HD_LINES = 720;  // from so many lines on the matrix is 709, unless one is chosen

// ---- Colours ----

const matrixOf = (info, {matrix}) => matrix || (info.height < HD_LINES ? "601" : "709");

// Red, green and blue, from 0 to 1, are `matrix` (its columns are Y, U and V) times the samples less `zero`.
function termsOf(info, look) {
  const [kr, kb] = MATRICES[matrixOf(info, look)], kg = 1 - kr - kb, step = 1 << info.bits - 8, top = (1 << info.bits) - 1;
  const full = look.range === "full", y = 1 / (full ? top : 219 * step), c = 1 / (full ? top : 224 * step);
  const u = [0, -2 * kb * (1 - kb) / kg * c, 2 * (1 - kb) * c], v = [2 * (1 - kr) * c, -2 * kr * (1 - kr) / kg * c, 0];
  return {top, zero: [full ? 0 : 16 * step, 128 * step, 128 * step], matrix: [y, y, y, ...u, ...v]};
}

const CORNERS = `#version 300 es
void main() { gl_Position = vec4(gl_VertexID == 1 ? 3 : -1, gl_VertexID == 2 ? 3 : -1, 0, 1); }`;

const COLOURS = `#version 300 es
precision highp float;
precision highp int;
precision highp usampler2D;
uniform usampler2D planes[6];
uniform ivec4 sides[2];  // width, height, and how many samples of luma one of chroma stands for, across and down
uniform mat3 matrix[2];
uniform vec3 zero[2];
uniform float top[2];
uniform int plane, mode, line, height;
out vec4 colour;

vec3 look(usampler2D y, usampler2D u, usampler2D v, ivec4 side, mat3 m, vec3 z, float most, ivec2 at) {
  if (at.x >= side.x || at.y >= side.y) return vec3(0.0);
  vec3 s = vec3(float(texelFetch(y, at, 0).r), z.y, z.z);
  if (side.z > 0) s.yz = vec2(texelFetch(u, at / side.zw, 0).r, texelFetch(v, at / side.zw, 0).r);
  if (plane > 0) return vec3(plane == 1 ? s.x : plane == 2 ? s.y : s.z) / most;
  return clamp(m * (s - z), 0.0, 1.0);
}

void main() {
  ivec2 at = ivec2(int(gl_FragCoord.x), height - 1 - int(gl_FragCoord.y));
  bool beyond = mode == 1 && at.x >= line;
  vec3 made = vec3(0.0), other = vec3(0.0);
  if (!beyond) made = look(planes[0], planes[1], planes[2], sides[0], matrix[0], zero[0], top[0], at);
  if (beyond || mode == 2) other = look(planes[3], planes[4], planes[5], sides[1], matrix[1], zero[1], top[1], at);
  if (beyond) made = other;
  if (mode == 2) made = min(abs(made - other) * 8.0, 1.0);
  colour = vec4(floor(made * 255.0 + 0.5) / 255.0, 1.0);
}`;

// Converts by the graphics card. Each plane is a texture of whole numbers.
class CardPainter {
  // Whether a program in the place of a card is used too. It is slower than PlainPainter.
  static takesPrograms = false;

  constructor(canvas) {
    const gl = canvas.getContext("webgl2", {alpha: false, antialias: false, depth: false, powerPreference: "high-performance"});
    if (!gl) throw new Error("no WebGL2");
    const names = gl.getExtension("WEBGL_debug_renderer_info");
    const name = names ? gl.getParameter(names.UNMASKED_RENDERER_WEBGL) : "";
    if (/swiftshader|llvmpipe|softpipe|software|basic render/i.test(name) && !CardPainter.takesPrograms) throw new Error(name);
    this.gl = gl;
    this.most = gl.getParameter(gl.MAX_TEXTURE_SIZE);
    this.holds = [null, null];  // the frame of each part, in front and behind
    this.kinds = Array(6).fill("");  // the size and the type of each texture
    this.makeProgram();
    gl.pixelStorei(gl.UNPACK_ALIGNMENT, 1);
    for (let unit = 0; unit < 6; unit++) {
      gl.activeTexture(gl.TEXTURE0 + unit);
      gl.bindTexture(gl.TEXTURE_2D, gl.createTexture());
      for (const it of [gl.TEXTURE_MIN_FILTER, gl.TEXTURE_MAG_FILTER]) gl.texParameteri(gl.TEXTURE_2D, it, gl.NEAREST);
      gl.texImage2D(gl.TEXTURE_2D, 0, gl.R8UI, 1, 1, 0, gl.RED_INTEGER, gl.UNSIGNED_BYTE, new Uint8Array(1));
    }
    gl.uniform1iv(this.place("planes"), [0, 1, 2, 3, 4, 5]);
  }

  makeProgram() {
    const gl = this.gl, program = this.program = gl.createProgram();
    for (const [kind, text] of [[gl.VERTEX_SHADER, CORNERS], [gl.FRAGMENT_SHADER, COLOURS]]) {
      const shader = gl.createShader(kind);
      gl.shaderSource(shader, text);
      gl.compileShader(shader);
      gl.attachShader(program, shader);
    }
    gl.linkProgram(program);
    if (!gl.getProgramParameter(program, gl.LINK_STATUS)) throw new Error(gl.getProgramInfoLog(program) || "no program");
    gl.useProgram(program);
  }

  place(name) {
    return this.gl.getUniformLocation(this.program, name);
  }

  // The samples of a frame become the textures of a part.
  load(part, frame) {
    if (this.holds[part] === frame) return;
    this.holds[part] = frame;
    const gl = this.gl, wide = frame.info.bits > 8, type = wide ? gl.UNSIGNED_SHORT : gl.UNSIGNED_BYTE;
    frame.planes.forEach(({width, height, samples}, i) => {
      const unit = 3 * part + i, kind = `${width}x${height} ${wide}`;
      gl.activeTexture(gl.TEXTURE0 + unit);
      if (this.kinds[unit] === kind) {
        gl.texSubImage2D(gl.TEXTURE_2D, 0, 0, 0, width, height, gl.RED_INTEGER, type, samples);
      } else {
        gl.texImage2D(gl.TEXTURE_2D, 0, wide ? gl.R16UI : gl.R8UI, width, height, 0, gl.RED_INTEGER, type, samples);
      }
      this.kinds[unit] = kind;
    });
  }

  paint({width, height, frames, mode, line, plane, look}) {
    const gl = this.gl;
    gl.viewport(0, 0, width, height);
    frames.forEach((frame, part) => {
      const {matrix, zero, top} = termsOf(frame.info, look), {across, down} = frame.info;
      this.load(part, frame);
      gl.uniform4i(this.place(`sides[${part}]`), frame.info.width, frame.info.height, across, down);
      gl.uniformMatrix3fv(this.place(`matrix[${part}]`), false, matrix);
      gl.uniform3fv(this.place(`zero[${part}]`), zero);
      gl.uniform1f(this.place(`top[${part}]`), top);
    });
    const numbers = {plane, mode: frames.length < 2 ? 0 : mode, line, height};
    for (const name in numbers) gl.uniform1i(this.place(name), numbers[name]);
    gl.drawArrays(gl.TRIANGLES, 0, 3);
  }

  // What PlainPainter does before it paints; a card needs nothing of it.
  prepare() {}

  isReady() {
    return true;
  }

  close() {}
}

// Colours without a graphics card. Red, green and blue are whole numbers here, in 1/4096 of their steps, plus BELOW steps.
const BELOW = 1024, UNIT = 4096;
const CUT = Uint8Array.from({length: 3 * BELOW}, (_, x) => Math.min(Math.max(x - BELOW, 0), 255));
const OPAQUE = 0xff000000;

class PlainRows {
  constructor() {
    this.tables = new Map();
  }

  // What each sample adds to red, green and blue; `alone` is of a plane that is shown alone.
  tablesOf(info, look) {
    const {matrix, zero, top} = termsOf(info, look), name = `${info.bits} ${matrixOf(info, look)} ${look.range}`;
    if (!this.tables.has(name)) {
      const table = (factor, from, plus = 0) =>
        Int32Array.from({length: top + 1}, (_, x) => Math.round((255 * factor * (x - from) + plus) * UNIT));
      this.tables.set(name, {y: table(matrix[0], zero[0], BELOW + 0.5), alone: table(1 / top, 0, BELOW + 0.5),
        ug: table(matrix[4], zero[1]), ub: table(matrix[5], zero[1]), vr: table(matrix[6], zero[1]),
        vg: table(matrix[7], zero[1])});
    }
    return this.tables.get(name);
  }

  // The pixels `from` to `to` of row y in colour.
  colourRow({info, planes}, t, y, from, to, into) {
    const [luma, u, v] = planes.map(({width, samples}, i) => samples.subarray((i ? Math.floor(y / info.down) : y) * width));
    const shift = Math.log2(info.across), {y: light, ug, ub, vr, vg} = t;
    for (let x = from, c = from >> shift; x < to; c++) {
      const red = vr[v[c]], green = ug[u[c]] + vg[v[c]], blue = ub[u[c]], end = Math.min(to, c + 1 << shift);
      for (; x < end; x++) {
        const at = light[luma[x]];
        into[x] = OPAQUE | CUT[at + blue >> 12] << 16 | CUT[at + green >> 12] << 8 | CUT[at + red >> 12];
      }
    }
  }

  // The same in grey: of one plane, or of luma alone.
  greyRow(frame, t, y, from, to, plane, into) {
    const {of, table, shift, base, none} = this.greyOf(frame, t, y, plane);
    for (let x = from; x < to; x++) into[x] = OPAQUE | CUT[table[of ? of[base + (x >> shift)] : none] >> 12] * 0x10101;
  }

  greyOf({info, planes}, t, y, plane) {
    const of = planes[Math.max(plane, 1) - 1], [down, across] = plane > 1 ? [info.down || 1, info.across || 1] : [1, 1];
    return {of: of && of.samples, base: of && Math.floor(y / down) * of.width, shift: Math.log2(across),
      table: plane ? t.alone : t.y, none: 1 << info.bits - 1};
  }

  // Red, green and blue of a row, cut to what can be shown but not rounded, three numbers a pixel.
  sums(frame, t, y, plane, into) {
    const {info, planes} = frame, grey = plane || !info.across ? this.greyOf(frame, t, y, plane) : null;
    const row = grey ? 0 : Math.floor(y / info.down) * planes[1].width;
    const cut = x => Math.min(Math.max(x, BELOW * UNIT), (BELOW + 255) * UNIT);
    for (let x = 0, at = 0; x < info.width; x++, at += 3) {
      if (grey) {
        into.fill(cut(grey.table[grey.of ? grey.of[grey.base + (x >> grey.shift)] : grey.none] - UNIT / 2), at, at + 3);
        continue;
      }
      const light = t.y[planes[0].samples[y * info.width + x]] - UNIT / 2, place = row + Math.floor(x / info.across);
      const cu = planes[1].samples[place], cv = planes[2].samples[place];
      into[at] = cut(light + t.vr[cv]);
      into[at + 1] = cut(light + t.ug[cu] + t.vg[cv]);
      into[at + 2] = cut(light + t.ub[cu]);
    }
  }

  differenceRow(frames, tables, y, width, plane, into) {
    const [a, b] = frames.map((frame, i) => {
      const sums = new Int32Array(3 * width).fill(BELOW * UNIT);
      if (y < frame.info.height) this.sums(frame, tables[i], y, plane, sums);
      return sums;
    });
    const of = at => Math.min(255, Math.abs(a[at] - b[at]) * 8 + UNIT / 2 >> 12);
    for (let x = 0; x < width; x++) into[x] = OPAQUE | of(3 * x + 2) << 16 | of(3 * x + 1) << 8 | of(3 * x);
  }

  // The pixels of a picture, a number each.
  fill(pixels, {width, height, frames, mode, line, plane, look}) {
    const tables = frames.map(it => this.tablesOf(it.info, look)), two = frames.length > 1;
    const end = mode === MODES.split && two ? line : width;
    const draw = (which, y, from, to, into) => {
      const frame = frames[which], {info} = frame, stop = y < info.height ? Math.min(to, info.width) : from;
      if (plane || !info.across) this.greyRow(frame, tables[which], y, from, stop, plane, into);
      else this.colourRow(frame, tables[which], y, from, stop, into);
      into.fill(OPAQUE, Math.max(from, stop), to);
    };
    for (let y = 0; y < height; y++) {
      const into = pixels.subarray(y * width, (y + 1) * width);
      if (mode === MODES.difference && two) {
        this.differenceRow(frames, tables, y, width, plane, into);
      } else {
        draw(0, y, 0, end, into);
        if (end < width) draw(1, y, end, width, into);
      }
    }
  }
}

// What a worker does that has this script too: it makes the pixels of a picture.
const HELPER = `
const rows = new PlainRows();
onmessage = ({data: {scene, pixels}}) => {
  rows.fill(new Uint32Array(pixels), scene);
  postMessage(pixels, [pixels]);
};`;

// Paints without a graphics card. While the clip plays, a worker makes the pixels of frames that come next.
class PlainPainter {
  constructor(canvas) {
    this.context = canvas.getContext("2d", {alpha: false});
    this.most = 65535;
    this.rows = new PlainRows();
    this.sent = [];  // frames that the worker has, in their order
    this.spare = [];  // memory of pixels that were painted
    const address = URL.createObjectURL(new Blob([document.scripts[0].text, HELPER], {type: "text/javascript"}));
    this.worker = new Worker(address);
    URL.revokeObjectURL(address);
    this.worker.onmessage = ({data}) => {
      const {frame, name} = this.sent.shift();
      frame.made = {name, pixels: data};
    };
    this.worker.onerror = () => this.close();
  }

  close() {
    if (this.worker) this.worker.terminate();
    this.worker = null;
    this.sent = [];
  }

  // Has the pixels of a frame made before it is painted.
  prepare(frame, plane, look) {
    if (!this.worker || frame.made || !this.isReady(frame)) return;
    const {info, planes} = frame, {width, height} = info, size = 4 * width * height, kept = this.spare.pop();
    const pixels = kept && kept.byteLength === size ? kept : new ArrayBuffer(size);
    const scene = {width, height, frames: [{info, planes}], mode: MODES.one, line: 0, plane, look: {matrix: look.matrix, range: look.range}};
    this.sent.push({frame, name: this.nameOf(info, plane, look)});
    this.worker.postMessage({scene, pixels}, [pixels]);
  }

  isReady(frame) {
    return !this.sent.some(it => it.frame === frame);
  }

  nameOf(info, plane, look) {
    return `${plane} ${matrixOf(info, look)} ${look.range}`;
  }

  paint(scene) {
    const {width, height, frames: [front, back], plane, look} = scene, made = front.made;
    front.made = null;
    if (made && !back && made.name === this.nameOf(front.info, plane, look)) {
      this.context.putImageData(new ImageData(new Uint8ClampedArray(made.pixels), width, height), 0, 0);
      this.spare = [made.pixels];
      return;
    }
    if (!this.image || this.image.width !== width || this.image.height !== height) {
      this.image = this.context.createImageData(width, height);
    }
    this.rows.fill(new Uint32Array(this.image.data.buffer), scene);
    this.context.putImageData(this.image, 0, 0);
  }
}

// How often each of 256 levels comes in each column, of every row or of as many as have so many samples.
function measure({info, planes: [{width, height, samples}]}, enough = Infinity) {
  const step = Math.max(1, Math.ceil(width * height / enough)), columns = Math.min(width, 256), shift = info.bits - 8;
  const counts = new Uint32Array(columns * 256);
  const column = Uint32Array.from({length: width}, (_, x) => Math.floor(x * columns / width) * 256);
  let least = Infinity, most = 0, sum = 0, count = 0;
  for (let y = 0; y < height; y += step) {
    for (let x = 0, at = y * width; x < width; x++, at++) {
      const sample = samples[at];
      counts[column[x] + (sample >> shift)]++;
      sum += sample;
      if (sample < least) least = sample;
      if (sample > most) most = sample;
    }
    count += width;
  }
  return {counts, columns, least, most, mean: sum / count, share: count / columns};
}

// Across as in the picture, the levels upwards, brighter where there are more. `limits` are levels with a line.
function drawWaveform(canvas, {counts, columns, share}, limits) {
  const context = canvas.getContext("2d"), image = context.createImageData(256, 256);
  for (let x = 0; x < 256; x++) {
    const from = Math.floor(x * columns / 256) * 256;
    for (let level = 0; level < 256; level++) {
      const count = counts[from + level], at = 4 * ((255 - level) * 256 + x);
      const light = count ? 60 + 195 * Math.min(1, Math.sqrt(count / share * 6)) : 12;
      image.data[at] = light * 0.82;
      image.data[at + 1] = light;
      image.data[at + 2] = light * 0.86;
      image.data[at + 3] = 255;
    }
  }
  context.putImageData(image, 0, 0);
  for (const level of limits) drawLine(context, 0, 255.5 - level, 256, 255.5 - level);
}

function drawHistogram(canvas, {counts}, limits) {
  const context = canvas.getContext("2d"), high = canvas.height, bins = new Float64Array(256);
  counts.forEach((count, i) => { bins[i & 255] += count; });
  // A few levels that are most of the picture, as black edges, would leave nothing of the others.
  const sorted = [...bins].sort((a, b) => b - a), full = Math.max(1, Math.min(sorted[0], 4 * sorted[8] || sorted[0]));
  context.clearRect(0, 0, 256, high);
  context.fillStyle = "#b4c6b9";
  bins.forEach((count, x) => {
    const size = count ? Math.max(1, Math.min(high, high * count / full)) : 0;
    context.fillRect(x, high - size, 1, size);
  });
  for (const level of limits) drawLine(context, level + 0.5, 0, level + 0.5, high);
}

function drawLine(context, x, y, toX, toY) {
  context.strokeStyle = "#dda85c66";
  context.beginPath();
  context.moveTo(x, y);
  context.lineTo(toX, toY);
  context.stroke();
}
