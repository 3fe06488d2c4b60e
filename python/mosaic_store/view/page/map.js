"use strict";
// The map: pictures of terrain by tiles of 256 pixels, and what is drawn over them.
// A point is {y, x} on the lattice of samples: y grows northwards, x eastwards.

const PIXELS = 256;
const MOST_ZOOM = 16;
const COLOURS = { path: "#0b3d91", stream: "#1f4fd8", sink: "#7b2cbf", wall: "#c1121f", burn: "#e07a00", patch: "#5f6b73", watershed: "#d63c2c", frame: "#14507a" };
const byId = (id) => document.getElementById(id);
const canvas = byId("map");
const pen = canvas.getContext("2d");

const view = { y: 0, x: 0, pointsPerPixel: 1 };
let region = null;
let asked = null;
let watershed = null;
let trial = null;
let streams = null;
let drafts = [];
let line = [];
const pictures = new Map();

const tool = () => document.querySelector("input[name=tool]:checked").value;
// Which terrain is shown: that of the trial under way, or the store's.
const shown = () => (trial ? document.querySelector("input[name=shown]:checked").value : "store");
// The terrain part of an answer for the layer shown; null if the point is void there.
const shownOf = (answer) => answer && answer[shown()];

// ---- Places

// How wide a point is for its height, at the middle of the map: a degree of longitude is the narrower the nearer the pole.
const narrow = () => Math.max(0.01, Math.cos((view.y / (region.side - 1) * Math.PI) / 180));
const eastPerPixel = () => view.pointsPerPixel / narrow();
const left = () => view.x - (canvas.clientWidth / 2) * eastPerPixel();
const top_ = () => view.y + (canvas.clientHeight / 2) * view.pointsPerPixel;
const acrossOf = (x) => (x - left()) / eastPerPixel();
const downOf = (y) => (top_() - y) / view.pointsPerPixel;
const pixelOf = ({ y, x }) => [acrossOf(x + 0.5), downOf(y - 0.5)];
const pointAt = (across, down) => ({
  y: Math.ceil(top_() - down * view.pointsPerPixel),
  x: Math.floor(left() + across * eastPerPixel()),
});
const middle = () => pointAt(canvas.clientWidth / 2, canvas.clientHeight / 2);

function showBox([south, west, north, east]) {
  [view.y, view.x] = [(south + north) / 2, (west + east) / 2];
  const needed = Math.max((north - south) / canvas.clientHeight, ((east - west) * narrow()) / canvas.clientWidth) * 1.05;
  view.pointsPerPixel = Math.min(2 ** MOST_ZOOM, Math.max(1 / 16, needed));
}

// ---- Pictures

function zoomOfView() {
  const zoom = Math.floor(Math.log2(view.pointsPerPixel) + 0.01);
  return Math.min(MOST_ZOOM, Math.max(0, zoom));
}

// A picture of a path, which may not be there yet.
function picture(path, failed) {
  let image = pictures.get(path);
  if (!image) {
    if (pictures.size > 600) pictures.delete(pictures.keys().next().value);
    image = new Image();
    image.onload = draw;
    image.onerror = failed;
    image.src = path;
    pictures.set(path, image);
  }
  return image;
}

const isThere = (image) => image.complete && image.naturalWidth > 0;

// Draws the pictures of a layer, and a placeholder for each that isn't loaded yet. Answers whether all are loaded.
function drawLayer(layer, zoom, sign) {
  let isWhole = true;
  const span = PIXELS * 2 ** zoom;
  const [south, west, north, east] = region.bounds;
  const lowRow = Math.floor(Math.max(south, top_() - canvas.clientHeight * view.pointsPerPixel) / span);
  const highRow = Math.floor(Math.min(north, top_()) / span);
  const lowColumn = Math.floor(Math.max(west, left()) / span);
  const highColumn = Math.floor(Math.min(east, left() + canvas.clientWidth * eastPerPixel()) / span);
  for (let row = lowRow; row <= highRow; row++) {
    for (let column = lowColumn; column <= highColumn; column++) {
      const box = { top: row * span + span - 2 ** zoom, left: column * span, size: span };
      const path = `${layer}/${zoom}/${row}/${column}.png?${layer === "trial" ? region.state : region.count}`;
      const image = picture(path, () => { say("A picture of the map wasn't answered: load the page anew", true); draw(); });
      if (isThere(image)) drawBox(image, box);
      else if (sign) drawSign(box, image.complete ? "not answered" : sign);
      isWhole &&= isThere(image);
    }
  }
  return isWhole;
}

// A box of points, of which the north-west point is told, in whole pixels, so that boxes side by side leave no gap.
function pixelsOf({ top, left: west, size, rows = size, columns = size }) {
  const [across, down] = [Math.round(acrossOf(west)), Math.round(downOf(top))];
  return [across, down, Math.round(acrossOf(west + columns)) - across, Math.round(downOf(top - rows)) - down];
}

function drawBox(image, box) {
  pen.drawImage(image, ...pixelsOf(box));
}

// A placeholder for a picture that isn't loaded yet.
function drawSign(box, text) {
  const [across, down, width, height] = pixelsOf(box);
  pen.fillStyle = "#dfe5e9";
  pen.fillRect(across, down, width, height);
  pen.strokeStyle = "#b9c4cb";
  pen.lineWidth = 1;
  pen.strokeRect(across + 0.5, down + 0.5, width - 1, height - 1);
  pen.fillStyle = "#4a5a65";
  pen.textAlign = "center";
  pen.font = "13px system-ui, sans-serif";
  pen.fillText(text, across + width / 2, down + height / 2);
}

// The base map: tiles of 256 pixels in Web Mercator, each in strips, as its rows aren't equally high here.
function drawBase() {
  const degree = region.side - 1, strips = 8;
  const zoom = Math.min(19, Math.max(0, Math.round(Math.log2((360 * degree) / (PIXELS * eastPerPixel())))));
  const count = 2 ** zoom;
  const rowOf = (y) => (0.5 - Math.asinh(Math.tan((Math.max(-85, Math.min(85, y / degree)) * Math.PI) / 180)) / (2 * Math.PI)) * count;
  const downOfRow = (row) => Math.round(downOf(((Math.atan(Math.sinh(Math.PI * (1 - (2 * row) / count))) * 180) / Math.PI) * degree - 0.5));
  const columnOf = (x) => ((x / degree + 180) / 360) * count;
  const acrossOfColumn = (column) => Math.round(acrossOf(((column / count) * 360 - 180) * degree + 0.5));
  const lastColumn = Math.min(count - 1, Math.floor(columnOf(left() + canvas.clientWidth * eastPerPixel())));
  const lastRow = Math.min(count - 1, Math.floor(rowOf(top_() - canvas.clientHeight * view.pointsPerPixel)));
  pen.globalCompositeOperation = "multiply";
  for (let row = Math.max(0, Math.floor(rowOf(top_()))); row <= lastRow; row++) {
    for (let column = Math.max(0, Math.floor(columnOf(left()))); column <= lastColumn; column++) {
      const named = { z: zoom, x: column, y: row };
      const image = picture(region.base.replace(/\{([zxy])\}/g, (_, name) => named[name]), null);
      if (isThere(image)) drawStrips(image, strips, acrossOfColumn(column), acrossOfColumn(column + 1), (strip) => downOfRow(row + strip / strips));
    }
  }
  pen.globalCompositeOperation = "source-over";
}

function drawStrips(image, strips, west, east, downOfStrip) {
  const high = image.naturalHeight / strips;
  for (let strip = 0; strip < strips; strip++) {
    const [upper, lower] = [downOfStrip(strip), downOfStrip(strip + 1)];
    pen.drawImage(image, 0, strip * high, image.naturalWidth, high, west, upper, east - west, lower - upper);
  }
}

function draw() {
  const sharp = window.devicePixelRatio || 1;
  canvas.width = Math.round(canvas.clientWidth * sharp);
  canvas.height = Math.round(canvas.clientHeight * sharp);
  pen.setTransform(sharp, 0, 0, sharp, 0, 0);
  pen.imageSmoothingEnabled = false;
  if (!region) return;
  drawLayer("relief", zoomOfView(), "loading …");
  if (region.base && byId("base").checked) drawBase();
  const hasWater = byId("standing").checked && view.pointsPerPixel <= 1;
  byId("finding").hidden = !hasWater || drawLayer(shown(), 0);
  byId("depths").hidden = !hasWater && !trial;
  if (trial) drawTrial(hasWater);
  if (shownOf(watershed)) drawBox(shownOf(watershed).image, shownOf(watershed).box);
  if (streams) drawStreams();
  for (const [y, x] of region.sinks) drawMark({ y, x }, COLOURS.sink, 4);
  const point = shownOf(asked);
  if (point && point.path) drawPath(point.path, COLOURS.path, 2.5);
  for (const edit of edits()) drawEdit(edit);
  if (asked) drawMark(asked);
  drawScale();
  showKey();
}

// Water before or after, in the frame in which it is counted.
function drawTrial(hasWater) {
  if (!hasWater) drawBox(trial.images[shown()], trial.box);
  pen.setLineDash([6, 4]);
  pen.strokeStyle = COLOURS.frame;
  pen.lineWidth = 1.5;
  pen.strokeRect(...pixelsOf(trial.box));
  pen.setLineDash([]);
}

// The edits of the trial, and the shape being drawn.
function edits() {
  const drawn = line.length ? [{ kind: tool(), line }] : [];
  return [...(trial ? trial.edits : []), ...drafts, ...drawn];
}

function drawEdit({ kind, line: corners }) {
  if (kind === "patch" && corners.length === 2) {
    const [ys, xs] = [corners.map(([y]) => y), corners.map(([, x]) => x)];
    const [top, west] = [Math.max(...ys), Math.min(...xs)];
    pen.strokeStyle = COLOURS.patch;
    pen.lineWidth = 3;
    pen.strokeRect(...pixelsOf({ top, left: west, rows: top - Math.min(...ys) + 1, columns: Math.max(...xs) - west + 1 }));
    return;
  }
  const colour = COLOURS[kind] || COLOURS.sink;
  drawPath(corners, colour, 3);
  for (const [y, x] of corners) drawMark({ y, x }, colour, 3.5);
}

function drawPath(points, colour, width) {
  pen.beginPath();
  for (const [y, x] of points) pen.lineTo(...pixelOf({ y, x }));
  pen.lineJoin = pen.lineCap = "round";
  for (const [style, wide] of [["rgb(255 255 255 / .8)", width + 2], [colour, width]]) {
    pen.strokeStyle = style;
    pen.lineWidth = wide;
    pen.stroke();
  }
}

const widthOfOrder = (order) => 0.8 + 0.9 * order;

// Streams, the wider the higher their order.
function drawStreams() {
  pen.strokeStyle = COLOURS.stream;
  pen.lineJoin = pen.lineCap = "round";
  for (const { geometry, properties } of streams.features) {
    if (geometry.type !== "LineString") continue;
    pen.beginPath();
    for (const [longitude, latitude] of geometry.coordinates) {
      pen.lineTo(...pixelOf({ y: latitude * (region.side - 1), x: longitude * (region.side - 1) }));
    }
    pen.lineWidth = widthOfOrder(properties.order);
    pen.stroke();
  }
}

function drawMark(point, colour = COLOURS.path, radius = 5) {
  pen.beginPath();
  pen.arc(...pixelOf(point), radius, 0, 2 * Math.PI);
  pen.fillStyle = "white";
  pen.fill();
  pen.strokeStyle = colour;
  pen.lineWidth = 2;
  pen.stroke();
}

function drawScale() {
  const metresAPixel = view.pointsPerPixel * region.metres;
  const power = 10 ** Math.floor(Math.log10(metresAPixel * 150));
  const length = [5, 2, 1].map((digit) => digit * power).find((metres) => metres <= metresAPixel * 150);
  byId("scale-bar").style.width = `${length / metresAPixel}px`;
  byId("scale-text").textContent = length >= 1000 ? `${length / 1000} km` : `${length} m`;
}

// The legend of what is drawn over the terrain, each with its line.
function showKey() {
  const kinds = new Set(edits().map(({ kind }) => kind));
  const most = streams ? streams.features.reduce((most, { properties }) => Math.max(most, properties.order), 1) : 0;
  const point = shownOf(asked);
  const entries = [
    ...Array.from({ length: Math.min(most, 9) }, (_, order) => [order ? `${order + 1}` : "stream of order 1", COLOURS.stream, widthOfOrder(order + 1)]),
    [point && point.path && "flow path", COLOURS.path, 3],
    [shownOf(watershed) && "watershed", COLOURS.watershed, 10],
    [kinds.has("wall") && "road or dam", COLOURS.wall, 3],
    [kinds.has("burn") && "culvert", COLOURS.burn, 3],
    [(kinds.has("sink") || region.sinks.length > 0) && "sink", COLOURS.sink, 6],
    [trial && "frame of the trial", COLOURS.frame, 2],
  ].filter(([text]) => text);
  const told = JSON.stringify(entries);
  if (byId("key").dataset.told === told) return;
  byId("key").dataset.told = told;
  byId("key").replaceChildren(...entries.map(([text, colour, width]) => {
    const entry = term("span", ""), bar = document.createElement("i");
    bar.style.background = colour;
    bar.style.height = `${width}px`;
    entry.append(bar, text);
    return entry;
  }));
}

function term(kind, text) {
  const element = document.createElement(kind);
  element.textContent = text;
  return element;
}

// ---- The mouse, fingers and the keys

const fingers = new Map();
let drag = null;
let pinched = 0;

const isPinch = () => fingers.size === 2;

function spread() {
  const [one, other] = [...fingers.values()];
  return { length: Math.hypot(one.across - other.across, one.down - other.down), across: (one.across + other.across) / 2, down: (one.down + other.down) / 2 };
}

canvas.addEventListener("pointerdown", (event) => {
  fingers.set(event.pointerId, { across: event.offsetX, down: event.offsetY });
  drag = { across: event.offsetX, down: event.offsetY, y: view.y, x: view.x, moved: isPinch() };
  if (isPinch()) pinched = spread().length;
  canvas.setPointerCapture(event.pointerId);
});
canvas.addEventListener("pointermove", (event) => {
  if (!drag || !fingers.has(event.pointerId)) return;
  fingers.set(event.pointerId, { across: event.offsetX, down: event.offsetY });
  if (isPinch()) {
    const { length, across, down } = spread();
    zoomBy(pinched / Math.max(1, length), across, down);
    pinched = length;
    return;
  }
  const across = event.offsetX - drag.across, down = event.offsetY - drag.down;
  drag.moved ||= Math.hypot(across, down) > 4;
  if (!drag.moved || fingers.size !== 1) return;
  view.x = drag.x - across * eastPerPixel();
  view.y = drag.y + down * view.pointsPerPixel;
  draw();
});
canvas.addEventListener("pointerup", (event) => {
  const moved = !drag || drag.moved;
  fingers.delete(event.pointerId);
  if (fingers.size) {
    const [{ across, down }] = fingers.values();
    drag = { across, down, y: view.y, x: view.x, moved: true };
    return;
  }
  drag = null;
  if (moved) return rememberPlace();
  choose(pointAt(event.offsetX, event.offsetY));
});
canvas.addEventListener("pointercancel", (event) => { fingers.delete(event.pointerId); drag = null; });
canvas.addEventListener("wheel", (event) => {
  event.preventDefault();
  zoomBy(event.deltaY < 0 ? 0.5 : 2, event.offsetX, event.offsetY);
}, { passive: false });

const KEYS = {
  "+": () => zoomBy(0.5),
  "=": () => zoomBy(0.5),
  "-": () => zoomBy(2),
  ArrowLeft: () => pan(0, -1),
  ArrowRight: () => pan(0, 1),
  ArrowUp: () => pan(1, 0),
  ArrowDown: () => pan(-1, 0),
  Enter: () => choose(middle()),
};
canvas.addEventListener("keydown", (event) => {
  if (!(event.key in KEYS) || event.ctrlKey || event.altKey || event.metaKey) return;
  event.preventDefault();
  KEYS[event.key]();
});

// Moves the map by eighths of itself.
function pan(north, east) {
  view.y += (north * canvas.clientHeight * view.pointsPerPixel) / 8;
  view.x += (east * canvas.clientWidth * eastPerPixel()) / 8;
  draw();
  rememberPlace();
}

function zoomBy(factor, across = canvas.clientWidth / 2, down = canvas.clientHeight / 2) {
  const scale = Math.min(2 ** MOST_ZOOM, Math.max(1 / 16, view.pointsPerPixel * factor));
  const moved = view.pointsPerPixel - scale;
  view.x += ((across - canvas.clientWidth / 2) * moved) / narrow();
  view.y -= (down - canvas.clientHeight / 2) * moved;
  view.pointsPerPixel = scale;
  draw();
  rememberPlace();
}

window.addEventListener("resize", draw);
