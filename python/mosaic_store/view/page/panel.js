"use strict";
// The panel: questions to the store, and a trial of edits.

const token = location.pathname.split("/")[1];
const SECONDS_BETWEEN_LOOKS = 3;
// The requests that are awaited, and can be cancelled.
const waiting = new Set();
let jobs = 0;
let isCancelled = false;
// Whether an answer has another state of the store or its trial than the page shows.
let isBehind = false;

// ---- Requests

// Asks the program. What changes the store is certain: it can't be cancelled midway.
async function request(path, words, isCertain = false) {
  const controller = new AbortController();
  const options = words === undefined ? {} : {
    method: "POST",
    headers: { "Content-Type": "application/json", "X-Mosaic": token },
    body: JSON.stringify(words),
  };
  if (!isCertain) waiting.add(controller);
  try {
    const answer = await fetch(path, { ...options, signal: controller.signal });
    const isJson = answer.headers.get("Content-Type") === "application/json";
    const told = await (isJson ? answer.json() : answer.blob());
    const state = answer.headers.get("X-Mosaic-State");
    isBehind ||= region !== null && path !== "region" && state !== null && state !== region.state;
    if (!answer.ok) throw new Error(told.error);
    return told;
  } finally {
    waiting.delete(controller);
  }
}

// Tells what is done, then what came of it: the words that the act answers.
async function working(text, act, isCertain = false) {
  isCancelled = false;
  jobs += 1;
  say(text);
  byId("cancel").hidden = text === "" || isCertain;
  try {
    const told = await act();
    await refreshWhereBehind();
    say(told || "");
  } catch (fault) {
    await refreshWhereBehind().catch(() => {});
    say(isCancelled ? "Cancelled" : fault.message, !isCancelled);
  } finally {
    jobs -= 1;
    byId("cancel").hidden = byId("cancel").hidden || jobs === 0;
  }
  draw();
}

function cancel() {
  isCancelled = true;
  for (const controller of waiting) controller.abort();
}

function say(text, isFault = false) {
  byId("said").textContent = text;
  byId("status").classList.toggle("fault", isFault);
}

// Shows the store and its trial as they are now, after another page or this one has changed them.
async function refreshWhereBehind() {
  while (isBehind) {
    isBehind = false;
    await refresh();
  }
}

async function refresh() {
  const before = trial;
  region = await request("region");
  await takeTrial(region.trial);
  const isKept = before && !trial && JSON.stringify(region.kept.at(-1)) === JSON.stringify(before.edits);
  if (isKept) drafts = [];
  else if (trial && !drafts.length && !line.length) drafts = [...trial.edits];
  if (streams && (streams.count !== region.count || streams.isTrial)) takeStreams(null);
  await askAgain();
  showTrial();
  showKept();
  showCopy();
  showLines();
}

// Checks now and then, and when the page comes to the front, whether another page has changed the store or its trial.
async function look() {
  if (jobs || document.visibilityState !== "visible" || !region) return;
  try {
    await request("state", undefined, true);
    await refreshWhereBehind();
    draw();
  } catch { /* the program has ended: the next question tells it */ }
}

// ---- Numbers

const digits = (value) => Number(value.toPrecision(3)).toLocaleString("en", { maximumFractionDigits: 9 });
const whole = (value) => value.toLocaleString("en");
const volumeOf = (value) => (Math.abs(value) >= 1e5 ? `${digits(value / 1e6)} million m³` : `${digits(value)} m³`);
const areaOf = (value) => `${digits(value)} km²`;
const signed = (value, told) => (value ? `${value > 0 ? "+" : "−"}${told(Math.abs(value))}` : "no change");
const magnitude = (value) => Math.floor(Math.log10(Math.abs(value)));
const pointsOf = (count) => `${whole(count)} point${count === 1 ? "" : "s"}`;
const degrees = (value, positive, negative) => `${Math.abs(value).toFixed(5)}° ${value < 0 ? negative : positive}`;

// ---- Questions

async function ask(point) {
  asked = await request("ask", { y: point.y, x: point.x });
  watershed = null;
  showPoint();
  const told = shownOf(asked);
  return !told || told.height === null ? "A void: no height is known" : `Height ${told.height} m, water at ${told.level} m, a path of ${pointsOf(told.steps)}`;
}

// Asks the point that is shown, and its watershed, once more.
async function askAgain() {
  if (!asked) return;
  const hadWatershed = watershed !== null;
  await ask(asked);
  if (hadWatershed && shownOf(asked)) await askWatershed(0);
}

async function goTo(text) {
  const point = await request("place", { text });
  const told = await ask(point);
  [view.y, view.x] = [point.y, point.x];
  view.pointsPerPixel = Math.min(view.pointsPerPixel, 1);
  rememberPlace();
  return told;
}

function showPoint() {
  if (!asked) return;
  const told = shownOf(asked) || { height: null };
  const rows = [
    ["Point", `y ${asked.y}, x ${asked.x}`],
    ["Latitude", degrees(asked.y / (region.side - 1), "N", "S")],
    ["Longitude", degrees(asked.x / (region.side - 1), "E", "W")],
    ["Height", told.height === null ? "void" : `${told.height} m${changeOf("height", " m")}`],
  ];
  if (told.height !== null) {
    rows.push(["Filled level", `${told.level} m${changeOf("level", " m")}`], ["Standing water", `${told.level - told.height} m`]);
    rows.push(["Flows", flowsTo(told.direction)], ["Flow path", `${pointsOf(told.steps)}${changeOf("steps", "")}`]);
  }
  if (shownOf(watershed)) rows.push(...watershedRows());
  byId("point").replaceChildren(...rows.flatMap(([name, value]) => [term("dt", name), term("dd", value)]));
  byId("watershed").disabled = byId("save-path").disabled = told.height === null;
  byId("save-watershed").disabled = !shownOf(watershed);
}

// The difference that the trial makes to a number of the point, if it makes one.
function changeOf(name, unit) {
  const { store, trial: after } = asked;
  if (!store || !after || store[name] === after[name] || store.height === null || after.height === null) return "";
  return ` (trial ${signed(after[name] - store[name], whole)}${unit})`;
}

function watershedRows() {
  const { store, trial: after } = watershed;
  const told = shownOf(watershed);
  const rows = [["Watershed", `${pointsOf(told.cells)}, ${areaOf(told.km2)}`]];
  if (store && after) {
    const changed = after.cells !== store.cells || Math.abs(after.km2 - store.km2) > 1e-9;
    rows.push(["By the trial", changed ? `${signed(after.cells - store.cells, pointsOf)}, ${signed(after.km2 - store.km2, areaOf)}` : "no change"]);
  }
  return rows;
}

function flowsTo(direction) {
  return direction === "OFF" ? "off the mosaic" : direction.toLowerCase().replace("_", "-");
}

async function askWatershed(snap) {
  const from = asked;
  const told = await request("watershed", { y: from.y, x: from.x, snap });
  for (const area of [told.store, told.trial]) if (area) area.image = await imageOf(area.picture);
  if (asked !== from) return "Another point was asked meanwhile: search its watershed";
  const steps = Math.max(Math.abs(told.y - from.y), Math.abs(told.x - from.x));
  if (steps) await ask(told);
  rememberPlace();
  watershed = told;
  showPoint();
  const moved = steps ? `; its outlet was moved ${steps} step${steps > 1 ? "s" : ""} to where most drains to` : "";
  return watershedRows().map(([name, value]) => `${name} ${value}`).join("; ") + moved;
}

// Has the browser save the watershed or the path that is shown.
async function save(what) {
  const told = await request("geojson", { what, y: asked.y, x: asked.x, trial: shown() === "trial" });
  return saveAs(`${what}-${asked.y}-${asked.x}.geojson`, asGeoJson(told));
}

const asGeoJson = (told) => new Blob([JSON.stringify(told)], { type: "application/geo+json" });

function saveAs(name, blob) {
  const link = document.createElement("a");
  link.href = URL.createObjectURL(blob);
  link.download = name;
  link.click();
  setTimeout(() => URL.revokeObjectURL(link.href), 10000);
  return `Saved as ${name}`;
}

// The points that are shown, by their south, west, north and east ends.
function shownWindow() {
  const north_west = pointAt(0, 0), south_east = pointAt(canvas.clientWidth, canvas.clientHeight);
  return [south_east.y, north_west.x, north_west.y, south_east.x];
}

async function askStreams() {
  const threshold = Number(byId("threshold").value);
  const isTrial = shown() === "trial";
  takeStreams({ ...await request("streams", { window: shownWindow(), threshold, trial: isTrial }), count: region.count, isTrial });
  const most = streams.features.reduce((most, { properties }) => Math.max(most, properties.order), 0);
  return `${streams.features.length} reaches of order ${most} at most, where ${threshold} points and more drain through; of order 1 where they enter the map`;
}

function takeStreams(told) {
  streams = told;
  byId("save-streams").disabled = byId("clear-streams").disabled = streams === null;
  draw();
}

async function saveRaster() {
  const what = byId("raster").value;
  return saveAs(`${what}.tif`, await request("raster", { window: shownWindow(), what, trial: shown() === "trial" }));
}

async function imageOf(source) {
  const image = new Image();
  image.src = source;
  await image.decode();
  return image;
}

// ---- Edits

const TOOLS = {
  wall: { metres: "Raise to", hint: "Click the corners of the line on the map." },
  burn: { metres: "Lower by", hint: "Click the corners of the line on the map." },
  sink: { hint: "Click a point where water leaves, or a sink that isn't one any more." },
  patch: { metres: "Give height", hint: "Click two corners of a box: its voids get this height." },
};
const KINDS = { wall: "Road", burn: "Culvert", patch: "Voids", sink: "Sink", unsink: "No sink" };

function nameOf({ kind, amount, line: corners }) {
  const metres = kind === "sink" || kind === "unsink" ? "" : ` ${kind === "burn" ? "by" : "to"} ${amount} m`;
  return `${KINDS[kind]}${metres}${corners.length > 1 && kind !== "patch" ? `, ${lengthOf(corners)}` : ""}`;
}

function lengthOf(corners) {
  const east = Math.cos((corners[0][0] / (region.side - 1) * Math.PI) / 180);
  const metres = corners.slice(1).reduce((sum, [y, x], at) => sum + region.metres * Math.hypot(y - corners[at][0], (x - corners[at][1]) * east), 0);
  return metres >= 1000 ? `${digits(metres / 1000)} km` : `${digits(metres)} m`;
}

// A point was chosen: it is asked, or is the next corner of the line, or a sink.
function choose(point) {
  if (tool() === "ask") working("Asking …", () => ask(point)).then(rememberPlace);
  else working("", () => addCorner(point));
}

async function addCorner({ y, x }) {
  const isSink = region.sinks.some(([north, east]) => north === y && east === x);
  if (tool() === "sink") drafts.push({ kind: isSink ? "unsink" : "sink", amount: 0, line: [[y, x]] });
  else line.push([y, x]);
  showLines();
  if (tool() === "wall" && byId("amount").value === "") {
    const { store, trial: after } = await request("ask", { y, x });
    const told = after || store;
    if (told && told.height !== null) byId("amount").value = told.height + 10;
  }
  if (tool() === "patch" && line.length === 2) finishLine();
  showLines();
}

// The line that is being drawn is one of those that are tried.
function finishLine() {
  if (isReady()) drafts.push({ kind: byId("amount").dataset.tool, amount: Number(byId("amount").value), line });
  line = [];
}

// Whether the line that is being drawn has all that it needs.
const isReady = () => line.length >= (byId("amount").dataset.tool === "patch" ? 2 : 1) && byId("amount").value !== "";

function chooseTool() {
  const chosen = TOOLS[tool()] || {};
  if (byId("amount").dataset.tool !== tool()) {
    finishLine();
    byId("amount").value = tool() === "burn" ? 5 : "";
  }
  byId("amount").dataset.tool = tool();
  byId("amount-label").hidden = !chosen.metres;
  byId("amount-text").textContent = chosen.metres || "";
  byId("hint").hidden = !chosen.hint;
  byId("hint").textContent = chosen.hint || "";
  showLines();
}

function showLines() {
  const isDrawn = line.length > 0;
  byId("try").disabled = isDrawn ? !isReady() : !drafts.length;
  byId("another").disabled = !isReady();
  byId("clear").disabled = !isDrawn && !drafts.length;
  byId("lines").replaceChildren(...drafts.map((edit, number) => {
    const item = term("li", nameOf(edit)), remove = term("button", "×");
    remove.setAttribute("aria-label", `Remove ${nameOf(edit)}`);
    remove.addEventListener("click", () => { drafts.splice(number, 1); showLines(); });
    item.append(remove);
    return item;
  }));
  draw();
}

async function takeFile() {
  const [file] = byId("file").files;
  if (!file) return "";
  const words = { text: await file.text(), kind: tool(), amount: Number(byId("amount").value) };
  byId("file").value = "";
  const told = await request("file", words);
  finishLine();
  drafts.push(...told.edits);
  const corners = told.edits.flatMap(({ line: own }) => own);
  const [ys, xs] = [corners.map(([y]) => y), corners.map(([, x]) => x)];
  showBox([Math.min(...ys) - 50, Math.min(...xs) - 50, Math.max(...ys) + 50, Math.max(...xs) + 50]);
  showLines();
  return `${told.edits.length} line${told.edits.length === 1 ? "" : "s"} of ${file.name}: press Try`;
}

// Says what the first trial costs, until the copy is there.
function showCopy() {
  const { done, total, bytes, whole: isWhole } = region.copy;
  byId("copy-told").hidden = isWhole;
  byId("copy-told").textContent = `The first trial copies ${total === 1 ? "the tile" : `all ${total} tiles`}, ${Math.ceil(bytes / 1e6)} MB, into memory; the store isn't touched.`;
  byId("copied").max = total;
  byId("copied").value = done;
}

// Copies the store, some tiles a request, so that the map answers meanwhile; the copy can be cancelled.
async function copyStore() {
  byId("copied").hidden = region.copy.whole;
  try {
    do {
      region.copy = await request("copy", {}, true);
      if (isCancelled) region.copy = await request("drop", {}, true);
      showCopy();
      if (isCancelled) throw new Error("Cancelled");
      const { done, total } = region.copy;
      say(done < total ? `Copied ${done} of ${total} tiles` : "Finding the copy's water …");
    } while (!region.copy.whole);
  } finally {
    byId("copied").hidden = true;
  }
}

async function tryLines() {
  finishLine();
  const edits = [...drafts];
  byId("try").disabled = true;
  try {
    await copyStore();
    say("Trying …");
    const { change } = await request("try", { edits, state: region.state });
    return `Tried: ${differenceOf(change)}. Keep it, or take it back`;
  } finally {
    showLines();
  }
}

async function takeTrial(told) {
  trial = told && { ...told, images: { store: await imageOf(told.before.picture), trial: await imageOf(told.after.picture) } };
}

function differenceOf({ points, km2, volume }) {
  if (!points && !volume) return "the water is as before";
  return `${signed(points, pointsOf)} under water, ${signed(km2, areaOf)}, ${signed(volume, volumeOf)}`;
}

function showTrial() {
  byId("trial").hidden = trial === null;
  byId("undo").disabled = trial !== null;
  showPoint();
  if (!trial) return;
  const { before, after, change } = trial;
  byId("difference").textContent = differenceOf(change);
  byId("cut").hidden = trial.whole;
  const rows = [
    ["Under water, points", ...[before.points, after.points].map(whole), signed(change.points, whole)],
    ["Area, km²", ...totals(before.km2, after.km2), signed(change.km2, digits)],
    ["Volume, million m³", ...totals(before.volume / 1e6, after.volume / 1e6), signed(change.volume / 1e6, digits)],
    ["Deepest, m", before.deepest, after.deepest, signed(change.deepest, whole)],
    ...trial.edits.slice(0, 6).map(({ kind }, number) => levelRow(`${number + 1}. ${KINDS[kind]}: level, m`, ...trial.levels[number])),
  ];
  byId("effects").replaceChildren(...rows.map(([name, ...values]) => {
    const row = document.createElement("tr");
    row.append(term("th", name), ...values.map((value) => term("td", value === "no change" ? "0" : value)));
    return row;
  }));
  byId("trial").scrollIntoView({ block: "nearest" });
}

// Two totals with as many decimals as show how they differ.
function totals(before, after) {
  const decimals = before === after ? 0 : Math.max(0, Math.min(1 - magnitude(after - before), 6 - magnitude(Math.max(before, after))));
  const told = (value) => value.toLocaleString("en", { minimumFractionDigits: decimals, maximumFractionDigits: decimals });
  return before === after ? [digits(before), digits(after)] : [told(before), told(after)];
}

function levelRow(name, before, after) {
  const told = [before, after].map((level) => (level === null ? "void" : level));
  return [name, ...told, before === null || after === null ? "" : signed(after - before, whole)];
}

// Ends a trial by "keep" or "discard", or takes the last one back by "undo": once, however often its button is pressed meanwhile.
async function change(path) {
  const buttons = ["keep", "discard", "undo"].map(byId);
  for (const button of buttons) button.disabled = true;
  try {
    const { count } = await request(path, { state: region.state }, true);
    await refreshWhereBehind();
    const told = { keep: "Kept in the store", discard: "Taken back: the store is as it was", undo: "The last edit was undone" };
    return `${told[path]}; the store counts ${count} commands`;
  } finally {
    for (const button of buttons) button.disabled = false;
    byId("undo").disabled = trial !== null;
  }
}

function showKept() {
  byId("edits").hidden = !region.kept.length;
  byId("undo").disabled = trial !== null;
  byId("kept").replaceChildren(...region.kept.map((edits) => {
    const [[y, x]] = edits[0].line;
    const place = `${degrees(y / (region.side - 1), "N", "S")} ${degrees(x / (region.side - 1), "E", "W")}`;
    return term("li", `${edits.map(nameOf).join("; ")}, from ${place}`);
  }));
}

// ---- Links: #at=y,x,points-per-pixel & ask=y,x & watershed & snap=steps & streams=points & wall=height;y,x;y,x & burn=depth;y,x ..

function rememberPlace() {
  const parts = [`at=${Math.round(view.y)},${Math.round(view.x)},${view.pointsPerPixel}`];
  if (asked) parts.push(`ask=${asked.y},${asked.x}`);
  history.replaceState(null, "", `#${parts.join("&")}`);
}

const numbers = (text) => text.split(",").map(Number);

async function followLink() {
  const parts = new URLSearchParams(location.hash.slice(1));
  if (parts.has("at")) [view.y, view.x, view.pointsPerPixel] = numbers(parts.get("at"));
  draw();
  if (parts.has("standing")) byId("standing").checked = true;
  let told = "";
  if (parts.has("streams")) {
    byId("threshold").value = parts.get("streams");
    told = await askStreams();
  }
  if (parts.has("ask")) {
    const [y, x] = numbers(parts.get("ask"));
    told = await ask({ y, x });
    if (parts.has("watershed")) told = await askWatershed(Number(parts.get("snap")));
  }
  const linked = [...parts].filter(([name]) => name in KINDS).map(([kind, value]) => {
    const [amount, ...corners] = value.split(";");
    return { kind, amount: Number(amount), line: corners.map(numbers) };
  });
  if (!linked.length) return told;
  drafts = linked;
  line = [];
  showLines();
  return trial ? "A trial is under way: press Try to have the link's lines in its place" : tryLines();
}

// ---- The start

async function start() {
  region = await request("region");
  byId("store").textContent = `${region.name}: ${region.tiles.length} tile${region.tiles.length === 1 ? "" : "s"} of ${region.side} × ${region.side} samples`;
  byId("legend-low").textContent = `${region.lowest} m`;
  byId("legend-high").textContent = `${region.highest} m`;
  byId("depth-high").textContent = `${region.deepest} m and more`;
  byId("base-label").hidden = !region.base;
  if (region.base) byId("base-name").textContent = new URL(region.base).host;
  showBox(region.bounds);
  await refresh();
  return followLink();
}

byId("watershed").addEventListener("click", () => working("Searching the watershed …", () => askWatershed(Number(byId("snap").value))));
byId("save-watershed").addEventListener("click", () => working("Saving …", () => save("watershed")));
byId("save-path").addEventListener("click", () => working("Saving …", () => save("path")));
byId("streams").addEventListener("click", () => working("Finding streams …", askStreams));
byId("save-streams").addEventListener("click", () => working("", async () => saveAs("streams.geojson", asGeoJson({ type: streams.type, features: streams.features }))));
byId("clear-streams").addEventListener("click", () => takeStreams(null));
byId("save-raster").addEventListener("click", () => working("Asking …", saveRaster));
byId("cancel").addEventListener("click", cancel);
byId("go").addEventListener("submit", (event) => { event.preventDefault(); working("Going there …", () => goTo(byId("place").value)); });
byId("try").addEventListener("click", () => working("Trying …", tryLines));
byId("another").addEventListener("click", () => { finishLine(); showLines(); });
byId("keep").addEventListener("click", () => working("Keeping …", () => change("keep"), true));
byId("discard").addEventListener("click", () => working("Taking back …", () => change("discard"), true));
byId("undo").addEventListener("click", () => working("Undoing …", () => change("undo"), true));
byId("clear").addEventListener("click", () => { drafts = []; line = []; showLines(); });
byId("file").addEventListener("change", () => working("Reading the file …", takeFile));
byId("amount").addEventListener("input", showLines);
byId("standing").addEventListener("change", draw);
byId("base").addEventListener("change", draw);
for (const choice of document.querySelectorAll("input[name=tool]")) choice.addEventListener("change", () => { say(""); chooseTool(); });
for (const choice of document.querySelectorAll("input[name=shown]")) choice.addEventListener("change", () => { showPoint(); draw(); });
window.addEventListener("hashchange", () => working("Following the link …", followLink));
window.addEventListener("focus", look);
document.addEventListener("visibilitychange", look);
const looking = setInterval(look, SECONDS_BETWEEN_LOOKS * 1000);
working("Loading the tiles …", start);
