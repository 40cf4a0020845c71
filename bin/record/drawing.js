// What is drawn: who holds the lock, and a box for each thread.

const byId = (id) => document.getElementById(id);
const boxes = threads.map((_, row) => makeBox(row));
const mostOthers = 200;
let pinned = null; // the thread that was chosen, by its row
let pointed = null; // the thread under the pointer

function make(tag, name, text) {
  const node = document.createElement(tag);
  node.className = name;
  node.textContent = text;
  return node;
}

// What tells of a thread while it is pointed at.
function tells(node, row) {
  node.addEventListener("pointerenter", (event) => event.pointerType === "mouse" && pointAt(row));
  node.addEventListener("pointerleave", () => pointAt(null));
  return node;
}

function makeBox(row) {
  const box = tells(make("button", "pass", ""), row);
  box.type = "button";
  box.dataset.thread = threads[row].id;
  box.addEventListener("focus", () => pointAt(row));
  box.addEventListener("blur", () => pointAt(null));
  box.addEventListener("click", () => pin(pinned === row ? null : row));
  return box;
}

function lasting(state, k) {
  return k === 0 ? "from before" : timeOf(state.at - eventOf(k).at);
}

function labelsOf(state, row, place) {
  const own = state.all[row];
  const labels = [threads[row].name === "-" ? "" : threads[row].name, "socket " + threads[row].socket];
  if (own.kind === "holds") {
    labels.push(lasting(state, own.since));
  }
  if (own.kind === "waits" || own.kind === "queued") {
    labels.push(lasting(state, own.asked));
  }
  if (own.kind === "queued") {
    labels.push(own.joined === 0 ? "place unknown" : place + " before");
  }
  return labels.filter((label) => label !== "");
}

function drawBox(state, row, place) {
  const own = state.all[row];
  const box = boxes[row];
  const marks = ["pass", own.kind, own.word === "read" ? "reader" : "", own.kind === "idle" || own.kind === "unknown" ? "small" : ""];
  box.className = marks.filter((mark) => mark !== "").join(" ");
  box.style.setProperty("--own", colourOf(row));
  box.setAttribute("aria-pressed", String(pinned === row));
  box.setAttribute("aria-label", tellThread(state, row));
  const word = { idle: " at rest", unknown: " not known" }[own.kind] || (own.word === "" ? "" : own.word === "read" ? " reader" : " writer");
  const name = make("span", "", word);
  name.prepend(make("b", "", threads[row].id));
  const labels = own.kind === "idle" || own.kind === "unknown" ? [] : labelsOf(state, row, place);
  box.replaceChildren(name, ...labels.map((label) => make("span", "", label)));
  return box;
}

function colourOf(row) {
  return "var(--s" + (sockets.indexOf(threads[row].socket) % 6) + ")";
}

function drawThreads(id, state, rows) {
  const drawn = rows.slice(0, mostOthers).map((row, place) => drawBox(state, row, place));
  const more = rows.length > mostOthers ? [make("span", "none", "and " + (rows.length - mostOthers) + " more")] : [];
  byId(id).replaceChildren(...(drawn.length === 0 ? [make("span", "none", "none")] : [...drawn, ...more]));
}

function drawLock(state) {
  const outside = state.all.filter((own) => own.kind === "waits").length;
  byId("held").textContent = tellLock(state);
  byId("count").textContent = state.waiting.size + " known, " + (state.waiting.size - outside) + " of them in the queue";
  byId("time").textContent = timeOf(state.at);
  byId("unknown").textContent = tellUnknown(state);
}

function drawGroups(state) {
  const focus = document.activeElement;
  const rows = threads.map((_, row) => row);
  const of = (...kinds) => rows.filter((row) => kinds.includes(state.all[row].kind));
  drawThreads("holders", state, of("holds"));
  drawThreads("outside", state, of("waits"));
  drawThreads("queue", state, queueOf(state));
  drawThreads("others", state, of("idle", "unknown"));
  if (focus !== document.activeElement && focus.classList.contains("pass")) {
    focus.focus({ preventScroll: true });
  }
}

function drawTold() {
  const row = pointed === null ? pinned : pointed;
  byId("told").className = row === null ? "hint" : "";
  byId("told").textContent = row === null
    ? "Point at a thread, tap it, or go to it by the tab key: here it is told in words."
    : tellThread(stateAt(shown), row);
}

function pointAt(row) {
  pointed = row;
  drawTold();
}

function pin(row) {
  pinned = row;
  boxes.forEach((box, other) => box.setAttribute("aria-pressed", String(other === row)));
  drawTold();
}

// How many waited at each event, as a shape above the slider, with the gaps.
function drawLengths() {
  const columns = Math.min(events, 800);
  const lengths = sample(columns);
  const most = Math.max(1, ...lengths);
  const points = lengths.map((length, i) => "L" + i + " " + (most - length) + "H" + (i + 1));
  byId("lengths").setAttribute("viewBox", "0 0 " + Math.max(columns, 1) + " " + most);
  byId("lengths").querySelector(".shape").setAttribute("d", "M0 " + most + points.join("") + "V" + most + "Z");
  const marks = new Set(gaps.map((k) => Math.floor(((k - 1) * columns) / events)));
  byId("lengths").querySelector(".gaps").setAttribute("d", [...marks].map((x) => "M" + x + " 0h1v" + most + "h-1Z").join(""));
}

// The most that waited within each of so many parts of the record.
function sample(columns) {
  const longest = new Array(columns).fill(0);
  for (let k = 1; k <= events; k += 1) {
    const column = Math.floor(((k - 1) * columns) / events);
    longest[column] = Math.max(longest[column], waiting[k]);
  }
  return longest;
}

function drawPlace(k) {
  const box = byId("lengths").viewBox.baseVal;
  const line = byId("lengths").querySelector("line");
  const x = events === 0 ? 0 : ((k - 0.5) * box.width) / events;
  for (const [name, value] of [["x1", x], ["x2", x], ["y1", 0], ["y2", box.height]]) {
    line.setAttribute(name, value);
  }
}
