// Which event is shown, and how it is chosen.

const least = Math.min(1, events);
const slider = byId("at");
const table = byId("events");
let shown = least;
let playing = null;
let rowHeight = 28; // of a row of the table, in pixels

function tableRow(k) {
  const event = eventOf(k);
  const row = make("tr", event.kind === "lost" ? "event gap" : "event", "");
  row.dataset.event = k;
  row.setAttribute("aria-rowindex", k + 1);
  if (k === shown) {
    row.setAttribute("aria-current", "true");
  }
  const words = tellEvent(event).replace(/^thread /, "");
  const cells = [make("td", "", String(k)), make("td", "", timeOf(event.at)), make("td", "", words)];
  cells[1].title = event.at + " ns";
  cells[2].title = words;
  row.append(...cells);
  return row;
}

function gap(rows) {
  const row = make("tr", "", "");
  row.style.height = rows * rowHeight + "px";
  return row;
}

// What depends on the size of the window.
function fit() {
  rowHeight = 1.75 * parseFloat(getComputedStyle(document.documentElement).fontSize);
  document.documentElement.style.setProperty("--controls", byId("controls").offsetHeight + "px");
  drawTable();
  drawLanes(shown);
}

// The rows in sight and some around them stand in the table, the others as two gaps.
function drawTable() {
  const first = Math.max(1, Math.floor(table.scrollTop / rowHeight) - 10);
  const last = Math.min(events, first + Math.ceil(table.clientHeight / rowHeight) + 20);
  const rows = [gap(first - 1)];
  for (let k = first; k <= last; k += 1) {
    rows.push(tableRow(k));
  }
  rows.push(gap(Math.max(0, events - last)));
  byId("rows").replaceChildren(...rows);
}

function scrollTable() {
  const top = (shown - 1) * rowHeight;
  const room = table.clientHeight - 2 * rowHeight;
  if (top < table.scrollTop || top > table.scrollTop + room) {
    table.scrollTop = Math.max(0, top - room / 2);
  }
  drawTable();
}

function drawEvent(k) {
  if (events === 0) {
    byId("event").textContent = "A record of no events";
    return;
  }
  const words = tellEvent(eventOf(k));
  byId("event").textContent = "Event " + k + ": " + words;
  byId("line").textContent = lineOf(k);
  slider.setAttribute("aria-valuetext", "event " + k + " of " + events + ": " + words);
}

// Shows the state after event k.
function show(k) {
  shown = Math.min(Math.max(k, least), events);
  slider.value = shown;
  byId("place").textContent = shown + " of " + events;
  drawEvent(shown);
  drawLock(stateAt(shown));
  drawGroups(stateAt(shown));
  drawTold();
  drawPlace(shown);
  drawLanes(shown);
  scrollTable();
}

// The event before or behind the one shown; where questions are passed over, one that is none.
function next(direction) {
  let k = shown + direction;
  while (byId("skip").checked && k >= 1 && k <= events && eventOf(k).kind === "asks") {
    k += direction;
  }
  return k;
}

function play(wanted) {
  clearInterval(playing);
  playing = wanted ? setInterval(() => (shown < events ? show(next(1)) : play(false)), Number(byId("speed").value)) : null;
  byId("play").textContent = wanted ? "Pause" : "Play";
  byId("unknown").setAttribute("aria-live", wanted ? "off" : "polite");
}

function togglePlay() {
  if (playing === null && shown === events) {
    show(least);
  }
  play(playing === null);
}

// Shows an event that was chosen, and keeps it in the address.
function go(k) {
  play(false);
  show(k);
  try {
    history.replaceState(null, "", "#event=" + shown);
  } catch (refused) {
    // an address that can't be changed stays as it is
  }
}

function eventInAddress() {
  const found = /^#event=(\d+)$/.exec(location.hash);
  return found === null ? least : Number(found[1]);
}

const keys = {
  ArrowLeft: () => go(next(-1)),
  ArrowRight: () => go(next(1)),
  Home: () => go(least),
  End: () => go(events),
  Escape: () => pin(null),
  " ": togglePlay,
};

// Keys that an element has a use for of its own are left to it.
function isOwnKey(key, element) {
  return element.matches("select") || (key === " " && element.matches("button, summary, input[type=checkbox]"));
}

function pressed(event) {
  const act = keys[event.key];
  if (act === undefined || event.ctrlKey || event.altKey || event.metaKey || isOwnKey(event.key, event.target)) {
    return;
  }
  event.preventDefault();
  act();
}

function start() {
  walkEvents();
  slider.min = least;
  slider.max = events;
  slider.disabled = events === 0;
  slider.addEventListener("input", () => { play(false); show(Number(slider.value)); });
  slider.addEventListener("change", () => go(Number(slider.value)));
  byId("first").addEventListener("click", keys.Home);
  byId("back").addEventListener("click", keys.ArrowLeft);
  byId("play").addEventListener("click", togglePlay);
  byId("on").addEventListener("click", keys.ArrowRight);
  byId("last").addEventListener("click", keys.End);
  byId("speed").addEventListener("change", () => play(playing !== null));
  byId("lengths").addEventListener("click", (event) => go(Math.ceil((event.offsetX / byId("lengths").clientWidth) * events)));
  byId("lanes").addEventListener("click", (event) => {
    const k = eventAt(event.offsetX);
    const at = event.target.closest(".lane");
    if (k !== null) {
      go(k);
    }
    if (at !== null) {
      pin(rowOf.get(at.dataset.thread));
    }
  });
  table.addEventListener("scroll", drawTable);
  table.addEventListener("click", (event) => {
    const row = event.target.closest("tr.event");
    if (row !== null) {
      go(Number(row.dataset.event));
    }
  });
  table.querySelector("table").setAttribute("aria-rowcount", events + 1);
  document.addEventListener("keydown", pressed);
  window.addEventListener("hashchange", () => show(eventInAddress()));
  window.addEventListener("resize", fit);
  byId("about").textContent = aboutWords();
  drawLengths();
  fit();
  show(eventInAddress());
}

start();
