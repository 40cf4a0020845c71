// A lane for each thread, by socket, over the events around the one that is shown: one column an event.

const lane = { height: 20, column: 12, most: 40, top: 18 };

function svg(tag, values, text) {
  const node = document.createElementNS(byId("lanes").namespaceURI, tag);
  for (const [name, value] of Object.entries(values)) {
    node.setAttribute(name, value);
  }
  if (text !== undefined) {
    node.textContent = text;
  }
  return node;
}

// Which events are in sight: from the first on, so many.
function sight(k, width) {
  const count = Math.max(1, Math.floor(width / lane.column));
  const first = Math.max(1, Math.min(k - Math.floor(count * 0.6), events - count + 1));
  return { first: first, last: Math.min(events, first + count - 1), count: count };
}

// Of each thread its runs: what it does from which event until which; and what happens at each event in sight.
function runsIn(seen) {
  const runs = threads.map(() => []);
  const marks = [];
  for (let k = seen.first; k <= seen.last; k += 1) {
    const state = stateAt(k);
    const event = eventOf(k);
    marks.push({ k: k, event: event });
    state.all.forEach((own, row) => {
      const last = runs[row][runs[row].length - 1];
      if (last && last.kind === own.kind && last.since === own.since && event.kind !== "lost") {
        last.until = k + 1;
        last.word = own.word;
      } else {
        runs[row].push({ kind: own.kind, word: own.word, since: own.since, from: k, until: k + 1 });
      }
    });
  }
  return { runs: runs, marks: marks };
}

// The threads that have a lane: all, or where there are too many those that do something in sight.
function rowsWithLanes(found) {
  const rows = threads.map((_, row) => row);
  const does = (row) => found.runs[row].some((run) => run.kind !== "idle" && run.kind !== "unknown");
  return rows.length <= lane.most ? rows : rows.filter(does).slice(0, lane.most);
}

function barOf(run, x, y) {
  const from = x(run.from);
  const width = x(run.until) - from;
  const height = { holds: run.word === "read" ? 7 : 13, queued: 5, waits: 2, unknown: 13 }[run.kind];
  return height === undefined ? [] : [svg("rect", { class: run.kind, x: from, y: y + (lane.height - height) / 2, width: width, height: height })];
}

function laneOf(row, y, found, x, width) {
  const group = tells(svg("g", { class: "lane", "data-thread": threads[row].id, style: "--own:" + colourOf(row) }), row);
  group.append(svg("rect", { class: "room", x: 0, y: y + 1, width: width, height: lane.height - 2 }));
  group.append(svg("text", { x: 4, y: y + 14 }, threads[row].id + (width > 600 ? " " + threads[row].name.slice(0, 10) : "")));
  group.append(...found.runs[row].flatMap((run) => barOf(run, x, y)));
  for (const { k, event } of found.marks) {
    if (event.row === row && event.kind === "asks") {
      group.append(svg("circle", { class: event.rest[1], cx: x(k) + lane.column / 2, cy: y + lane.height / 2, r: 3 }));
    }
    if (event.row === row && event.kind === "gives-up") {
      group.append(svg("text", { class: "mark", x: x(k) + 1, y: y + 14 }, "\u00d7"));
    }
  }
  return group;
}

function lanesOf(rows, found, x, width) {
  const nodes = [];
  let y = lane.top;
  rows.forEach((row, place) => {
    if (place === 0 || threads[rows[place - 1]].socket !== threads[row].socket) {
      nodes.push(svg("text", { class: "socket", x: 4, y: y + 14, style: "--own:" + colourOf(row) }, "socket " + threads[row].socket));
      y += lane.height;
    }
    nodes.push(laneOf(row, y, found, x, width));
    y += lane.height;
  });
  return { nodes: nodes, bottom: y };
}

function drawLanes(k) {
  const picture = byId("lanes");
  const width = Math.max(200, picture.parentNode.clientWidth);
  const left = width > 600 ? 150 : 70;
  const seen = sight(k, width - left);
  const x = (event) => left + (event - seen.first) * lane.column;
  const found = runsIn(seen);
  const { nodes, bottom } = lanesOf(rowsWithLanes(found), found, x, width);
  const here = svg("rect", { class: "here", x: x(k), y: 0, width: lane.column, height: bottom });
  const lost = found.marks.filter((it) => it.event.kind === "lost");
  const gap = (it) => svg("rect", { class: "gap", x: x(it.k), y: lane.top, width: lane.column, height: bottom - lane.top });
  const ticks = found.marks.filter((it) => it.k % 10 === 0).map((it) => svg("text", { class: "tick", x: x(it.k) + 6, y: 12 }, String(it.k)));
  picture.setAttribute("viewBox", "0 0 " + width + " " + bottom);
  picture.setAttribute("height", bottom);
  picture.dataset.first = seen.first;
  picture.dataset.left = left;
  picture.replaceChildren(here, ...ticks, ...nodes, ...lost.map(gap));
}

// The event whose column this place is in, or nothing.
function eventAt(x) {
  const k = Number(byId("lanes").dataset.first) + Math.floor((x - Number(byId("lanes").dataset.left)) / lane.column);
  return x >= Number(byId("lanes").dataset.left) && k <= events ? k : null;
}
