// What is known of the lock at each event. A thread holds the lock, waits for it outside the queue, stands in the queue, does neither
// (idle), or is unknown: where the record begins, and behind each gap, a thread's next event says what it did until then.

const stride = Math.max(256, 2 * threads.length);
const kept = []; // the state after every event whose number is a multiple of the stride
const waiting = new Uint32Array(events + 1); // how many are known to wait after each event
const gaps = []; // the events that are gaps
const openings = new Map(); // where a part without gaps begins: what each thread did there, as its events say
const sureFrom = new Map(); // of such a part: from which event on a lock that nobody is known to hold is free; or none

// A thread's first event in a part says what it did before.
const before = { frees: "holds", queues: "waits", "gives-up": "waits", asks: "queued", waits: "idle", takes: "unknown" };

function findOpenings() {
  let part = null;
  for (let k = 0; k <= events; k += 1) {
    const event = k === 0 ? { kind: "lost" } : eventOf(k);
    if (event.kind === "lost") {
      part = { begin: k, found: new Map(), wordless: new Map(), last: k };
      openings.set(k, part.found);
      if (k > 0) {
        gaps.push(k);
      }
    } else {
      openWith(part, k, event);
    }
  }
}

function openWith(part, k, event) {
  if (!part.found.has(event.row)) {
    part.found.set(event.row, { kind: before[event.kind], word: "", until: k });
    part.wordless.set(event.row, part.found.get(event.row));
  }
  if (event.kind === "takes") {
    const own = part.wordless.get(event.row);
    if (own && own.kind !== "idle" && own.kind !== "unknown") {
      own.word = event.word;
    }
    // nobody else held it then, so nobody has since the hold before
    if (event.word === "write" && !sureFrom.has(part.begin)) {
      sureFrom.set(part.begin, part.last);
    }
  }
  if (event.kind === "takes" || event.kind === "frees") {
    part.last = k;
  }
  if (event.kind !== "queues" && event.kind !== "asks") {
    part.wordless.delete(event.row);
  }
}

// The state where a part begins, at event k: a gap, or 0.
function openingAt(k) {
  const found = openings.get(k);
  const state = { k: k, part: k, at: k === 0 ? 0 : eventOf(k).at, all: [], holding: new Set(), waiting: new Set() };
  threads.forEach((_, row) => {
    const opening = found.get(row) || { kind: "unknown", word: "", until: 0 };
    state.all.push({ kind: opening.kind, word: opening.word, how: "", since: 0, asked: 0, joined: 0, others: 0, passed: 0, asks: 0, next: opening.until });
    mark(state, row);
  });
  return state;
}

function mark(state, row) {
  const kind = state.all[row].kind;
  const has = [[state.holding, kind === "holds"], [state.waiting, kind === "waits" || kind === "queued"]];
  for (const [rows, is] of has) {
    if (is) {
      rows.add(row);
    } else {
      rows.delete(row);
    }
  }
}

function copyOf(state) {
  return { ...state, all: state.all.map((own) => ({ ...own })), holding: new Set(state.holding), waiting: new Set(state.waiting) };
}

// The state goes on over event k.
function step(state, k) {
  const event = eventOf(k);
  if (event.kind === "lost") {
    return openingAt(k);
  }
  const own = state.all[event.row];
  const acts = {
    waits: () => Object.assign(own, { kind: "waits", word: event.word, since: k, asked: k, joined: 0, others: 0, passed: 0, asks: 0 }),
    queues: () => Object.assign(own, { kind: "queued", since: k, joined: k }),
    asks: () => Object.assign(own, { kind: "queued", asks: own.asks + 1 }),
    takes: () => takes(state, event, k),
    frees: () => Object.assign(own, { kind: "idle", word: "", since: k, asked: 0 }),
    "gives-up": () => Object.assign(own, { kind: "idle", word: "", since: k, asked: 0 }),
  };
  acts[event.kind]();
  mark(state, event.row);
  state.k = k;
  state.at = event.at;
  return state;
}

function takes(state, event, k) {
  const own = state.all[event.row];
  const how = own.kind === "waits" || own.kind === "queued" ? "waited" : own.kind;
  const asked = how === "waited" ? own.asked : how === "idle" ? k : 0;
  for (const row of state.waiting) {
    const other = state.all[row];
    if (row !== event.row) {
      other.others += 1;
      other.passed += asked > other.asked ? 1 : 0;
    }
  }
  for (const row of [...state.holding]) {
    const other = state.all[row];
    if (row !== event.row && (event.word === "write" || other.word === "write")) {
      Object.assign(other, { kind: "unknown", word: "", since: k });
      mark(state, row);
    } else if (row !== event.row) {
      other.word = "read";
    }
  }
  Object.assign(own, { kind: "holds", word: event.word, since: k, asked: asked, how: how });
}

let latest = null; // the state that was asked for last

function stateAt(k) {
  const from = kept[Math.floor(k / stride)];
  let state = latest !== null && latest.k <= k && latest.k >= from.k ? latest : copyOf(from);
  while (state.k < k) {
    state = step(state, state.k + 1);
  }
  latest = state;
  return state;
}

function walkEvents() {
  findOpenings();
  let state = openingAt(0);
  kept.push(copyOf(state));
  for (let k = 1; k <= events; k += 1) {
    state = step(state, k);
    waiting[k] = state.waiting.size;
    if (k % stride === 0) {
      kept.push(copyOf(state));
    }
  }
}

// Whether nobody holds the lock, where nobody is known to hold it.
function isFree(state) {
  return sureFrom.has(state.part) && state.k >= sureFrom.get(state.part);
}

// The queue as its waiters joined it: first those that joined before this part began.
function queueOf(state) {
  const rows = [...state.waiting].filter((row) => state.all[row].kind === "queued");
  return rows.sort((one, other) => state.all[one].joined - state.all[other].joined || one - other);
}
