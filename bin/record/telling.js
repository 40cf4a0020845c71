// What is told in words.

function counted(n, one, many) {
  return n + " " + (n === 1 ? one : many);
}

// Three digits and a unit.
function timeOf(ns) {
  for (const [unit, one] of [["s", 1e9], ["ms", 1e6], ["us", 1e3]]) {
    if (ns >= one) {
      return (ns / one).toFixed(ns < 10 * one ? 2 : ns < 100 * one ? 1 : 0) + " " + unit;
    }
  }
  return Math.max(0, ns) + " ns";
}

function asWhat(own) {
  return own.word === "" ? "" : own.word === "read" ? " as a reader" : " as a writer";
}

// Where the part without gaps begins that an event stands in.
function beginning(state) {
  return state.part === 0 ? "before the record began" : "before the gap at event " + state.part;
}

// From an event until now; event 0 is before the part began.
function sinceWords(state, k) {
  return k === 0 ? "since " + beginning(state) : "since event " + k + ", for " + timeOf(state.at - eventOf(k).at) + " so far";
}

function waitedWords(state, own) {
  if (own.how === "idle") {
    return "It found it free.";
  }
  if (own.how === "waited" && own.asked > 0) {
    return "It had waited since event " + own.asked + ", for " + timeOf(eventOf(own.since).at - eventOf(own.asked).at) + ".";
  }
  return own.how === "waited" ? "It had waited since " + beginning(state) + "." : "Whether it had waited isn't known.";
}

function queueWords(state, row) {
  const own = state.all[row];
  const place = queueOf(state).indexOf(row);
  const words = own.joined > 0
    ? "at event " + own.joined + ", and " + counted(place, "thread that joined before it stands", "threads that joined before it stand") + " there still"
    : beginning(state) + "; in which order they joined who did isn't known";
  return "It joined the queue " + words + ". Whom a policy moved isn't in a record.";
}

function passedWords(state, own) {
  if (own.asked === 0) {
    return "";
  }
  return "Meanwhile others have taken the lock " + counted(own.others, "time", "times")
    + (own.others === 0 ? "" : ", of whom " + own.passed + " asked for it later, as far as is known") + "; it has asked the policy " + counted(own.asks, "question", "questions") + ".";
}

function unknownWords(state, own) {
  const why = own.since > 0 ? "At event " + own.since + " another thread took the lock that it held; when it gave it back is missing."
    : own.next > 0 ? "It has no event since " + beginning(state).replace("before ", "") + " and before event " + own.next + "."
    : "It has no event since " + beginning(state).replace("before ", "") + ", and none until the next gap or the end.";
  return "Whether it holds the lock, waits or does neither isn't known. " + why;
}

// A thread in words.
function tellThread(state, row) {
  const own = state.all[row];
  const thread = threads[row];
  const words = ["Thread " + thread.id + (thread.name === "-" ? "" : " (" + thread.name + ")") + " of socket " + thread.socket + "."];
  switch (own.kind) {
    case "holds":
      words.push("It holds the lock" + asWhat(own) + ", " + sinceWords(state, own.since) + ".", own.since > 0 ? waitedWords(state, own) : "");
      break;
    case "waits":
      words.push("It waits outside the queue" + asWhat(own) + ", " + sinceWords(state, own.asked) + ".", passedWords(state, own));
      break;
    case "queued":
      words.push("It waits in the queue" + asWhat(own) + ", " + sinceWords(state, own.asked) + ".", queueWords(state, row), passedWords(state, own));
      break;
    case "idle":
      words.push("It neither waits nor holds the lock" + (own.since > 0 ? ", " + sinceWords(state, own.since) : "") + ".");
      break;
    default:
      words.push(unknownWords(state, own));
  }
  return words.filter((one) => one !== "").join(" ");
}

function tellQuestion(event) {
  const [what, answer, socket, prio, group, kind] = event.rest;
  return what === "skip" ? "asks whether to skip its round: " + answer
    : "asks whether a waiter of socket " + socket + ", priority " + prio + ", class " + group + ", kind " + kind + " should move: " + answer;
}

// An event in words, behind the thread's number.
function tellAct(event) {
  switch (event.kind) {
    case "waits": return "finds the lock taken, and waits" + asWhat(event);
    case "queues": return "joins the queue";
    case "takes": return "takes the lock" + asWhat(event);
    case "frees": return "gives the lock back";
    case "gives-up": return "gives up: its deadline has come";
    default: return tellQuestion(event);
  }
}

function tellEvent(event) {
  return event.kind === "lost" ? counted(event.count, "event is missing", "events are missing") : "thread " + threads[event.row].id + " " + tellAct(event);
}

// The lock after an event, in words.
function tellLock(state) {
  const holders = [...state.holding].map((row) => state.all[row]);
  if (holders.length === 0) {
    return isFree(state) ? "free" : "not known";
  }
  const words = holders.some((own) => own.word === "write") ? "by a writer" : holders.some((own) => own.word === "read")
    ? "by " + counted(holders.length, "reader", "readers") : "by " + counted(holders.length, "thread", "threads");
  return "held " + words + (isFree(state) || words === "by a writer" ? "" : " at least");
}

// What is not known there, or nothing.
function tellUnknown(state) {
  const count = state.all.filter((own) => own.kind === "unknown").length;
  const unknown = count === 0 ? "" : "It isn't known what " + counted(count, "thread does", "threads do");
  const place = state.part === state.k && state.part > 0 ? "Here the record has a gap" : state.part > 0 ? "The last gap was at event " + state.part : "";
  return [place, unknown].filter((one) => one !== "").join(". ") + (place + unknown === "" ? "" : ".");
}

function aboutWords() {
  const lost = gaps.reduce((sum, k) => sum + eventOf(k).count, 0);
  return "Lock " + heading.lock + " of process " + heading.process + ": " + counted(events - gaps.length, "event", "events") + " of "
    + counted(threads.length, "thread", "threads") + " on " + counted(sockets.length, "socket", "sockets") + " in " + timeOf(heading.ns) + ", "
    + (lost === 0 ? "none missing." : lost + " more are missing.");
}
