"use strict";

// The record. Line 0 is its heading, then come the threads' lines, then those of the events, and behind them the counts.
const report = document.getElementById("report").textContent;
const starts = lineStarts(report);
const heading = headingOf(textOf(0));
const threads = threadsOf(); // by socket, and by the system's number
const rowOf = new Map(threads.map((thread, row) => [thread.id, row]));
const sockets = [...new Set(threads.map((thread) => thread.socket))];
const events = starts.length - 3 - threads.length;

function lineStarts(text) {
  const found = [0];
  for (let at = text.indexOf("\n"); at >= 0; at = text.indexOf("\n", at + 1)) {
    found.push(at + 1);
  }
  return found;
}

function textOf(line) {
  return report.slice(starts[line], starts[line + 1] - 1);
}

// The line of event k, from 1 on; a gap is an event too.
function lineOf(k) {
  return textOf(threads.length + k);
}

function headingOf(line) {
  const words = line.split(" ");
  return { process: words[3], lock: words[5], ns: Number(words[9]) };
}

function threadsOf() {
  const found = [];
  for (let line = 1; textOf(line).startsWith("thread "); line += 1) {
    const words = textOf(line).split(" ");
    found.push({ id: words[1], socket: Number(words[3]), name: words[5] });
  }
  return found.sort((one, other) => one.socket - other.socket || Number(one.id) - Number(other.id));
}

// What event k is: when, of which thread (its row), and the words behind that.
function eventOf(k) {
  const words = lineOf(k).split(" ");
  const at = Number(words[0]);
  if (words[1] === "lost") {
    return { at: at, kind: "lost", row: -1, count: Number(words[2]), rest: [] };
  }
  return { at: at, kind: words[1], row: rowOf.get(words[2]), word: words[3] || "", rest: words.slice(3) };
}
