#!/usr/bin/env bash
# Times `syncord line` beside a C program that writes the same report: 64 passes, of which one walks along a queue of 63; one pass that
# takes and frees the lock; events that are all refused; events drawn at random. Each has 65,536 events. Processor and wall
# milliseconds, the median and the worst of fifteen runs in turn, and the most memory. First it compares what both write of these and of the examples,
# but for those that name programs. The peer writes its report in pieces, as `syncord` does, and a second time it keeps it until it is whole,
# which is its way to write nothing where memory runs out. Not a part of the gate. It builds the peer in a folder that it removes. SYNCORD
# names another program to time.
set -eu
. "$(dirname "$(readlink -f "${BASH_SOURCE[0]}")")/begin.sh"
cc -O2 -o "$room/peer" "$top"/bench/line.c "$top"/bench/line_*.c
PYTHONDONTWRITEBYTECODE=1 python3 "$top/bench/line.py" "$room" "$program" "$top/examples"
