#!/usr/bin/env bash
# tests/gate-time.sh: runs `rt ci`, from nothing, over a copy of the crates with the gate's wrong bodies, and prints the processor seconds
# that each crate took, by kind: its proof, the proof of its tests, its wrong bodies, and which wrong bodies took the most: one whose failed
# search runs to its limits takes several times what another takes that guards the same clause. It fails where a crate took a fifth more than
# docs/CHANGING.md has written down (and ten seconds, since short ones vary). Not of the gate: by hand, on a machine that does nothing else.
# With a process number instead, it watches that run of rt until it ends: tests/gate-time.sh PID.
set -u
top="$(cd "$(dirname "$(readlink -f "${BASH_SOURCE[0]}")")/.." && pwd)"
exec python3 -B "$top/tests/gate_time.py" "$top" "$@"
