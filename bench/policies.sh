#!/usr/bin/env bash
# Times the interpreter of policies beside a C switch interpreter: a straight line of 512 slots, 200,000 runs, and the
# program by socket, 20,000,000 runs. Not a part of the gate. Builds in a folder of its own, which it removes, or in the folder that a
# word names.
set -eu
top="$(cd "$(dirname "$(readlink -f "${BASH_SOURCE[0]}")")/.." && pwd)"
room="${1:-}"
if [ -z "$room" ]; then
    room="$(mktemp -d)"
    trap 'rm -rf "$room"' EXIT
fi
bench="$(python3 -B "$top/bin/programs.py" "$room" policies)"
gcc -O2 -o "$room/switch_gcc" "$top/bench/switch.c"
echo "ours (long, by socket):"
"$bench"
echo "gcc -O2:"
"$room/switch_gcc"
