#!/usr/bin/env bash
# Times the versions of policies with nobody else there: a copy of the policy by socket, the copy and its publication, and an
# enter with its leave. Not a part of the gate. Builds in a folder of its own, which it removes, or in the folder that a word names; the crates
# are proved there first.
set -eu
top="$(cd "$(dirname "$(readlink -f "${BASH_SOURCE[0]}")")/.." && pwd)"
room="${1:-}"
if [ -z "$room" ]; then
    room="$(mktemp -d)"
    trap 'rm -rf "$room"' EXIT
fi
bench="$(python3 -B "$top/bin/programs.py" "$room" versions)"
"$bench"
