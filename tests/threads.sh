#!/usr/bin/env bash
# Runs sixteen passes of four sockets in threads, 2,000 calls each, in every form and under each policy, so often (words: REPEATS SECONDS,
# each run with that time limit; as given, 10 and 300). Each run must end and print the same: that every history is legal, with each worker's
# calls in order. No part of the gate. Builds in a folder of its own, which it removes; the crates are proved there first.
set -u
top="$(cd "$(dirname "$(readlink -f "${BASH_SOURCE[0]}")")/.." && pwd)"
repeats="${1:-10}"
seconds="${2:-300}"
room="$(mktemp -d)"
trap 'rm -rf "$room"' EXIT
writers="$(python3 -B "$top/bin/programs.py" "$room" threads)" || exit 1
readers="$(python3 -B "$top/bin/programs.py" "$room" rw_threads)" || exit 1
wanted() { for form; do for policy in Never Always Socket Program; do echo "$form $policy whole"; done; done; }
wanted Spin Park >"$room/wanted.writers"
wanted Rw RwPark >"$room/wanted.readers"

# one run of a program, which must print the lines of a file
once() {
    timeout "$seconds" "$1" all >"$room/got"
    local status=$?
    [ "$status" = 0 ] && cmp -s "$room/got" "$2" && return
    echo "run $run: status $status" >&2
    diff "$2" "$room/got" >&2
    exit 1
}

for ((run = 1; run <= repeats; run++)); do
    once "$writers" "$room/wanted.writers"
    once "$readers" "$room/wanted.readers"
done
echo "$repeats runs, each with sixteen whole histories of 32,000 calls"
