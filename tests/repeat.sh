#!/usr/bin/env bash
# Runs the tests of a crate whose names contain a word so many times: tests/repeat.sh CRATE WORD COUNT, as
#     tests/repeat.sh worker_tests order 1000
# No part of the gate: it looks for schedules of threads that a single run doesn't meet. The first run that fails, that doesn't end in
# 60 seconds, or that prints something else than the first did is shown, with status 1. The crate's tests are built (and proved) where
# they aren't yet, or where a source is newer.
set -u
top="$(cd "$(dirname "$(readlink -f "${BASH_SOURCE[0]}")")/.." && pwd)"
crate="${1:?the name of a crate}" word="${2:?a word of the tests}" count="${3:?how many times}"
folder="$top/crates/$crate"
program="$folder/out/${crate}_tests"
run="$(dirname "$(readlink -f "$(command -v rt)")")/rattle-test"
if ! [ -x "$program" ] || [ -n "$(find "$top"/crates/*/src -newer "$program" -name '*.rt' -print -quit)" ]; then
    (cd "$folder" && rt test </dev/null >"$folder/out/repeat.log" 2>&1) || { tail "$folder/out/repeat.log" >&2; exit 1; }
fi
first=
begun=$SECONDS
for ((turn = 1; turn <= count; turn++)); do
    said="$("$run" --seconds 60 --filter "$word" "$program" 2>&1)"
    status=$?
    [ "$turn" -gt 1 ] || first="$said"
    if [ "$status" -ne 0 ] || [ "$said" != "$first" ]; then
        echo "run $turn of $count: status $status"
        echo "$said"
        exit 1
    fi
done
echo "$first" | grep '^test '
echo "$count times the same, in $((SECONDS - begun)) s"
