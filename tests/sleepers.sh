#!/usr/bin/env bash
# That a waiter sleeps: in the parking form one pass holds the lock for six seconds and three wait for it. Once each of the four
# threads has been seen asleep, the process may use under 0.2 s of processor time in the next 2 s. No part of the gate. Builds in a folder of its own, which
# it removes; the crates are proved there first.
set -u
top="$(cd "$(dirname "$(readlink -f "${BASH_SOURCE[0]}")")/.." && pwd)"
room="$(mktemp -d)"
trap 'rm -rf "$room"' EXIT
program="$(python3 -B "$top/bin/programs.py" "$room" sleepers)" || exit 1

# the processor time of a process, in hundredths of a second
used() { awk '{ sub(/^.*\) /, ""); print $12 + $13 }' "/proc/$1/stat"; }
# the threads of a process that sleep, each on a line
asleep() { cat "/proc/$1"/task/*/stat 2>/dev/null | sed -n 's/^\([0-9]*\) (.*) S .*/\1/p'; }

"$program" all >"$room/got" &
process=$!
# the queue's head naps, and so is awake now and then: whoever was seen asleep counts. On a busy machine it comes to that late, since it tries before
: >"$room/seen"
for ((tenth = 0; tenth < 30; tenth++)); do
    sleep 0.1
    asleep "$process" >>"$room/seen"
    sleepers="$(sort -u "$room/seen" | wc -l)"
    [ "$sleepers" -ge 4 ] && break
done
sleep 0.3
before="$(used "$process")"
sleep 2
after="$(used "$process")"
wait "$process"
status=$?
echo "$sleepers threads seen asleep, $((after - before)) hundredths of a second used in two seconds, status $status: $(cat "$room/got")"
[ "$status" = 0 ] && [ "$sleepers" -ge 4 ] && [ $((after - before)) -lt 20 ] && [ "$(cat "$room/got")" = "all calls returned" ]
