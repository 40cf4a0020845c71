#!/usr/bin/env bash
# The walk of docs/OPERATING.md, 'The first hour', at Debian's memcached under a load (tests/walk/load.c): installs the packages that aren't there,
# builds libshfl, runs the walk's commands and prints them with what they write. Fails where a command does, where the program doesn't go on, or where
# the page has other commands, or tables with other heads. No part of the gate, since it wants packages: memcached, a C compiler and Python 3.
set -u
top="$(cd "$(dirname "$(readlink -f "${BASH_SOURCE[0]}")")/.." && pwd)"
cd "$top" || exit 1
port="${WALK_PORT:-21211}" seconds="${WALK_SECONDS:-60}"
missing=()
command -v memcached >/dev/null || missing+=(memcached)
command -v cc >/dev/null || missing+=(gcc libc6-dev)
command -v python3 >/dev/null || missing+=(python3)
if [ "${#missing[@]}" -gt 0 ]; then
    as_root=()
    [ "$(id -u)" = 0 ] || as_root=(sudo)
    { "${as_root[@]}" apt-get update && "${as_root[@]}" apt-get install -y --no-install-recommends "${missing[@]}"; } >&2 || exit 1
fi

room="$(mktemp -d)"
run='' load=''
# shellcheck disable=SC2317
finish() {
    [ -z "$load" ] || kill "$load" 2>/dev/null
    [ -z "$run" ] || { kill "$run"; wait "$run"; } 2>/dev/null
    rm -rf "$room"
}
trap finish EXIT
libshfl/install "$room/prefix" >"$room/got" 2>&1 || { tail -n 20 "$room/got" >&2; exit 1; }
cc -std=gnu11 -O2 -Wall -Wextra -Werror tests/walk/load.c -pthread -o "$room/load" || exit 1
export SHFL_CONTROL="$room/sockets" PATH="$room/prefix/bin:$PATH"

failed=0
fail() { echo "tests/walk.sh: $*" >&2; failed=1; }
# Waits until a command does, for a minute at most.
wait_for() {
    for _ in $(seq 300); do
        "$@" >/dev/null 2>&1 && return
        sleep 0.2
    done
    fail "not in a minute: $*"
    exit 1
}
# A command of the walk, what it writes, and the status that is due.
walk() {
    local due="$1" status=0
    shift
    # (a selector of two words stands in quotes)
    printf '%% %s\n' "$*" | sed -E 's/by memcached\+0x[0-9a-f]+/"&"/' | tee -a "$room/commands"
    "$@" >"$room/said" 2>&1 || status=$?
    tee -a "$room/written" <"$room/said"
    echo
    [ "$status" = "$due" ] || fail "$*: status $status"
}
# What `top` shows first.
walk_top() {
    echo "% shfl top $pid 3" | tee -a "$room/commands"
    shfl top "$pid" 3 >"$room/shown" 2>&1 &
    local top=$!
    wait_for grep -qE '^ +0 ' "$room/shown"
    kill "$top"
    wait "$top" 2>/dev/null
    awk '/^process/ && ++count == 2 { exit } { print }' "$room/shown" | tee "$room/said" | tee -a "$room/written"
    echo
}
says() { grep -qE -- "$1" "$room/said" || fail "nothing says $1"; }
# shellcheck disable=SC2317
answers() { exec 3<>"/dev/tcp/127.0.0.1/$port" && echo version >&3 && head -n 1 <&3; }
taken() { shfl stat "$pid" --json | python3 -c 'import json, sys; print(sum(it["taken"] for it in json.load(sys.stdin)["classes"]))'; }

words=(shfl run memcached -u "$(id -un)" -t 8 -l 127.0.0.1 -p "$port" -U 0)
printf '%% %s\n' "${words[*]}" | tee "$room/commands"
echo
"${words[@]}" &
run=$!
wait_for bash -c "$(declare -f answers); port=$port; answers"
"$room/load" "$port" 32 "$seconds" >"$room/rate" &
load=$!
wait_for shfl list
walk 0 shfl list
says ' memcached '
pid="$(awk '/ memcached / { print $1 }' "$room/said")"
[ -n "$pid" ] || exit 1
sleep 5
walk 0 shfl stat "$pid"
walk_top
says "^process $pid"
# the call that first found that lock taken which is found taken most often
lock="by $(shfl stat "$pid" --json | python3 -c '
import json, sys
found = [it for it in json.load(sys.stdin)["locks"] if it["caller"] and it["caller"]["file"] == "memcached"]
print(max(found, key=lambda it: it["contended"])["caller"]["where"])')"
[ "$lock" != "by " ] || { fail "no lock of memcached's was taken"; exit 1; }
walk 0 shfl class "$pid" "$lock" 5
says '^[1-9][0-9]* locks? in class 5$'
walk 0 shfl record "$pid" "$lock" 0.001
# (in so short a time none of the server's threads may have had a processor)
for _ in $(seq 50); do
    grep -qE '^end events [1-9]' "$room/said" && break
    shfl record "$pid" "$lock" 0.001 >"$room/said" 2>&1 || fail "another record: $(cat "$room/said")"
done
says '^end events [1-9][0-9]* lost '
walk 0 shfl compare "$pid" 5 examples/policies/socket.hex --seconds 3
says '^ +2 on '
walk 0 shfl attach "$pid" 5 examples/policies/socket.hex
says '^class 5: version [0-9]+; the one before is drained$'
sleep 5
walk 0 shfl classes "$pid"
walk 6 shfl attach "$pid" 5 examples/loop.hex
says '^shfl: the program should is refused 8 at slot 3: a jump'
before="$(taken)"
walk 0 shfl detach "$pid" 5
says '^class 5: no policy \(version [0-9]+\); the one before is drained$'
walk 0 shfl classes "$pid"
says '^ +5 +[1-9][0-9]* - '
sleep 1
[ "$(taken)" -gt "$before" ] || fail "memcached stands still"
wait "$load" || fail "the load broke off"
load=''
cat "$room/rate"

# the page has these commands, with the process and the lock of its day
plain() { sed -E 's/^ *% //; s/ [0-9]{2,} / PID /; s/ [0-9]{2,}$/ PID/; s/"?by memcached\+0x[0-9a-f]+"?/LOCK/; s/-u [a-z_-]+ /-u USER /'; }
awk '/^## The first hour/ { on = 1; next } /^## / { on = 0 } on && /^    % shfl/' docs/OPERATING.md | plain >"$room/page"
plain <"$room/commands" | diff "$room/page" - || fail "docs/OPERATING.md has other commands"
heads() { grep -oE '(lock  |class +locks |    policy  ).*' "$1" | sort -u; }
diff <(heads docs/OPERATING.md) <(heads "$room/written") || fail "docs/OPERATING.md has other tables"
exit "$failed"
