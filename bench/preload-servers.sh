#!/usr/bin/env bash
# Servers as Debian has them, unmodified, under libshfl_preload.so beside themselves without it, in turn: memcached, redis with four threads for its connections, MariaDB under
# sysbench; and a driver over libleveldb. Each is given work by many clients at once whose outcome is the same whatever came first (preload/keys.py, preload/rows.sh,
# preload/leveldb.c), and what it has at the end must be the same; then a load of so many seconds, of which the calls a second are told, and the processor time that the server
# used for each, which other work on the machine changes less: median; worst, and by how much the medians differ, as a table at the end. As far as they are installed (memcached,
# redis-server, redis-tools, mariadb-server, sysbench, libleveldb-dev). Words: preload-servers.sh [SECONDS [TIMES [PROGRAM ..]]]; 4 seconds, five times, memcached redis mariadb
# leveldb. PRELOAD names a library that is there already, PORT a port of the loopback (21411).
set -u
top="$(cd "$(dirname "$(readlink -f "${BASH_SOURCE[0]}")")/.." && pwd)"
seconds="${1:-4}" times="${2:-5}" port="${PORT:-21411}"
programs=("${@:3}")
[ "${#programs[@]}" -gt 0 ] || programs=(memcached redis mariadb leveldb)
room="$(mktemp -d)"
server='' child='' failed=0
TIMEFORMAT="%U %S"
stop() {
    [ -z "$server" ] || { kill "$server"; timeout 60 tail --pid="$server" -f /dev/null || kill -9 "$server"; wait "$server"; } 2>/dev/null
    server=''
}
trap 'stop; rm -rf "$room"' EXIT
if [ -z "${PRELOAD:-}" ]; then
    "$top/libshfl/install" "$room/prefix" >"$room/built" 2>&1 || { tail -n 20 "$room/built" >&2; exit 1; }
    PRELOAD="$room/prefix/lib/libshfl_preload.so"
fi
complain() { echo "preload-servers.sh: $*" >&2; failed=1; }

# starts a server, which has to answer to a command within a minute
serve() {
    local how="$1" ready="$2" before=()
    shift 2
    [ "$how" = plain ] || before=(env LD_PRELOAD="$PRELOAD")
    timeout 600 "${before[@]}" "$@" >"$room/server.$how" 2>&1 &
    server=$!
    for _ in $(seq 300); do
        eval "$ready" >/dev/null 2>&1 && break
        sleep 0.2
    done
    eval "$ready" >/dev/null 2>&1 || complain "$how: $1 doesn't answer: $(tail -n 3 "$room/server.$how")"
    child="$(pgrep -P "$server")"
    [ "$how" = plain ] || grep -q libshfl_preload "/proc/$child/maps" || complain "$1 runs without the library"
}
# ends it as its users do, and it has to end
end() {
    local status=0
    kill "$server"
    timeout 60 tail --pid="$server" -f /dev/null || { complain "$1: it doesn't end"; kill -9 "$server"; }
    wait "$server" || status=$?
    server=''
    [ "$status" = 0 ] || [ "$status" = 143 ] || complain "$1: status $status: $(tail -n 3 "$room/server.$1")"
}
# the processor time that the server has used, in hundredths of a second
ticks() { awk '{ sub(/^.*\) /, ""); print $12 + $13 }' "/proc/$child/stat"; }
# what a load tells of itself in calls a second, and with how many microseconds of processors the server came by each
rate() {
    local calls="${2:-0}" used="$3"
    [ "$calls" != 0 ] || complain "$1: the load told nothing: $(tail -n 3 "$room/load")"
    echo "$calls" >>"$room/rate.$1"
    echo "$used $calls" | awk -v seconds="$4" '{ printf "%.2f\n", $1 * 10000 / ($2 * seconds + 1e-9) }' >>"$room/cost.$1"
}

memcached_once() {
    serve "$1" "echo version >/dev/tcp/127.0.0.1/$port" memcached -u root -t 8 -l 127.0.0.1 -p "$port" -U 0
    timeout 120 python3 "$top/bench/preload/keys.py" memcached "$port" >"$room/$1" || complain "$1: the clients of memcached, status $?"
    local before
    before="$(ticks)"
    timeout 120 "$room/walk" "$port" 16 "$seconds" >"$room/load" 2>&1
    rate "$1" "$(awk '/commands a second/ { print $1 }' "$room/load")" "$(($(ticks) - before))" "$seconds"
    end "$1"
}

redis_once() {
    serve "$1" "redis-cli -p $port ping | grep -q PONG" redis-server --bind 127.0.0.1 --port "$port" --save '' --appendonly no --io-threads 4 --io-threads-do-reads yes \
        --enable-debug-command yes --dir "$room"
    { timeout 120 python3 "$top/bench/preload/keys.py" redis "$port" && redis-cli -p "$port" debug digest; } >"$room/$1" || complain "$1: the clients of redis, status $?"
    local before calls=0 began=$EPOCHREALTIME
    before="$(ticks)"
    while [ "${EPOCHREALTIME%.*}" -lt $((${began%.*} + seconds)) ]; do
        timeout 60 redis-benchmark -h 127.0.0.1 -p "$port" -t set,get,incr -n 3000 -c 50 -P 8 -q >"$room/load" 2>&1 || complain "$1: redis-benchmark, status $?"
        calls=$((calls + 3000))
    done
    local took counted
    took="$(awk -v from="$began" -v to="$EPOCHREALTIME" 'BEGIN { print to - from }')"
    counted="$(redis-cli -p "$port" get counter:__rand_int__)"
    [ "$counted" = "$calls" ] || complain "$1: redis counted $counted of $calls"
    rate "$1" "$(awk -v calls="$calls" -v took="$took" 'BEGIN { printf "%.0f", 3 * calls / took }')" "$(($(ticks) - before))" "$took"
    end "$1"
}

mariadb_once() {
    local at="$room/mariadb.socket" words
    words=(--db-driver=mysql --mysql-socket="$at" --mysql-user=root --mysql-db=test --threads=8 --tables=4 --table-size=2000)
    rm -rf "$room/data"
    [ -d "$room/empty" ] || mariadb-install-db --no-defaults --user=root --datadir="$room/empty" --auth-root-authentication-method=normal --skip-test-db >"$room/load" 2>&1 ||
        complain "mariadb-install-db: $(tail -n 3 "$room/load")"
    cp -r "$room/empty" "$room/data"
    serve "$1" "mariadb-admin --no-defaults -S $at ping" mariadbd --no-defaults --user=root --datadir="$room/data" --skip-networking --socket="$at" \
        --innodb-flush-log-at-trx-commit=0 --innodb-buffer-pool-size=64M --pid-file="$room/mariadb.pid"
    timeout 240 bash "$top/bench/preload/rows.sh" "$at" >"$room/$1" 2>&1 || complain "$1: the clients of MariaDB: $(tail -n 3 "$room/$1")"
    timeout 120 sysbench oltp_read_write "${words[@]}" prepare >"$room/load" 2>&1 || complain "$1: sysbench prepare: $(tail -n 3 "$room/load")"
    local before
    before="$(ticks)"
    timeout 120 sysbench oltp_read_write "${words[@]}" --time="$seconds" --events=0 run >"$room/load" 2>&1 || complain "$1: sysbench, status $?: $(tail -n 3 "$room/load")"
    rate "$1" "$(awk -F'[( ]+' '/transactions:/ { print $4 }' "$room/load")" "$(($(ticks) - before))" "$seconds"
    end "$1"
}

leveldb_once() {
    local before=()
    [ "$1" = plain ] || before=(env LD_PRELOAD="$PRELOAD")
    rm -rf "$room/leveldb.data"
    { time timeout 240 "${before[@]}" "$room/leveldb" "$room/leveldb.data" 8 "$((seconds * 2000))" >"$room/$1" 2>"$room/load"; } 2>"$room/time" ||
        complain "$1: the driver over libleveldb, status $?: $(tail -n 3 "$room/load")"
    rate "$1" "$(tail -n 1 "$room/load")" $(awk -v calls="$((8 * seconds * 2000 * 85 / 10))" -v rate="$(tail -n 1 "$room/load")" '{ print ($1 + $2) * 100, calls / rate }' "$room/time")
}

# the median and the worst of some numbers, and by how many hundredths one median is above another
told() { sort "-g$2" "$1" | awk '{ at[NR] = $1 } END { printf "%s; %s", at[int((NR + 1) / 2)], at[1] }'; }
above() { awk -v a="${1%;*}" -v b="${2%;*}" 'BEGIN { printf "%+.1f %%", (b / (a + 1e-9) - 1) * 100 }'; }
# a line of the table, of what stands in the files NAME.plain and NAME.preloaded
line() {
    local plain preloaded
    plain="$(told "$room/$2.plain" "$3")" preloaded="$(told "$room/$2.preloaded" "$3")"
    echo "| $1 | $plain | $preloaded | $(above "$plain" "$preloaded") |" >>"$room/table"
}
compare() {
    rm -f "$room"/rate.* "$room"/cost.*
    for _ in $(seq "$times"); do
        for how in plain preloaded; do "$1_once" "$how"; done
        cmp -s "$room/plain" "$room/preloaded" || { complain "$1: another output"; diff "$room/plain" "$room/preloaded" | head -n 5 >&2; }
    done
    line "$1: calls a second" rate ""
    line "$1: microseconds of processors a call" cost r
    echo "$1: done, load of the machine $(cut -d ' ' -f 1 /proc/loadavg)" >&2
}

"${CC:-cc}" -std=gnu11 -O2 -Wall -Wextra "$top/tests/walk/load.c" -pthread -o "$room/walk" || exit 1
for program in "${programs[@]}"; do
    case "$program" in
    memcached) command -v memcached >/dev/null || { echo "memcached: not installed"; continue; } ;;
    redis) command -v redis-server >/dev/null && command -v redis-benchmark >/dev/null || { echo "redis: not installed"; continue; } ;;
    mariadb) command -v mariadbd >/dev/null && command -v sysbench >/dev/null || { echo "mariadb: not installed"; continue; } ;;
    leveldb) "${CC:-cc}" -std=gnu11 -O2 -Wall -Wextra "$top/bench/preload/leveldb.c" -lleveldb -pthread -o "$room/leveldb" 2>"$room/built" || { echo "leveldb: not installed"; continue; } ;;
    *) echo "preload-servers.sh: no program is called $program" >&2; exit 2 ;;
    esac
    compare "$program"
done
printf '%s\n' "| Program, $times runs of $seconds s each in turn | By itself: median; worst | Preloaded | Medians apart |" '|---|---|---|---|'
cat "$room/table"
exit "$failed"
