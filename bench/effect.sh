#!/usr/bin/env bash
# What a policy does to threads that wait at the lock for C, and whether the simulator ranks policies as the threads do. Words:
#   effect.sh [ROUNDS | quick] [PART ..]
# A part is cost (a section that costs a microsecond more where the last holder was of another socket), lines (one that writes to sixteen
# shared cache lines) or model (the setups of cost in the simulator); all, in this order, where none is given; ROUNDS is 5 where it is left
# out. A round of cost takes 80 seconds and one of lines 50, with nothing else running; the model takes its time once. `quick` is one brief round of a few rows, in
# seconds, which shows that all works and measures nothing. With EFFECT_ROOM set, the runs are kept in that folder, and the tables are of
# all that are there. EFFECT_RUN is put before each program that is timed, RESULTS_ONLY set prints the tables alone, ARCHIVE names another
# library than that of crates/shfl_c, SIMULATOR another program than bin/syncord-sim, EFFECT_SVG where the chart goes.
set -u
top="$(cd "$(dirname "$(readlink -f "${BASH_SOURCE[0]}")")/.." && pwd)"
rounds="${1:-5}" of_sockets=(2 4 8) of_threads=(4 16 64) holds=(100 1000 10000 100000) limits=(1 8 64 1024) least_ms=60
if [ "$rounds" = quick ]; then
    rounds=1 of_sockets=(2) of_threads=(4 16) holds=(1000 10000) limits=(1 1024) least_ms=20
fi
parts=("${@:2}")
[ "${#parts[@]}" -gt 0 ] || parts=(cost lines model)
room="${EFFECT_ROOM:-$(mktemp -d)}"
[ -n "${EFFECT_ROOM:-}" ] || trap 'rm -rf "$room"' EXIT
mkdir -p "$room"
read -ra before <<<"${EFFECT_RUN:-}"

# The waiters of the anchor's socket; those whose priority isn't lower; those whose priority isn't 0; those of the anchor's class.
declare -A programs=(
    [socket]=61120000000000006111040000000000b7000000010000001d21010000000000b7000000000000009500000000000000
    [priority]=611208000000000061110c0000000000b7000000010000003d21010000000000b7000000000000009500000000000000
    [urgent]=61110c0000000000b7000000010000005501010000000000b7000000000000009500000000000000
    [class]=61121000000000006111140000000000b7000000010000001d21010000000000b7000000000000009500000000000000
)
policies=(socket priority urgent class)

build() {
    local archive="${ARCHIVE:-$top/crates/shfl_c/out/libshfl_c.a}"
    if [ ! -e "$archive" ]; then
        "$top/bin/build-program" shfl_c >"$room/built" 2>&1 || { tail -n 20 "$room/built" >&2; exit 1; }
    fi
    "${CC:-cc}" -std=gnu11 -O2 -Wall -Wextra -I "$top/include" "$top/bench/effect.c" "$top/include/shfl_heap.c" "$archive" \
        -o "$room/effect" -lpthread || exit 1
}

# one run: the section, sockets, threads, hold, limit, the policy's name, when it queues and its program
timed() {
    local section="$1" sockets="$2" threads="$3" hold="$4" limit="$5" name="$6" when="$7" program="$8" far=1000 told
    [ "$section" = cost ] || far=16
    # without a policy any limit is as good
    if told="$("${before[@]}" timeout 60 "$room/effect" "$section" "$threads" "$sockets" "${limit/#-/1024}" "$hold" "$far" \
        $((least_ms + threads * hold / 20000)) "$when" "$program")"; then
        echo "$section|$sockets $threads $hold|$limit|$name|$told" >>"$room/runs"
    else
        echo "effect.sh: $section, $sockets sockets, $threads threads, $hold ns, limit $limit, $name: status $?" >&2
    fi
}

# No policy, as the lock is opened and where all queue at once; then each policy under each limit, in turn.
section() {
    local sockets threads hold limit name
    for sockets in "${of_sockets[@]}"; do
        # a socket has a processor at least
        [ "$1" = lines ] && [ "$sockets" -gt "$(nproc)" ] && continue
        for threads in "${of_threads[@]}"; do
            for hold in "${holds[@]}"; do
                timed "$1" "$sockets" "$threads" "$hold" - tries try -
                timed "$1" "$sockets" "$threads" "$hold" - queue queue -
                for limit in "${limits[@]}"; do
                    for name in "${policies[@]}"; do
                        timed "$1" "$sockets" "$threads" "$hold" "$limit" "$name" queue "${programs[$name]}"
                    done
                done
            done
        done
    done
}

# The same passes, holds and limits: twelve lines of data, which cost a microsecond more where they come from another socket.
setup() {
    local sockets="$1" threads="$2" hold="$3" limit="$4" name k
    printf '%s\n' 'syncord-sim 1' 'profile 1' 'form spin' "limit $limit" 'layout padded' 'costs usual' "work $hold 12 0 0" \
        "until $((500 * (hold + 1500)))" 'seed 7' 'policy queue never'
    for name in "${policies[@]}"; do echo "policy $name program ${programs[$name]} -"; done
    for ((k = 0; k < threads; k++)); do
        echo "pass $((k % sockets)) $((k < threads / 4)) $((k >= threads / 2)) 0"
    done
    echo end
}

model() {
    local sockets threads hold limit
    : >"$room/model"
    for sockets in "${of_sockets[@]}"; do
        for threads in "${of_threads[@]}"; do
            for hold in "${holds[@]}"; do
                for limit in "${limits[@]}"; do
                    setup "$sockets" "$threads" "$hold" "$limit" | "${SIMULATOR:-$top/bin/syncord-sim}" |
                        awk -v row="$sockets $threads $hold" -v limit="$limit" '
                            $1 == "policy" { name = $2 }
                            $1 == "gained" { print row "|" limit "|" name "|" $2, $8 }
                        ' >>"$room/model"
                done
            done
        done
    done
}

if [ -z "${RESULTS_ONLY:-}" ]; then
    for part in "${parts[@]}"; do
        case "$part" in
        cost | lines | model) ;;
        *) echo "effect.sh: no part is called $part" >&2; exit 2 ;;
        esac
    done
    build
    for ((round = 0; round < rounds; round++)); do
        for part in "${parts[@]}"; do [ "$part" = model ] || section "$part"; done
    done
    for part in "${parts[@]}"; do [ "$part" = model ] && model; done
fi
PYTHONDONTWRITEBYTECODE=1 python3 "$top/bench/effect.py" "$room" ${EFFECT_SVG:+"$EFFECT_SVG"}
