#!/usr/bin/env bash
# Makes the figures of docs/MEASURED.md anew: all.sh FOLDER [PART ..]. What is built and what each part told stays in FOLDER, so that many
# sittings make one table; at the end of each the whole is written to FOLDER/measured.md, of the parts that are there. WAITS_ROUNDS is how many rounds of
# waits.sh a sitting adds (20). The parts, with
# the minutes that they take: build (as long as the proofs that aren't kept on this machine), free 1, crowd 2, many 4, threads 12, waits 30, rattle 7, seen 4, readers 1, locks 10, cells 3,
# c 1, line 1, workers 1, shards 1, directory 4, assembly 1, policies 1, servers 6, programs 8; all, in this order, where none is given. The first
# line of each part's file tells when it began and how much the machine did then. Not a part of the gate, and only of use where nothing else runs.
set -u
top="$(cd "$(dirname "$(readlink -f "${BASH_SOURCE[0]}")")/.." && pwd)"
[ "$#" -gt 0 ] || { sed -n '2,8s/^# \{0,1\}//p' "${BASH_SOURCE[0]}" >&2; exit 2; }
mkdir -p "$1/told"
room="$(cd "$1" && pwd)"
shift
every=(free crowd many threads waits rattle seen readers locks cells c line workers shards directory assembly policies servers programs)
parts=("$@")
[ "${#parts[@]}" -gt 0 ] || parts=(build "${every[@]}")
export LIBSHFL_PREFIX="$room/prefix" PRELOAD="$room/prefix/lib/libshfl_preload.so" CELLS_ROOM="$room/cells" WAITS_ROOM="$room/waits"

# what is timed, and with it the crates below
build() {
    "$top/bin/build-program" syncord && "$top/bin/build-program" shfl_c && "$top/libshfl/install" "$room/prefix" &&
        "$top/bench/locks.sh" "$room/locks" none && "$top/bench/cells.sh" build && python3 -B "$top/bin/programs.py" "$room/policies" policies &&
        python3 -B "$top/bin/programs.py" "$room/versions" versions && python3 -B "$top/bin/programs.py" "$room/in-rattle/rattle" waits
}

# what a part runs, from the top, as a reader would call it
command_of() {
    case "$1" in
    free) echo 'bench/libshfl.sh 20 free instructions' ;;
    crowd) echo 'bench/libshfl.sh 5 4 16' ;;
    many) echo 'bench/libshfl.sh 5 many' ;;
    threads) echo 'bench/libshfl.sh 5 256 park' ;;
    waits) echo "bench/waits.sh ${WAITS_ROUNDS:-20}" ;;
    rattle) echo "WAITS_ROOM=$room/in-rattle bench/waits.sh 5 rattle rattle-readers rattle-busy rattle-asleep" ;;
    locks) echo "bench/locks.sh $room/locks" ;;
    policies) echo "bench/policies.sh $room/policies && bench/versions.sh $room/versions" ;;
    servers | programs) echo "bench/preload-$1.sh" ;;
    *) echo "bench/$1.sh" ;;
    esac
}

timed() {
    local part="$1" command
    command="$(command_of "$part")"
    {
        echo "begun $(date -u '+%Y-%m-%d %H:%M'), load $(cut -d ' ' -f 1 /proc/loadavg)"
        (cd "$top" && eval "$command" 2>&1)
    } >"$room/told/$part.new"
    mv "$room/told/$part.new" "$room/told/$part"
}

# the whole, of what is there
written() {
    echo "$(nproc) processors ($(sed -n 's/^model name[^:]*: //p' /proc/cpuinfo | head -n 1)), Linux $(uname -r), $(rt version | head -n 1)"
    for part in "${every[@]}"; do
        [ -e "$room/told/$part" ] || continue
        printf '\n### `%s`\n\n%s\n\n' "$(command_of "$part" | sed "s|$room|FOLDER|g")" "$(head -n 1 "$room/told/$part")"
        tail -n +2 "$room/told/$part" | if grep -q '^|' "$room/told/$part"; then cat; else sed 's/^\(.\)/    \1/'; fi
    done
}

for part in "${parts[@]}"; do
    case " build ${every[*]} " in
    *" $part "*) ;;
    *) echo "all.sh: no part is called $part" >&2; exit 2 ;;
    esac
done
for part in "${parts[@]}"; do
    if [ "$part" = build ]; then build || exit 1; else timed "$part"; fi
done
written >"$room/measured.md"
