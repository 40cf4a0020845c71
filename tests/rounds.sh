#!/usr/bin/env bash
# tests/rounds.sh [COUNT]: runs traces of eight workers on two sockets (one of writes, one with more reads, one whose calls stand in one queue) by
# bin/syncord-rounds in each of its ways, each COUNT times (5 where none is said), and judges what it writes: the report by tests/judge.sh, the rounds
# behind it by tests/rounds.py, which has its own code for the policies. Of each way it tells how many rounds there were. Not in the gate: how many
# rounds there are depends on the machine, and a way without one fails.
set -u
top="$(cd "$(dirname "$(readlink -f "${BASH_SOURCE[0]}")")/.." && pwd)"
count="${1:-5}"
room="$(mktemp -d)"
trap 'rm -rf "$room"' EXIT
failed=0

# built before, so that it says nothing of that below
"$top/bin/syncord-rounds" </dev/null >/dev/null 2>"$room/err"
[ "$?" = 2 ] && grep -qx 'syncord-rounds: words' "$room/err" || { cat "$room/err" >&2; exit 1; }

# Words that are no command's are refused, and nothing is read.
refuses() {
    local status=0
    printf 'left\n' | { "$top/bin/syncord-rounds" "$@" >"$room/out" 2>"$room/err" || status=$?; cat >"$room/left"; return "$status"; }
    [ "$?" = 2 ] && [ ! -s "$room/out" ] && grep -qx 'syncord-rounds: words' "$room/err" && grep -qx left "$room/left" && return
    echo "the words '$*' are not refused as they must be" >&2
    failed=1
}
refuses line
refuses one
refuses replay two
refuses replay one one
refuses shards one
refuses replay ''
refuses pool one

# a trace of one worker has the same text each time, and no rounds
for way in replay 'replay one' 'replay copies' shards; do
    case "$way" in *one) lock=one ;; *copies) lock=copies ;; shards) lock=shards ;; *) lock=copies ;; esac
    # shellcheck disable=SC2086
    "$top/bin/syncord-rounds" $way <"$top/examples/one-worker.trace" >"$room/out" || failed=1
    printf 'rounds %s\nend\n' "$lock" | cat "$top/examples/one-worker.trace.out" - | cmp -s - "$room/out" && continue
    echo "one-worker.trace by '$way': another text" >&2
    failed=1
done

"$top/bin/syncord-rounds" pool <"$top/examples/two-makes.pool" >"$room/out" || failed=1
printf 'rounds queue\nend\n' | cat "$top/examples/two-makes.pool.out" - | cmp -s - "$room/out" || { echo "two-makes.pool: another text" >&2; failed=1; }

for kind in writes reads queue; do python3 -B "$top/tests/rounds.py" make "$kind" >"$room/$kind.trace" || exit 1; done
for way in replay 'replay one' 'replay copies' shards pool; do
    : >"$room/tally"
    kinds='writes reads' judged=replay
    [ "$way" = pool ] && kinds=queue judged=pool
    for kind in $kinds; do
        for ((n = 0; n < count; n++)); do
            # shellcheck disable=SC2086
            if ! "$top/bin/syncord-rounds" $way <"$room/$kind.trace" >"$room/out" 2>"$room/err" || [ -s "$room/err" ]; then
                echo "$kind by '$way': another status, or something was said" >&2
                failed=1
                continue
            fi
            sed '/^rounds /,$d' "$room/out" >"$room/report"
            "$top/tests/judge.sh" "$judged" "$room/$kind.trace" "$room/report" || failed=1
            python3 -B "$top/tests/rounds.py" judge "$way" "$kind" "$room/$kind.trace" "$room/out" >>"$room/tally" || failed=1
        done
    done
    awk -v way="$way" '{ for (i = 1; i <= NF; i++) sum[i] += $i; if ($4 > most) most = $4 }
        END { printf "%s: %d runs, %d rounds, %d waiters asked about, %d moved up, versions up to %d\n", way, NR, sum[1], sum[2], sum[3], most; exit !sum[1] }' "$room/tally" || { echo "no rounds by '$way'" >&2; failed=1; }
done
[ "$failed" = 0 ] && echo 'rounds: each is whole, and each answer is that of the policy which its version is'
exit "$failed"
