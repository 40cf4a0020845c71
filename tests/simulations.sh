#!/usr/bin/env bash
# Compares what bin/syncord-sim writes of each examples/NAME.sim with NAME.sim.out. Then the run of each of its policies goes through
# `bin/syncord line` as a schedule: each event is admitted, and the first sixteen that hold the lock are those that the report names. A run of more
# than 64 passes is refused there.
set -u
top="$(cd "$(dirname "$(readlink -f "${BASH_SOURCE[0]}")")/.." && pwd)"
got="$(mktemp -d)"
trap 'rm -rf "$got"' EXIT
failed=0 runs=0 refused=0

# the programs are built before, so that they say nothing of that below
"$top/bin/syncord" </dev/null >/dev/null 2> >(grep -v '^syncord: words$' >&2)
[ "$?" = 2 ] || exit 1
"$top/bin/syncord-sim" no-words </dev/null 2> >(grep -v '^syncord-sim: words$' >&2)
[ "$?" = 2 ] || exit 1

# the first sixteen that come to hold the lock in a report of `line`, with commas between them
holders() {
    awk '
        / hold / {
            for (i = 1; i <= NF; i++) if ($i == "hold") now = $(i + 1)
            split("", held)
            n = split(now == "-" ? "" : now, parts, ",")
            for (k = 1; k <= n; k++) {
                pass = substr(parts[k], 2)
                held[pass] = 1
                if (!(pass in before) && found < 16) list = list (found++ ? "," : "") pass
            }
            split("", before)
            for (pass in held) before[pass] = 1
        }
        END { print list }
    ' "$1"
}

fail() {
    echo "examples/$1" >&2
    failed=1
}

for setup in "$top"/examples/*.sim; do
    name="$(basename "$setup")"
    "$top/bin/syncord-sim" <"$setup" >"$got/out" || fail "$name: another status"
    cmp -s "$got/out" "$setup.out" || { fail "$name: another report"; diff "$setup.out" "$got/out" | head >&2; }
    while read -r _ policy _; do
        passes="$(grep -c '^pass ' "$setup")"
        if [ "$passes" -gt 64 ]; then
            # a schedule has 64 passes: the line of the next one is named
            line=$((74 + $(grep -c '^policy ' "$setup")))
            "$top/bin/syncord-sim" line "$policy" <"$setup" >"$got/run" 2>"$got/err"
            [ "$?" = 1 ] && [ ! -s "$got/run" ] && [ "$(cat "$got/err")" = "syncord-sim: line $line: fault 17" ] || fail "$name: $passes passes in a run of $policy"
            refused=$((refused + 1))
            continue
        fi
        runs=$((runs + 1))
        "$top/bin/syncord-sim" line "$policy" <"$setup" >"$got/run" || fail "$name: no run of $policy"
        "$top/bin/syncord" line <"$got/run" >"$got/rows" || fail "$name: the run of $policy is no schedule"
        tail -n 1 "$got/rows" | grep -q '^end yes [0-9]* no 0$' || fail "$name: an event of $policy isn't admitted"
        due="$(awk -v policy="$policy" '$1 == "policy" { own = $2 == policy } own && $1 == "order" { print $3 }' "$setup.out")"
        held="$(holders "$got/rows")"
        # a report over several seeds tells no order; who has the lock word when a run is cut may not have gained yet
        cut="$(awk -v policy="$policy" '$1 == "policy" { own = $2 == policy } own && $1 == "cut" { print "cut" }' "$setup.out")"
        [ -z "$due" ] || [ "$held" = "$due" ] || { [ "$cut" ] && case "$held," in "$due",*) true ;; *) false ;; esac; } ||
            fail "$name: others hold in the run of $policy: $held for $due"
    done < <(grep '^policy ' "$setup")
done
# the program's own name isn't looked at
setup="$top/examples/$(cd "$top/examples" && ls -- *.sim | head -n 1)"
(exec -a $'\xff' "$top/crates/syncord_sim/out/syncord_sim" <"$setup") | cmp -s - "$setup.out" || fail "$(basename "$setup"): another report under a name that is no text"
[ "$failed" = 0 ] && echo "simulations: $runs runs are reported as they must be, and are schedules of the lock; $refused of more than 64 passes are refused as such"
exit "$failed"
