#!/usr/bin/env bash
# tests/judge.sh replay|pool TRACE REPORT: is REPORT what this command may write of TRACE? (`shards` may write what `replay` may.) Threads run
# it, so two runs may order the calls of several workers differently, and takers of a pool may take other calls. A report is good where each
# call of the trace stands there once: of `replay` in each worker's order and with the trace's attachments, of `pool` with its place, the
# places of each worker rising; and where its history, taken as the trace of one worker, is replayed with the same replies and the same
# directory at the end. It says what differs, and its status is 0 or 1.
set -u
top="$(cd "$(dirname "$(readlink -f "${BASH_SOURCE[0]}")")/.." && pwd)"
case "$#:${1:-}" in
# (which word of an entry its call stands behind, and what stands before that)
3:replay) key=1 before='[0-9]* ' ;;
3:pool) key=2 before='[0-9]* [0-9]* ' ;;
*) echo 'usage: tests/judge.sh replay|pool TRACE REPORT' >&2; exit 2 ;;
esac
command="$1" trace="$2" report="$3"
got="$(mktemp -d)"
trap 'rm -rf "$got"' EXIT
export LC_ALL=C

same() {
    cmp -s "$2" "$3" && return
    echo "$(basename "$trace"): $1" >&2
    diff "$2" "$3" | head -n 10 >&2
    exit 1
}

# The calls of the history without their replies, each behind its worker, or in a pool behind its place alone. A name may be `=` too, so each
# verb has its number of words; behind the directory of a `next` stands a name just where the `=` before the reply is the word after it.
calls_made() {
    awk -v key="$key" 'BEGIN { many["make"] = many["drop"] = many["find"] = 3; many["rename"] = 5; many["count"] = 2 }
        { n = $(key + 1) == "next" ? ($(key + 4) == "=" ? 3 : 2) : many[$(key + 1)]
          line = $key; for (i = 1; i <= n; i++) line = line " " $(key + i); print line }' "$got/history"
}

# what the trace says: its calls by worker and its attachments with their versions, or its calls without their workers, each behind its place
workers="$(grep -c '^worker ' "$trace")"
sed '1,/^calls$/d' "$trace" >"$got/lines"
grep -v '^0 attach ' "$got/lines" | sort -s -n -k1,1 >"$got/calls"
awk '$2 == "attach" { print ++n, $3 }' "$got/lines" >"$got/attached"
{ echo "attaches $(wc -l <"$got/attached")"; cat "$got/attached"; echo end; } >"$got/last.due"
if [ "$command" = pool ]; then
    awk '{ sub(/^[0-9]+ /, ""); print NR - 1, $0 }' "$got/lines" >"$got/calls"
    echo end >"$got/last.due"
    head -n 1 "$report" >"$got/first"
    echo "syncord-pool 1 workers $workers entries $(wc -l <"$got/calls")" >"$got/first.due"
    same 'another heading' "$got/first.due" "$got/first"
fi

# what the report says: its history, its directory at the end, and what stands behind that
sed '1d; /^final /,$d' "$report" >"$got/history"
if [ "$command" = pool ]; then
    sed -n '/^final /,$p' "$report" | sed '$d' >"$got/final"
    tail -n 1 "$report" >"$got/last"
else
    sed -n '/^final /,/^attaches /p' "$report" | sed '$d' >"$got/final"
    sed -n '/^attaches /,$p' "$report" >"$got/last"
fi
same 'other attachments, or another end' "$got/last.due" "$got/last"
calls_made | sort -s -n -k1,1 >"$got/made"
same "other calls than the trace's, not each once, or in another order" "$got/calls" "$got/made"
if [ "$command" = pool ]; then
    awk '$1 in last && $2 <= last[$1] { print } { last[$1] = $2 }' "$got/history" >"$got/falls"
    same 'a place that falls' /dev/null "$got/falls"
    awk -v most="$workers" '$1 >= most { print }' "$got/history" >"$got/unknown"
    same 'a worker that is not there' /dev/null "$got/unknown"
fi

# the history as the trace of one worker, and the report that it must have
{
    sed '/^worker /,$d' "$trace"
    printf 'worker 0 0 0 0\npolicy none - -\ncalls\n'
    calls_made | sed 's/^[0-9]* /0 /'
} >"$got/alone"
"$top/bin/syncord" replay <"$got/alone" >"$got/replayed"
{
    if [ "$command" = pool ]; then
        head -n 1 "$got/replayed"
    else
        head -n 1 "$report" | sed "s/ workers $workers entries / workers 1 entries /"
    fi
    sed "s/^$before/0 /" "$got/history"
    cat "$got/final"
    printf 'attaches 0\nend\n'
} >"$got/due"
same 'no history of one directory' "$got/due" "$got/replayed"
