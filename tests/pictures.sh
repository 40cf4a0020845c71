#!/usr/bin/env bash
# The pictures in docs/ are what bin/draw makes of the examples' reports, the text pictures have a line for each change, and a page has its report.
# A record is drawn alike from a file and through a pipe, and a report through a pipe as from a file.
set -u
cd "$(dirname "$0")/.." || exit 1
failed=0
for name in half-done-relink two-reader-paths parking-rings-the-successor; do
    if bin/draw <"examples/$name.line.out" | cmp -s - "docs/$name.svg"; then
        echo "ok docs/$name.svg"
    else
        echo "FAILED docs/$name.svg; to make it: bin/draw <examples/$name.line.out >docs/$name.svg"
        failed=1
    fi
done
lines="$(bin/draw --text <examples/half-done-relink.line.out | wc -l)"
[ "$lines" -eq 14 ] || { echo "FAILED the text of half-done-relink has $lines lines, not 14"; failed=1; }
for report in examples/*.line.out; do
    bin/draw --text --all <"$report" >/dev/null || { echo "FAILED $report is refused"; failed=1; }
done
# A page is the same fixed texts round each report, the report as it is in one element (none of its bytes has to be escaped), and nothing
# from outside.
page="$(mktemp -d)"
trap 'rm -rf "$page"' EXIT
for report in examples/*.line.out; do
    bin/draw --html <"$report" >"$page/page" || { echo "FAILED no page of $report"; failed=1; }
    sed -n '/^<pre id="report">$/,/^<\/pre>$/p' "$page/page" | sed '1d;$d' | cmp -s - "$report" || { echo "FAILED the page of $report has another report"; failed=1; }
    sed '/^<pre id="report">$/,/^<\/pre>$/d' "$page/page" >"$page/around"
    [ -e "$page/first" ] || cp "$page/around" "$page/first"
    cmp -s "$page/around" "$page/first" || { echo "FAILED the page of $report has other texts round the report"; failed=1; }
done
for tag in html head style body header main script table; do
    [ "$(grep -c "^<$tag[ >]\|^<$tag>" "$page/around")" = "$(grep -o "</$tag>" "$page/around" | wc -l)" ] || { echo "FAILED the element $tag of a page isn't ended"; failed=1; }
done
grep -n 'src=\|href=\|https\?:\|@import\|url(' "$page/around" && { echo "FAILED a page loads something from outside"; failed=1; }
printf 'x\n' | bin/draw --html >"$page/page" 2>"$page/told"
[ "$?" -eq 1 ] && [ ! -s "$page/page" ] && [ "$(cat "$page/told")" = "draw: line 1: fault 2" ] || { echo "FAILED a page of no report"; failed=1; }
bin/draw --html --all </dev/null >"$page/page" 2>"$page/told"
[ "$?" -eq 2 ] && [ ! -s "$page/page" ] && [ "$(cat "$page/told")" = "draw: words" ] || { echo "FAILED --html beside another word"; failed=1; }
# the program's own name isn't looked at
(exec -a $'\xff' crates/syncord_draw/out/syncord_draw --text <examples/half-done-relink.line.out) | cmp -s - <(bin/draw --text <examples/half-done-relink.line.out) ||
    { echo "FAILED a name of the program that is no text"; failed=1; }
for word in '' --text --html; do
    # no word, or one
    # shellcheck disable=SC2086
    bin/draw $word <examples/priority.record >"$page/page" && [ -s "$page/page" ] && cat examples/priority.record | bin/draw $word | cmp -s - "$page/page" ||
        { echo "FAILED priority.record with the words '$word'"; failed=1; }
done
sed -n '/^<pre id="report">$/,/^<\/pre>$/p' "$page/page" | sed '1d;$d' | cmp -s - examples/priority.record || { echo "FAILED the page of priority.record has another record"; failed=1; }
grep -n 'src=\|href=\|https\?:\|@import\|url(' "$page/page" && { echo "FAILED the page of a record loads something from outside"; failed=1; }
cat examples/half-done-relink.line.out | bin/draw | cmp -s - docs/half-done-relink.svg || { echo "FAILED a report through a pipe"; failed=1; }
exit "$failed"
