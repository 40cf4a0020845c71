#!/usr/bin/env bash
# tests/records.sh [FOLDER]: what `bin/draw` makes of records. Not in the gate: it needs Chromium, which it installs where there is none (apt-get,
# as root), and python3; the proved program isn't needed. What is no record goes to the proved program, here another one in its place, with all its
# bytes and words. Then the pages of a recorded lock and of records that no process made are opened in a browser without a window, the slider is
# moved to each event, and what is shown is compared with what tests/records.py finds in the record and with what was true; then the keys, the
# pointer, narrow and dark windows, a page without scripts, and a long record; and the page of a comparison (tests/compared.py). With a folder,
# pictures are left there to be looked at.
set -u
cd "$(dirname "$0")/.." || exit 1
if ! command -v chromium >/dev/null; then
    { apt-get update && apt-get install -y chromium; } >/dev/null || { echo "records: no Chromium, and it can't be installed" >&2; exit 1; }
fi
made="$(mktemp -d)"
trap 'rm -rf "$made"' EXIT
failed=0

# a checkout with another program in place of the proved one, which says its words and its input
out="$made/top/crates/syncord_draw/out"
mkdir -p "$out"
cp -r bin crates.txt "$made/top"
printf '#!/bin/sh\nprintf "%%s;" "$@"\ncat\nexit 7\n' >"$out/syncord_draw"
chmod +x "$out/syncord_draw"
printf "sources='crates.txt'\n" >"$out/syncord_draw.built-from"

# what the program is given of a file, of a pipe in one piece and of a pipe in pieces
is_handed_on() {
    local file="$1"
    shift
    { [ "$#" -eq 0 ] && printf ';' || printf '%s;' "$@"; cat "$file"; } >"$made/due"
    "$made/top/bin/draw" "$@" <"$file" >"$made/got"
    [ "$?" -eq 7 ] && cmp "$made/due" "$made/got" || { echo "FAILED $file as a file, words '$*'"; failed=1; }
    cat "$file" | "$made/top/bin/draw" "$@" >"$made/got"
    [ "$?" -eq 7 ] && cmp "$made/due" "$made/got" || { echo "FAILED $file through a pipe, words '$*'"; failed=1; }
    { head -c 5 "$file"; sleep 0.2; tail -c +6 "$file"; } | "$made/top/bin/draw" "$@" >"$made/got"
    [ "$?" -eq 7 ] && cmp "$made/due" "$made/got" || { echo "FAILED $file in pieces, words '$*'"; failed=1; }
}
printf 'shfl-recor' >"$made/short"
printf 'shfl-reco\0d 1 \0\0' >"$made/zeros"
: >"$made/nothing"
head -c 300000 /dev/urandom >"$made/random"
for file in short zeros nothing random; do is_handed_on "$made/$file"; done
is_handed_on examples/half-done-relink.line.out --text --all
is_handed_on examples/half-done-relink.line.out --html --all
is_handed_on examples/priority.record 'other words' ''
# what can't be read is the program's too
"$made/top/bin/draw" </ >"$made/got" 2>&1
[ "$?" -eq 7 ] || { echo "FAILED a folder as input"; failed=1; }
"$made/top/bin/draw" <&- >"$made/got" 2>&1
[ "$?" -eq 7 ] || { echo "FAILED no input"; failed=1; }

python3 -B tests/records.py made "$made" || exit 1
cp examples/*.record "$made"
for record in "$made"/*.record; do
    bin/draw --html <"$record" >"${record%.record}.html" || { echo "FAILED $record is refused"; failed=1; }
    grep -n 'src=\|href=\|https\?:\|@import\|url(' "${record%.record}.html" && { echo "FAILED a page loads something from outside"; failed=1; }
done
python3 -B tests/records.py browse "$made" "${1:-}" || failed=1
python3 -B tests/compared.py "$made" "${1:-}" || failed=1
exit "$failed"
