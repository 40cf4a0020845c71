#!/usr/bin/env bash
# tests/pages.sh [FOLDER]: what `bin/draw --html` writes, opened in a browser without a window. Not in the gate: it needs Chromium, which it
# installs where there is none (apt-get, as root), and python3. Of every example's report the slider is moved to every event, and what is
# shown is compared with what tests/pages.py finds in the report; then the keys, the pointer, narrow and dark windows, a page without
# scripts, and the longest report. With a folder, pictures are left there to be looked at.
set -u
cd "$(dirname "$0")/.." || exit 1
if ! command -v chromium >/dev/null; then
    { apt-get update && apt-get install -y chromium; } >/dev/null || { echo "pages: no Chromium, and it can't be installed" >&2; exit 1; }
fi
made="$(mktemp -d)"
trap 'rm -rf "$made"' EXIT
python3 -B tests/pages.py reports "$made" || exit 1
for report in examples/*.line.out "$made"/*.out; do
    name="$(basename "$report")"
    bin/draw --html <"$report" >"$made/$name.html" || { echo "FAILED $report is refused"; exit 1; }
done
python3 -B tests/pages.py browse "$made" "${1:-}"
