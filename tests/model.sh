#!/usr/bin/env bash
# Compares each examples/NAME.sim.out with what tests/model.py writes of the setup: the model once more, in Python, written from its definitions.
# It takes a minute or two. A setup with several seeds, or with a program whose instructions it doesn't know, is left out, and counted.
set -u
top="$(cd "$(dirname "$(readlink -f "${BASH_SOURCE[0]}")")/.." && pwd)"
command -v python3 >/dev/null || { echo "model: no python3 here, so nothing is compared"; exit 0; }
got="$(mktemp)"
trap 'rm -f "$got"' EXIT
failed=0 equal=0 left=0
for setup in "$top"/examples/*.sim; do
    python3 "$top/tests/model.py" <"$setup" >"$got"
    case "$?" in
    0)
        equal=$((equal + 1))
        cmp -s "$got" "$setup.out" && continue
        echo "examples/$(basename "$setup"): another report" >&2
        diff "$setup.out" "$got" | head >&2
        failed=1
        ;;
    3) left=$((left + 1)) ;;
    *) failed=1 ;;
    esac
done
[ "$failed" = 0 ] && echo "model: $equal reports are those of the model in Python, $left setups are left out"
exit "$failed"
