#!/usr/bin/env bash
# tests/edits.sh [NAME..]: tries every wrong body of these crates (of all, without a name), those that the gate tries (must-fail/) and
# those that it leaves out (more-edits/). Each must be refused. Where the kit keeps what it refused, that isn't tried again while nothing
# that it stands on changes. Not of the gate: run it for the crates that a change touches (docs/CHANGING.md says when).
set -u
top="$(cd "$(dirname "$(readlink -f "${BASH_SOURCE[0]}")")/.." && pwd)"
names=("$@")
[ "${#names[@]}" -gt 0 ] || mapfile -t names < <(cd "$top/crates" && printf '%s\n' */must-fail */more-edits | cut -d / -f 1 | sort -u)
room="$(mktemp -d)"
trap 'rm -rf "$room"' EXIT
python3 -B "$top/bin/crates.py" "$room/copy" "${names[@]}" || exit 2
count=0
for name in "${names[@]}"; do
    mkdir "$room/copy/crates/$name/must-fail"
    for edit in "$top/crates/$name"/must-fail/*.edit "$top/crates/$name"/more-edits/*.edit; do
        [ -e "$edit" ] || continue
        cp "$edit" "$room/copy/crates/$name/must-fail/" && count=$((count + 1))
    done
done
(cd "$room/copy" && rt ci </dev/null) >"$room/log" 2>&1
status=$?
grep -E 'NOT REFUSED|BAD EDIT|NOT TRIED|NOT PROVED|^rt: (ok|FAILED)|passed, ' "$room/log"
# a wrong body that can't be laid into its crate shows nothing of a contract
grep -q 'BAD EDIT' "$room/log" && status=1
echo "tests/edits.sh: $count wrong bodies of ${#names[@]} crates: $([ "$status" -eq 0 ] && echo each is refused || echo not each is refused)"
exit "$status"
