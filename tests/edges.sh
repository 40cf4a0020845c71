#!/usr/bin/env bash
# Each crate that a line of crates.txt names behind the colon is named by a file of the crate before it: where a crate below changes, those
# above are proved anew, so an edge that nothing uses costs a proof.
set -u
top="$(cd "$(dirname "$(readlink -f "${BASH_SOURCE[0]}")")/.." && pwd)"
cd "$top" || exit 1
edges=0
spare=0
while IFS=: read -r head uses; do
    name="${head%% *}"
    named="$(find "crates/$name"/{src,specs,proofs} \( -name '*.rt' -o -name '*.antt' \) -exec cat {} + 2>/dev/null |
        grep -vE '^ *(//|--)' | grep -oE '\bRattle\.[a-z0-9_]+|\b[a-z0-9_]+::' | sed 's/^Rattle\.//; s/::$//' | sort -u)"
    for use in $uses; do
        edges=$((edges + 1))
        grep -qxF -- "$use" <<<"$named" && continue
        echo "edges: crates.txt has $use behind $name, and no file of crates/$name names it"
        spare=1
    done
done < <(grep -E '^[a-z]' crates.txt)
[ "$spare" -eq 0 ] && echo "edges: each of the $edges crates behind the colons of crates.txt is named by a file of the crate before it"
exit "$spare"
