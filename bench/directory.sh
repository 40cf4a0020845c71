#!/usr/bin/env bash
# Times `syncord replay` beside a Rust program over a BTreeMap that writes the same bytes, on traces of 8,192 and of 65,536
# calls: processor milliseconds, the median and the worst of up to 100 in turn, and by how much the best and the median grow. Not a part of
# the gate. It builds the peer in a folder that it removes.
set -eu
. "$(dirname "$(readlink -f "${BASH_SOURCE[0]}")")/begin.sh"
rustc -O -o "$room/peer" "$top/bench/directory.rs"
PYTHONDONTWRITEBYTECODE=1 python3 "$top/bench/directory.py" "$room" "$program" "$room/peer"
