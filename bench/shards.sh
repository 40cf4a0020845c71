#!/usr/bin/env bash
# Times `syncord shards` beside `replay` and beside a Rust program over 64 Mutex<BTreeMap> with one Mutex<Vec> as journal, on traces of
# eight workers: each in a directory of its own, and renames over two; and beside itself on a tenth of the calls. Processor and wall
# milliseconds, the median and the worst of fifteen in turn, and the most memory. Not a part of the gate. It builds the peer in a folder that it removes.
# SYNCORD names another program to time.
set -eu
. "$(dirname "$(readlink -f "${BASH_SOURCE[0]}")")/begin.sh"
rustc -O -o "$room/rust" "$top/bench/shards.rs"
PYTHONDONTWRITEBYTECODE=1 python3 "$top/bench/shards.py" "$room" "$program"
