#!/usr/bin/env bash
# Times `syncord bulk` and `replay` by threads beside a Rust program over a Mutex<BTreeMap> and a C program over a mutex and tsearch,
# which write the same summary; reads alone beside an RwLock<BTreeMap>; one worker's makes of long names beside a serial program over
# a BTreeMap; and `pool` beside a Mutex<VecDeque> that feeds a Mutex<BTreeMap>. Processor and wall milliseconds, the median and the
# worst of fifteen in turn, and the most memory. Not a part of the gate. It builds the peers in a folder that it removes. SYNCORD names another program to time.
set -eu
. "$(dirname "$(readlink -f "${BASH_SOURCE[0]}")")/begin.sh"
rustc -O -o "$room/rust" "$top/bench/workers.rs"
rustc -O -o "$room/serial" "$top/bench/directory.rs"
cc -O2 -pthread -o "$room/c" "$top/bench/workers.c"
PYTHONDONTWRITEBYTECODE=1 python3 "$top/bench/workers.py" "$room" "$program"
