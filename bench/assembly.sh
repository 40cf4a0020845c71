#!/usr/bin/env bash
# Times `syncord asm` beside a Rust program that keeps names in a HashMap, on texts that declare many names: processor
# and wall milliseconds, the median and the worst of seven in turn. Not a part of the gate. It builds the peer in a folder that it removes.
set -eu
. "$(dirname "$(readlink -f "${BASH_SOURCE[0]}")")/begin.sh"
rustc -O -o "$room/peer" "$top/bench/assembly.rs"
PYTHONDONTWRITEBYTECODE=1 python3 "$top/bench/assembly.py" "$program" "$room/peer"
