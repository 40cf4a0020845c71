#!/usr/bin/env bash
# Readers and writers whose holds are empty, at the lock for C and at pthread's in both of its kinds (bench/readers.c): with 4 and 16 threads, 80 of 100 holds reading,
# and all of them. The library is built first where it must be.
set -u
top="$(cd "$(dirname "$(readlink -f "${BASH_SOURCE[0]}")")/.." && pwd)"
room="$(mktemp -d)"
trap 'rm -rf "$room"' EXIT
"$top/bin/build-program" shfl_c >"$room/built" 2>&1 || { tail -n 20 "$room/built" >&2; exit 1; }
"${CC:-cc}" -std=gnu11 -O2 -Wall -Wextra -I "$top/include" "$top/bench/readers.c" "$top/include/shfl_heap.c" "$top/crates/shfl_c/out/libshfl_c.a" \
    -o "$room/readers" -lpthread || exit 1
for threads in 4 16; do
    for reads in 80 100; do "$room/readers" "$threads" "$reads" || exit 1; done
done
