#!/usr/bin/env bash
# The lock for C beside pthread's mutex, in one run (bench/c.c). The library is built first where it must be.
set -u
top="$(cd "$(dirname "$(readlink -f "${BASH_SOURCE[0]}")")/.." && pwd)"
room="$(mktemp -d)"
trap 'rm -rf "$room"' EXIT
"$top/bin/build-program" shfl_c >"$room/built" 2>&1 || { tail -n 20 "$room/built" >&2; exit 1; }
"${CC:-cc}" -std=gnu11 -O2 -Wall -Wextra -I "$top/include" "$top/bench/c.c" "$top/include/shfl_heap.c" "$top/crates/shfl_c/out/libshfl_c.a" \
    -o "$room/c" -lpthread && GLIBC_TUNABLES=glibc.malloc.tcache_count=0 "$room/c"
