#!/usr/bin/env bash
# Refuses each allocation of the built program, one at a time, on an example of each command. With a refused allocation the
# status must be 5 and nothing may be written or said; past the last one the run must be as ever. Where several workers run in
# threads, a thread that can't be had is no want of memory, since the caller does its work: there the status is 5 with nothing
# written, or 0 with a report as good as ever. It needs a C compiler, and is no part of the gate.
set -u
top="$(cd "$(dirname "$(readlink -f "${BASH_SOURCE[0]}")")/.." && pwd)"
got="$(mktemp -d)"
trap 'rm -rf "$got"' EXIT
failed=0

"$top/bin/syncord" </dev/null >/dev/null 2>&1
[ "$?" = 2 ] || { echo "the program could not be built" >&2; exit 1; }
program="$top/crates/syncord/out/syncord"

cc -O1 -shared -fPIC -o "$got/refuse.so" -x c - <<'C' || exit 1
#include <errno.h>
#include <stdatomic.h>
#include <stdio.h>
#include <stdlib.h>
#include <sys/syscall.h>
#include <unistd.h>
void *__libc_malloc(size_t);
void *__libc_realloc(void *, size_t);
static atomic_long count;
/* the allocation of the number REFUSE fails; with REFUSE=0 the number of all is told at the end */
static int refused(void) {
    char *at = getenv("REFUSE");
    long number = atomic_fetch_add(&count, 1) + 1;
    if (!at || number != atol(at)) return 0;
    errno = ENOMEM;
    return 1;
}
void *malloc(size_t size) { return refused() ? 0 : __libc_malloc(size); }
void *realloc(void *old, size_t size) { return refused() ? 0 : __libc_realloc(old, size); }
/* the program ends by this call, which runs no destructor */
void _exit(int status) {
    char *at = getenv("REFUSE");
    long all = count;
    if (at && !atol(at)) fprintf(stderr, "%ld\n", all);
    syscall(SYS_exit_group, status);
    __builtin_unreachable();
}
C

refuse() {
    local document="$1" name number total status
    shift
    name="$* < $(basename "$document")"
    "$program" "$@" <"$document" >"$got/whole" || { echo "$name: refused" >&2; failed=1; return; }
    total="$(REFUSE=0 LD_PRELOAD="$got/refuse.so" "$program" "$@" <"$document" 2>&1 >/dev/null | tail -n 1)"
    for ((number = 1; number <= total + 1; number++)); do
        REFUSE="$number" LD_PRELOAD="$got/refuse.so" "$program" "$@" <"$document" >"$got/out" 2>"$got/err"
        status=$?
        if [ "$number" -gt "$total" ]; then
            [ "$status" = 0 ] && cmp -s "$got/out" "$got/whole" && continue
        else
            [ "$status" = 5 ] && [ ! -s "$got/out" ] && [ ! -s "$got/err" ] && continue
        fi
        echo "$name: allocation $number of $total: status $status" >&2
        failed=1
    done
    echo "$name: $total allocations"
}

# the same where the workers of a trace run in threads; `good` judges a report, one of `shards` as one of `replay`
refuse_threads() {
    local document="$1" name number total status whole=0 wanting=0
    shift
    name="$* < $(basename "$document")"
    "$program" "$@" <"$document" >"$got/whole" || { echo "$name: refused" >&2; failed=1; return; }
    total="$(REFUSE=0 LD_PRELOAD="$got/refuse.so" "$program" "$@" <"$document" 2>&1 >/dev/null | tail -n 1)"
    for ((number = 1; number <= total + 1; number++)); do
        REFUSE="$number" LD_PRELOAD="$got/refuse.so" "$program" "$@" <"$document" >"$got/out" 2>"$got/err"
        status=$?
        if [ "$status" = 5 ] && [ ! -s "$got/out" ] && [ ! -s "$got/err" ]; then
            wanting=$((wanting + 1))
        elif [ "$status" = 0 ] && [ ! -s "$got/err" ] && good "$document" "$1"; then
            whole=$((whole + 1))
        else
            echo "$name: allocation $number of $total: status $status" >&2
            failed=1
        fi
    done
    echo "$name: $total allocations, $wanting times want of memory, $whole times done"
}

good() {
    if [ "$1" = /dev/null ]; then cmp -s "$got/out" "$got/whole"; else "$top/tests/judge.sh" "${2/shards/replay}" "$1" "$got/out"; fi
}

cd "$top/examples" || exit 1
refuse half-done-relink.line line
refuse half-done-relink-by-program.line line
refuse parking-beside-readers.line line
# a report that goes out in several pieces
{ cat parking-beside-readers.line; yes 'step 1' | head -n 3000; } >"$got/long.line"
refuse "$got/long.line" line
refuse policies/socket.hex verify
refuse policies/socket.asm asm
refuse policies/socket.hex disasm
refuse serial.trace replay
refuse serial.trace shards
refuse_threads four-workers.trace replay
refuse_threads four-workers.trace shards
refuse_threads two-makes.pool pool
refuse_threads four-takers.pool pool
refuse_threads /dev/null bulk 7 8 2000
exit "$failed"
