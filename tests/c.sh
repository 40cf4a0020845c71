#!/usr/bin/env bash
# The lines of docs/C.md, in an empty folder, and its program. The C programs of examples/c: built over the static library, run exact in every form, with
# gcc's address and undefined-behaviour checks too, and once under valgrind's memcheck where it is there. A lock of 64 passes is measured, and must stay
# small. An argument is how often each is run (1 if left out). Where there is no C compiler it says so, and passes.
set -u
top="$(cd "$(dirname "$(readlink -f "${BASH_SOURCE[0]}")")/.." && pwd)"
times="${1:-1}"
cc="${CC:-cc}"
command -v "$cc" >/dev/null || { echo "tests/c.sh: no C compiler is there, so no C program was built"; exit 0; }
room="$(mktemp -d)"
trap 'rm -rf "$room"' EXIT
archive="$top/crates/shfl_c/out/libshfl_c.a"
"$top/bin/build-program" shfl_c >"$room/built" 2>&1 || { tail -n 20 "$room/built" >&2; exit 1; }

programs=(counter map policy)
failed=0

# the document's lines, in a folder that has of the repository what they name; and its program, with the words around it that it leaves away
mkdir "$room/words"
ln -s "$top"/{bin,crates,include,examples} "$room/words"
sed -n '/^## Build and link/,/^## /s/^    //p' "$top/docs/C.md" >"$room/lines"
(cd "$room/words" && set -e && . "$room/lines") >"$room/got" 2>&1 || { echo "tests/c.sh: the lines of docs/C.md: $(tail -n 5 "$room/got")" >&2; failed=1; }
[ "$(wc -l <"$room/lines")" -ge 3 ] && [ -x "$room/words/counter" ] || { echo "tests/c.sh: docs/C.md builds no counter" >&2; failed=1; }
# (what stands before its second empty line is outside the functions)
shown() { awk -v inside="$1" '/^```c/ { code = 1; next } /^```/ { code = 0 } code && !NF { empty++ } code && (empty >= 2) == inside' "$top/docs/C.md"; }
{
    printf '#include <stdlib.h>\n%s\nstatic int counter;\nint main(void) {\n    const int k = 1;\n' "$(shown 0)"
    shown 1
    printf '    return counter != 1;\n}\n'
} >"$room/shown.c"
"$cc" -std=gnu11 -O2 -Wall -Wextra -I "$top/include" "$room/shown.c" "$top/include/shfl_heap.c" "$archive" -o "$room/shown" -lpthread && "$room/shown" ||
    { echo "tests/c.sh: the program of docs/C.md, status $?" >&2; failed=1; }

for name in "${programs[@]}"; do
    "$cc" -std=gnu11 -O2 -Wall -Wextra -Werror -I "$top/include" "$top/examples/c/$name.c" "$top/include/shfl_heap.c" "$archive" \
        -o "$room/$name" -lpthread || exit 1
done

# how much memory a lock takes, over a heap that counts
"$cc" -std=gnu11 -O2 -Wall -Wextra -Werror -I "$top/include" "$top/tests/room.c" "$archive" -o "$room/room" || exit 1
if "$room/room" >"$room/got"; then
    sed 's,^,tests/c.sh: ,' "$room/got"
else
    echo "tests/c.sh: a lock takes too much memory, or keeps some, or one is opened that can't be: $(cat "$room/got")" >&2
    failed=1
fi

# without any patience the lock is exact too
"$cc" -std=gnu11 -O2 -Wall -Wextra -Werror -DSHFL_PAUSES=0 -DSHFL_YIELDS=0 -DSHFL_TRYING_NS=0 -DSHFL_TRYING_AGAIN_NS=0 -DSHFL_TRIES=1 -DSHFL_LOOKING_NS=0 \
    -DSHFL_LOOKING_FAR_NS=0 -DSHFL_LOOKING_AGAIN_NS=0 -DSHFL_NAP_NS=1 -DSHFL_PASSED=1 -DSHFL_PASSED_NS=0 -I "$top/include" "$top/examples/c/counter.c" \
    "$top/include/shfl_heap.c" "$archive" -o "$room/hasty" -lpthread || exit 1
"$room/hasty" 2000 >"$room/got" || { echo "tests/c.sh: without patience: $(cat "$room/got")" >&2; failed=1; }

# where the C library hides the call of the system, threads yield instead of sleeping
"$cc" -std=c11 -O2 -Wall -Wextra -Werror -I "$top/include" "$top/examples/c/counter.c" "$top/include/shfl_heap.c" "$archive" \
    -o "$room/strict" -lpthread || exit 1
"$room/strict" 2000 >"$room/got" || { echo "tests/c.sh: without a futex: $(cat "$room/got")" >&2; failed=1; }

# how threads wait: the linker puts a spy before three calls
"$cc" -std=gnu11 -O2 -Wall -Wextra -Werror -Wl,--wrap=shfl_advance,--wrap=sched_yield,--wrap=syscall -I "$top/include" \
    "$top/tests/waits.c" "$top/include/shfl_heap.c" "$archive" -o "$room/waits" -lpthread || exit 1
if timeout 120 "$room/waits" >"$room/got"; then
    sed 's,^,tests/c.sh: ,' "$room/got"
else
    echo "tests/c.sh: how threads wait, status $?: $(cat "$room/got")" >&2
    failed=1
fi

# C++ may include the headers, and build the heap
if command -v c++ >/dev/null; then
    cat >"$room/seats.cpp" <<'PROGRAM'
#include "shfl_park.h"
int main() {
    static shfl_seat seats[2];
    shfl_pass passes[2] = {};
    const uint64_t attrs[2] = {};
    if (!shfl_open(attrs, 2, SHFL_RW, 1024, passes, 2)) return 2;
    shfl_seat_all(passes, seats, 2);
    shfl_lock_parked(seats, 1);
    bool refused = !shfl_trylock(&seats[0].pass);
    shfl_unlock_parked(seats, 1);
    shfl_rdlock_parked(seats, 0);
    shfl_unlock_parked(seats, 0);
    shfl_queue_when(&seats[0].pass, SHFL_QUEUE, 0);
    shfl_lock(&seats[0].pass);
    shfl_unlock(&seats[0].pass);
    shfl_rdlock_yielding(&seats[1].pass);
    shfl_unlock(&seats[1].pass);
    for (shfl_seat &seat : seats) shfl_close(&seat.pass);
    return refused ? 0 : 1;
}
PROGRAM
    c++ -std=c++17 -O2 -Wall -Wextra -Werror -I "$top/include" "$room/seats.cpp" "$top/include/shfl_heap.c" "$archive" -o "$room/seats" \
        -lpthread || exit 1
    "$room/seats" || { echo "tests/c.sh: the program in C++, status $?" >&2; failed=1; }
fi

for name in "${programs[@]}"; do
    exact=0
    for ((k = 0; k < times; k++)); do
        if "$room/$name" >"$room/got" 2>&1; then
            exact=$((exact + 1))
        else
            echo "tests/c.sh: $name, status $?: $(cat "$room/got")" >&2
            failed=1
        fi
    done
    echo "tests/c.sh: $name exact in $exact of $times"
done

# the headers with gcc's checks, which end a program at the first fault
checks=(-O1 -g -fsanitize=address,undefined -fno-sanitize-recover=all)
for name in "${programs[@]}"; do
    "$cc" -std=gnu11 "${checks[@]}" -I "$top/include" "$top/examples/c/$name.c" "$top/include/shfl_heap.c" "$archive" -o "$room/$name.san" -lpthread || exit 1
    if timeout 300 "$room/$name.san" 200 >"$room/got" 2>&1; then
        echo "tests/c.sh: $name is checked by gcc"
    else
        echo "tests/c.sh: $name with gcc's checks, status $?: $(tail -n 20 "$room/got")" >&2
        failed=1
    fi
done

if command -v valgrind >/dev/null; then
    # one thread at a time runs under it, so few rounds serve
    for run in "counter 50" "map 40" "policy 50"; do
        read -r name rounds <<<"$run"
        if valgrind -q --error-exitcode=9 --leak-check=full --show-leak-kinds=all --errors-for-leak-kinds=all --fair-sched=yes \
            "$room/$name" "$rounds" >"$room/got" 2>&1; then
            echo "tests/c.sh: valgrind is silent on $name"
        else
            echo "tests/c.sh: valgrind on $name:" >&2
            tail -n 30 "$room/got" >&2
            failed=1
        fi
    done
else
    echo "tests/c.sh: no valgrind is there, so no program was run under it"
fi
exit "$failed"
