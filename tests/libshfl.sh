#!/usr/bin/env bash
# libshfl as its document says: installed into an empty prefix by its words, docs/LIBSHFL.md's programs built by its words alone, against the shared
# library and the static one, and one that opens and closes it (opened.c); what is visible and has a manual page is what the header has. In both forms each call and each error (tests/libshfl/posix.c), each
# argument that can't be (arguments.c), deadlines (times.c), that who waits sleeps (sleeps.c), threads' ends and cancellation (lives.c), a first lock behind them (behind.c), forks (forks.c), which seats are free in a child, and as another thread forks (seats.c, amid.c), handlers of forks that are older than the library (before.c), a holder that is late (late.c), a reader that takes its lock again and again (again.c), a process's first lock (first.c), what shfl_stat counts (counts.c), policies of classes
# (policies.c), and one that comes while threads sleep (attached.c), that a process ends with its last thread (last.c), what a record has of a lock in each arena (records.c), that a lock may end while its last holder but one still gives it back (steps.c), that a thread of a higher priority takes no signal of another (stolen.c), that nobody sleeps beside a free lock (between.c, tries.c), nor a reader beside others that read (shares.c), that no file of the program's is taken for a client of the control socket (closes.c), the C++ classes (locks.cpp); exact counts under 16 and 64 threads (storm.c), more locks than an
# arena has (growth.c), each message of the checked build (misuse.c). The preload library, which has each of glibc's names, under programs that know pthread alone
# (pthreads.c, ends.c, libcs.c, errors.c, conditions.c, handlers.c, seats.c, standard.cpp), which are first run with libc's own locks, in an arena that is too small, in one that can't be, which is said, and with a malloc
# that takes a mutex (heap.c), also as it forks (mallocs.c, opens.c); and that it passes a signal on, too (stolen.c). Under valgrind's memcheck where it is there, and with gcc's address and undefined-behaviour checks, which end a program; programs with a
# race and without one under ThreadSanitizer, helgrind and drd, as far as they are there (races.c). First how long the library's functions are (functions.py). An argument
# is how many rounds each thread of a storm makes. Where there is no C compiler it says so, and passes.
set -u
top="$(cd "$(dirname "$(readlink -f "${BASH_SOURCE[0]}")")/.." && pwd)"
rounds="${1:-2000}"
cc="${CC:-cc}"
command -v "$cc" >/dev/null || { echo "tests/libshfl.sh: no C compiler is there, so nothing was built"; exit 0; }
room="$(mktemp -d)"
trap 'rm -rf "$room"' EXIT
failed=0
complain() { echo "tests/libshfl.sh: $*" >&2; failed=1; }
run() {
    local what="$1"
    shift
    if timeout 300 "$@" >"$room/got" 2>&1; then sed "s|^|tests/libshfl.sh: $what: |" "$room/got"; else complain "$what, status $?: $(tail -n 20 "$room/got")"; fi
}

run "functions" python3 -B "$top/tests/libshfl/functions.py" "$top"/libshfl/*.[ch] "$top"/libshfl/preload/*.[ch]
# the document's own lines, with another folder than /usr/local
said() { sed -n "s,$1,\\1,p" "$top/docs/LIBSHFL.md"; }
install="$(said '^    \(libshfl/install\) /usr/local$')" export="$(said '.*`\(export PKG_CONFIG_PATH=[^`]*\)`.*')" build="$(said '^    \(cc program\.c .*\)$')"
for kind in "" checked; do
    (cd "$top" && CHECKED="$kind" "./$install" "$room/prefix$kind") >"$room/got" 2>&1 || { complain "install: $(tail -n 20 "$room/got")"; exit 1; }
done
eval "${export//FOLDER/$room/prefix}"
[ "$PKG_CONFIG_PATH" = "$room/prefix/lib/pkgconfig" ] && [ "$LD_LIBRARY_PATH" = "$room/prefix/lib" ] || complain "the document's line for another folder: $export"
command -v pkg-config >/dev/null || build='cc program.c -I$room/prefix/include -L$room/prefix/lib -lshfl -pthread -o program'
read -ra words <<<"$(pkg-config --cflags --libs shfl 2>/dev/null || echo "-I$room/prefix/include -L$room/prefix/lib -lshfl -pthread")"
for file in bin/shfl include/libshfl.h include/libshfl.hpp lib/libshfl.a lib/libshfl.so lib/libshfl.so.1 lib/libshfl_preload.so lib/pkgconfig/shfl.pc share/man/man1/shfl.1 \
    share/man/man3/shfl.3 share/bash-completion/completions/shfl; do [ -s "$room/prefix/$file" ] || complain "$file isn't installed"; done

# the header under each standard
for std in c99 c11 gnu17 c++11 c++17 c++20; do
    case "$std" in c++*) command -v c++ >/dev/null || continue; compiler=(c++ -x c++) ;; *) compiler=("$cc" -x c) ;; esac
    echo '#include <libshfl.h>' | "${compiler[@]}" -std="$std" -pedantic -Wall -Wextra -Werror -I "$room/prefix/include" -fsyntax-only - || complain "libshfl.h under $std"
done

# what is visible, and has a manual page, is what the header has
names_in() { sed -n 's/^int \(shfl_[a-z_]*\)(.*/\1/p' "$1" | sort; }
names_in "$room/prefix/include/libshfl.h" >"$room/names"
nm -D --defined-only "$room/prefix/lib/libshfl.so.1" | awk '$2 != "A" { sub(/@.*/, "", $3); print $3 }' | sort | diff "$room/names" - >&2 || complain "libshfl.so.1 shows other names than libshfl.h has"
nm -g --defined-only "$room/prefix/lib/libshfl.a" | awk 'NF == 3 { print $3 }' | sort | diff "$room/names" - >&2 || complain "libshfl.a shows other names than libshfl.h has"
names_in "$room/prefix/share/man/man3/shfl.3" | diff "$room/names" - >&2 || complain "shfl.3 has other calls than libshfl.h"

# the document's programs, the first shared and static
block() { awk -v wanted="$1" '/^```c/ { code = ++number == wanted; next } /^```/ { code = 0 } code' "$top/docs/LIBSHFL.md"; }
block 1 >"$room/program.c"
block 2 >"$room/policy.c"
"$cc" -Wall -Wextra -Werror "$room/policy.c" "${words[@]}" -o "$room/policy" || exit 1
[ "$("$room/policy")" = "taken 1, found taken 0" ] || complain "the document's program with a policy"
(cd "$room" && eval "${build/#cc/$cc}") && [ "$("$room/program")" = 400000 ] || complain "the document's program"
"$cc" -I "$room/prefix/include" "$room/program.c" "$room/prefix/lib/libshfl.a" -lpthread -o "$room/static" || exit 1
[ "$("$room/static")" = 400000 ] || complain "the document's program, static"
"$cc" -Wall -Wextra -Werror -I "$room/prefix/include" "$top/tests/libshfl/opened.c" -pthread -ldl -o "$room/opened" || exit 1
run "opened" "$room/opened"
run "opened by its path" "$room/opened" "$room/prefix/lib/libshfl.so.1"
"$cc" -std=gnu11 -O2 -Wall -Wextra -Werror -I "$room/prefix/include" "$top/tests/libshfl/before.c" -pthread -ldl -o "$room/before" || exit 1
for form in rw rw-park; do run "before, $form" env SHFL_FORM="$form" SHFL_THREADS=8 "$room/before"; done

tests=(posix arguments times lives forks counts policies)
for name in "${tests[@]}" sleeps storm records steps tries stolen between shares seats amid closes behind attached last; do
    "$cc" -std=gnu11 -O2 -g -Wall -Wextra -Werror "$top/tests/libshfl/$name.c" "${words[@]}" -o "$room/$name" || exit 1
done
if command -v c++ >/dev/null; then
    c++ -std=c++17 -O2 -g -Wall -Wextra -Werror "$top/tests/libshfl/locks.cpp" "${words[@]}" -o "$room/locks" || exit 1
    tests+=(locks)
fi
# with few seats, where threads end and fork
seats() { case "$1" in lives | behind | amid) echo SHFL_THREADS=3 ;; forks) echo SHFL_THREADS=4 ;; seats) echo SHFL_THREADS=8 ;; esac; }
for form in rw rw-park; do
    for name in "${tests[@]}" sleeps records steps tries stolen between shares seats amid behind attached; do run "$name, $form" env SHFL_FORM="$form" $(seats "$name") "$room/$name"; done
done
run "policies, without memory" "$room/policies" memory
run "forks, with another user's rights" env SHFL_THREADS=4 "$room/forks" changed
run "closes" env SHFL_CONTROL="$room/control" "$room/closes" "$top/libshfl/install"
# (whoever is left then takes no signal)
run "a process ends with its last thread" env SHFL_CONTROL="$room/control" timeout -k 1 20 "$room/last"
"$cc" -std=gnu11 -O2 -Wall -Wextra -Werror "$top/tests/libshfl/first.c" "${words[@]}" -o "$room/first" || exit 1
"$cc" -std=gnu11 -O2 -Wall -Wextra -Werror -DPTHREAD "$top/tests/libshfl/first.c" -pthread -o "$room/firstpthread" || exit 1
for place in sockets none/none; do
    for which in "$room/first" "env LD_PRELOAD=$room/prefix/lib/libshfl_preload.so $room/firstpthread" \
        "env SHFL_THREADS=1 LD_PRELOAD=$room/prefix/lib/libshfl_preload.so $room/firstpthread waits"; do
        # shellcheck disable=SC2086
        SHFL_CONTROL="$room/$place" timeout 200 $which >/dev/null 2>"$room/got" || complain "a first lock, $place, $which: $(cat "$room/got")"
    done
done
# from the library's files, so that a holder's steps can be made one by one, and a count begins near its end
for name in late again; do
    "$cc" -std=gnu11 -O2 -Wall -Wextra -Werror -I "$room/prefix/include" "$top/tests/libshfl/$name.c" "$top"/libshfl/*.c "$top/include/shfl_heap.c" \
        "${SHFL_ARCHIVE:-$top/crates/shfl_seats_c/out/libshfl_seats_c.a}" -pthread -o "$room/$name" || exit 1
    run "$name" "$room/$name"
done
run "storm" "$room/storm" 16 "$rounds" 120
run "storm" "$room/storm" 64 "$((rounds / 4))" 120
run "storm in a small arena" env SHFL_LOCKS=8 SHFL_THREADS=66 "$room/storm" 64 100 120
run "storm in another form" env SHFL_FORM=rw-park SHFL_LIMIT=2 "$room/storm" 16 "$((rounds / 4))" 120

# an arena that is too small, and one that can't be
"$cc" -std=gnu11 -O2 -Wall -Wextra -Werror "$top/tests/libshfl/room.c" "${words[@]}" -o "$room/room" || exit 1
run "room" env SHFL_LOCKS=3 SHFL_THREADS=2 SHFL_ARENAS=1 "$room/room" full
run "room" env SHFL_LOCKS=0 "$room/room" refused
for asked in SHFL_ARENAS=0 SHFL_ARENAS=257 SHFL_THREADS=65535 SHFL_FORM=spin SHFL_FORM=park SHFL_LIMIT=0 SHFL_LIMIT=1025; do run "room, $asked" env "$asked" "$room/room" refused; done
"$cc" -std=gnu11 -O2 -I "$room/prefix/include" "$top/tests/libshfl/room.c" "$room/prefix/lib/libshfl.a" -lpthread -o "$room/secure" || exit 1
{ chown 65534 "$room/secure" && chmod 4755 "$room/secure"; } 2>/dev/null
run "room, with another user's rights" env SHFL_LOCKS=0 "$room/secure" secure
run "room, another form" env SHFL_FORM=rw-park SHFL_LIMIT=1 SHFL_LOCKS=3 SHFL_THREADS=2 SHFL_ARENAS=1 "$room/room" full

# more locks than the first arena has: the same calls, counts and storms where every lock, or every eighth, has an arena of its own
"$cc" -std=gnu11 -O2 -g -Wall -Wextra -Werror "$top/tests/libshfl/growth.c" "${words[@]}" -o "$room/growth" || exit 1
run "growth" "$room/growth" many
run "growth that is bounded" env SHFL_LOCKS=3 SHFL_ARENAS=2 SHFL_THREADS=8 "$room/growth" bounded
run "growth without memory" env SHFL_LOCKS=1024 "$room/growth" memory
for form in rw rw-park; do run "growth, $form" env SHFL_FORM="$form" SHFL_LOCKS=1 SHFL_THREADS=16 "$room/growth" further; done
run "growth, calls" env SHFL_LOCKS=1 SHFL_THREADS=16 SHFL_ARENAS=32 "$room/posix"
run "growth, counts" env SHFL_LOCKS=7 SHFL_THREADS=16 SHFL_ARENAS=64 "$room/counts"
for form in rw rw-park; do run "growth, records, $form" env SHFL_FORM="$form" SHFL_LOCKS=1 SHFL_THREADS=16 "$room/records"; done
run "growth, storm" env SHFL_LOCKS=1 SHFL_THREADS=70 "$room/storm" 64 "$((rounds / 4))" 120

# unmodified programs, by themselves and under the preload library
preload="$room/prefix/lib/libshfl_preload.so"
# what glibc has of them, but for the making of a lock and for what only mutexes have that are libc's
names_of() { nm -D --defined-only "$1" | sed -n 's/^[^ ]* [A-Z] \([^@]*\).*/\1/p' | sort -u; }
names_of "$(ldd "$preload" | awk '$1 ~ /^libc\.so/ { print $3 }')" | grep -E '^(__)?pthread_(mutex|rwlock|cond)_|^__register_atfork$' | grep -vE '_(init|consistent|consistent_np|getprioceiling|setprioceiling)$' >"$room/names"
names_of "$preload" | diff "$room/names" - >&2 || complain "libshfl_preload.so has other names than glibc"
nm -D --undefined-only "$preload" | grep -E 'pthread_(mutex|rwlock|cond)_|alloc' && complain "libshfl_preload.so calls libc's locks or heap"
for name in pthreads ends libcs conditions errors; do "$cc" -std=gnu11 -O2 -g -Wall -Wextra -Werror "$top/tests/libshfl/$name.c" -pthread -o "$room/$name" || exit 1; done
"$cc" -std=gnu11 -O2 -fno-builtin -Wall -Wextra -Werror -shared -fPIC "$top/tests/libshfl/heap.c" -pthread -o "$room/heap.so" || exit 1
"$cc" -std=gnu11 -O2 -Wall -Wextra -Werror -shared -fPIC -DHELPER "$top/tests/libshfl/handlers.c" -pthread -o "$room/libhelper.so" || exit 1
"$cc" -std=gnu11 -O2 -Wall -Wextra -Werror "$top/tests/libshfl/handlers.c" "$room/libhelper.so" -Wl,-rpath,"$room" -pthread -o "$room/handlers" || exit 1
run "libc's forks" "$room/handlers"
for form in rw rw-park; do run "preloaded forks, $form" env SHFL_FORM="$form" LD_PRELOAD="$preload" "$room/handlers"; done
run "libc's locks" "$room/pthreads"
run "libc's threads' ends" "$room/ends"
run "libc's errors" "$room/errors"
run "libc's own" "$room/libcs"
run "libc's condition variables" "$room/conditions" "$((rounds / 8))"
run "preloaded locks" env LD_PRELOAD="$preload" "$room/pthreads" preloaded
run "preloaded threads' ends" env LD_PRELOAD="$preload" "$room/ends"
run "preloaded errors" env LD_PRELOAD="$preload" "$room/errors" preloaded
"$cc" -std=gnu11 -O2 -Wall -Wextra -Werror -DPTHREAD -rdynamic "$top/tests/libshfl/stolen.c" -pthread -o "$room/stolenpthread" || exit 1
run "preloaded signals" env LD_PRELOAD="$preload" "$room/stolenpthread"
"$cc" -std=gnu11 -O2 -Wall -Wextra -Werror -DPTHREAD "$top/tests/libshfl/seats.c" -pthread -o "$room/seatspthread" || exit 1
run "libc's seats" "$room/seatspthread"
run "preloaded seats" env SHFL_THREADS=8 LD_PRELOAD="$preload" "$room/seatspthread"
"$cc" -std=gnu11 -O2 -Wall -Wextra -Werror "$top/tests/libshfl/mallocs.c" -pthread -o "$room/mallocs" || exit 1
"$cc" -std=gnu11 -O2 -Wall -Wextra -Werror "$top/tests/libshfl/opens.c" "${words[@]}" -o "$room/opens" || exit 1
for block in 0 1 300; do
    "$cc" -std=gnu11 -O2 -fno-builtin -Wall -Wextra -Werror -shared -fPIC -DAT_BLOCK="$block" "$top/tests/libshfl/heap.c" -pthread -o "$room/heap$block.so" || exit 1
    run "forks as arenas open, $block" env SHFL_LOCKS=1 SHFL_ARENAS=256 LD_PRELOAD="$room/heap$block.so" "$room/opens"
    for both in "$room/heap$block.so:$preload" "$preload:$room/heap$block.so"; do run "forks with a malloc that hears of them, $block" env LD_PRELOAD="$both" "$room/mallocs"; done
done
# what can't be asked for is said in one line, and then the locks are libc's
while read -r asked said; do
    env "$asked" LD_PRELOAD="$preload" timeout 100 "$room/errors" >/dev/null 2>"$room/got" && [ "$(cat "$room/got")" = "libshfl_preload: $asked is $said; the program has libc's locks" ] || complain "preloaded, $asked: $(cat "$room/got")"
done <<'ASKED'
SHFL_LOCKS=0 out of its range, 1 to 16777216
SHFL_LOCKS=16777217 out of its range, 1 to 16777216
SHFL_LOCKS=99999999999999 out of its range, 1 to 16777216
SHFL_ARENAS=257 out of its range, 1 to 256
SHFL_THREADS=65471 out of its range, 1 to 65470
SHFL_LIMIT=1025 out of its range, 1 to 1024
SHFL_FORM=spin neither rw nor rw-park
ASKED
run "libc's own, preloaded" env LD_PRELOAD="$preload" "$room/libcs" preloaded
run "preloaded condition variables" env LD_PRELOAD="$preload" "$room/conditions" "$((rounds / 8))" preloaded
for name in pthreads libcs errors "conditions $((rounds / 8))"; do run "preloaded, rw-park" env SHFL_FORM=rw-park LD_PRELOAD="$preload" "$room/"$name preloaded; done
run "preloaded with a malloc that takes a mutex" env LD_PRELOAD="$room/heap.so:$preload" "$room/pthreads" preloaded
run "libc's locks, preloaded with such a malloc" env SHFL_LOCKS=0 LD_PRELOAD="$room/heap.so:$preload" "$room/pthreads"
run "preloaded with such a malloc and four seats" env SHFL_THREADS=4 LD_PRELOAD="$room/heap.so:$preload" "$room/ends"
if command -v c++ >/dev/null; then
    c++ -std=c++17 -O2 -Wall -Wextra -Werror "$top/tests/libshfl/standard.cpp" -pthread -o "$room/standard" && run "libc's locks in C++" "$room/standard" &&
        run "preloaded C++" env LD_PRELOAD="$preload" "$room/standard" || failed=1
fi
for locks in 8 0; do run "preloaded with $locks locks" env SHFL_LOCKS="$locks" SHFL_ARENAS=1 LD_PRELOAD="$preload" "$room/pthreads"; done
run "preloaded with an arena for each lock" env SHFL_LOCKS=1 SHFL_THREADS=128 SHFL_ARENAS=256 LD_PRELOAD="$preload" "$room/pthreads" preloaded
run "preloaded with an arena for each lock" env SHFL_LOCKS=1 SHFL_THREADS=128 SHFL_ARENAS=256 LD_PRELOAD="$preload" "$room/conditions" "$((rounds / 8))" preloaded
run "preloaded with four seats" env SHFL_THREADS=4 LD_PRELOAD="$preload" "$room/pthreads" preloaded
run "preloaded with four seats" env SHFL_THREADS=4 LD_PRELOAD="$preload" "$room/ends"

# misuse ends a program of the checked build with its message and the lock's address, and a right one runs there as anywhere
"$cc" -std=gnu11 -O2 -Wall -Wextra -Werror "$top/tests/libshfl/misuse.c" "${words[@]}" -o "$room/misuse" || exit 1
for what in $("$room/misuse"); do
    { LD_LIBRARY_PATH="$room/prefixchecked/lib" "$room/misuse" "$what" >"$room/due" 2>"$room/got"; } 2>/dev/null
    [ $? -eq 134 ] && cmp -s "$room/due" "$room/got" || complain "misuse, $what: $(cat "$room/got"), and due is $(cat "$room/due")"
    "$room/misuse" "$what" >/dev/null 2>"$room/got" && [ ! -s "$room/got" ] || complain "misuse outside the checked build, $what: $(cat "$room/got")"
done
echo "tests/libshfl.sh: misuse: $("$room/misuse" | wc -l) calls are answered, and end a program of the checked build"
"$cc" -std=gnu11 -O2 -Wall -Wextra -Werror "$top/tests/libshfl/noted.c" "${words[@]}" -o "$room/noted" || exit 1
for name in noted times policies "storm 16 $((rounds / 4)) 120"; do run "checked build" env LD_LIBRARY_PATH="$room/prefixchecked/lib" "$room/"$name; done

if command -v valgrind >/dev/null; then
    memcheck=(valgrind -q --error-exitcode=9 --fair-sched=yes --leak-check=full --show-leak-kinds=definite --errors-for-leak-kinds=definite)
    for name in "${tests[@]}" records; do run "valgrind on $name" env $(seats "$name") "${memcheck[@]}" "$room/$name"; done
    run "valgrind on a storm" "${memcheck[@]}" "$room/storm" 4 50 250
    run "valgrind on locks of a further arena" env SHFL_LOCKS=1 SHFL_THREADS=16 "${memcheck[@]}" "$room/growth" further
    run "valgrind on preloaded errors" env LD_PRELOAD="$preload" "${memcheck[@]}" "$room/errors" preloaded
fi
# programs without a race and with one, under those who look for races
ANNOTATED=1 CFLAGS="-O1 -g" "$top/libshfl/install" "$room/prefixraces" >"$room/got" 2>&1 || complain "install for those who look for races: $(tail -n 5 "$room/got")"
looks() {
    local what="$1" race
    shift
    timeout 300 "$@" none >"$room/got" 2>&1 || complain "$what finds a race where none is, status $?: $(head -n 30 "$room/got")"
    for race in mutex reader handover; do
        timeout 300 "$@" "$race" >"$room/got" 2>&1
        [ $? -eq 66 ] && grep -qE 'takes_own|writes_as_reader|gives_and_writes' "$room/got" || complain "$what doesn't find the race, $race: $(head -n 5 "$room/got")"
    done
    echo "tests/libshfl.sh: $what finds the races of a program and none of the library"
}
build_races() { "$1" -std=gnu11 -O1 -g "${@:3}" -I "$room/prefixraces/include" "$top/tests/libshfl/races.c" -L "$room/prefixraces/lib" -lshfl -pthread -o "$2"; }
export LD_LIBRARY_PATH="$room/prefixraces/lib"
echo 'int main(void) { return 0; }' >"$room/nothing.c"
for compiler in gcc clang; do
    command -v "$compiler" >/dev/null && "$compiler" -fsanitize=thread "$room/nothing.c" -o "$room/nothing" 2>/dev/null && "$room/nothing" 2>/dev/null || continue
    build_races "$compiler" "$room/races.$compiler" -fsanitize=thread || exit 1
    looks "ThreadSanitizer of $compiler" env TSAN_OPTIONS=exitcode=66 "$room/races.$compiler"
done
if command -v valgrind >/dev/null && [ -e /usr/include/valgrind/helgrind.h ]; then
    build_races "$cc" "$room/races" || exit 1
    for tool in helgrind drd; do looks "$tool" valgrind -q --tool="$tool" --error-exitcode=66 --fair-sched=yes "$room/races"; done
fi
export LD_LIBRARY_PATH="$room/prefix/lib"

# gcc's checks end a program at the first fault that they find; the preload library has those that need no memory of their own
checks=(-O1 -g -fsanitize=address,undefined -fno-sanitize-recover=all)
CFLAGS="${checks[*]}" "$top/libshfl/install" "$room/prefixsan" >"$room/got" 2>&1 || complain "install with checks: $(tail -n 5 "$room/got")"
checked() {
    local name="$1" compiler=("$cc" -std=gnu11)
    [ "$name" != locks ] || compiler=(c++ -std=c++17)
    "${compiler[@]}" "${checks[@]}" -I "$room/prefixsan/include" "$top/tests/libshfl/$name".c* -L "$room/prefixsan/lib" -lshfl -pthread -o "$room/$name.san" || exit 1
    run "checked by gcc, $name" env LD_LIBRARY_PATH="$room/prefixsan/lib" $(seats "$name") "${@:3}" "$room/$name.san" $2
}
for name in "${tests[@]}" records; do checked "$name" ''; done
checked storm "16 $((rounds / 4)) 120"
checked growth further SHFL_LOCKS=1 SHFL_THREADS=16
checked growth bounded SHFL_LOCKS=3 SHFL_ARENAS=2 SHFL_THREADS=8
CFLAGS="-O1 -g -fsanitize=undefined -fno-sanitize-recover=all" "$top/libshfl/install" "$room/prefixub" >"$room/got" 2>&1 || complain "install with checks: $(tail -n 5 "$room/got")"
for name in pthreads ends libcs errors "conditions $((rounds / 8))"; do run "checked by gcc, preloaded" env LD_PRELOAD="$room/prefixub/lib/libshfl_preload.so" "$room/"$name preloaded; done
exit "$failed"
