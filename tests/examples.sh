#!/usr/bin/env bash
# Compares what the built program does with each example: NAME.line with `line`, NAME.hex with `verify`, NAME.hex2 with
# `verify 2`, NAME.trace with `replay` and with `shards`, NAME.pool with `pool`, NAME.bulk with `bulk` and the words in it. Beside
# NAME.SUFFIX stand what it writes (.out), what it says on standard error (.err) and its status (.status); where one isn't there, nothing
# is written, nothing is said, and the status is 0. What `replay` and `shards` write of several workers, and what `pool` writes, is judged by
# tests/judge.sh, as is the report that stands beside such a trace, since two runs may order their calls differently. Then the forms of each policy in examples/policies are compared (the C where a clang for BPF is
# there), and that each example is in the index and each output belongs to one. NAME.trace.rounds is what bin/syncord-rounds writes of a trace of one worker by `replay`.
# What `line`, `verify`, `asm` and `disasm` do is the same, byte for byte, by the program that has these alone, which refuses all other words.
set -u
top="$(cd "$(dirname "$(readlink -f "${BASH_SOURCE[0]}")")/.." && pwd)"
got="$(mktemp -d)"
trap 'rm -rf "$got"' EXIT
failed=0

# the program is built before, so that it says nothing of that below; without words it only refuses them
"$top/bin/syncord" </dev/null >/dev/null 2> >(grep -v '^syncord: words$' >&2)
[ "$?" = 2 ] || exit 1
"$top/bin/syncord-rounds" </dev/null >/dev/null 2> >(grep -v '^syncord-rounds: words$' >&2)
[ "$?" = 2 ] || exit 1
"$top/bin/build-program" syncord_single syncord || exit 1
single="$top/crates/syncord_single/out/syncord_single"

# Runs a command on a document, and leaves what it writes, what it says and its status; where it starts no thread, by both programs that have it.
run() {
    local document="$1" part
    shift
    "$top/bin/syncord" "$@" <"$document" >"$got/out" 2>"$got/err"
    echo "$?" >"$got/status"
    case "$1" in line | verify | asm | disasm) ;; *) return ;; esac
    "$single" "$@" <"$document" >"$got/single.out" 2>"$got/single.err"
    echo "$?" >"$got/single.status"
    for part in out err status; do
        cmp -s "$got/single.$part" "$got/$part" && continue
        echo "$document: by syncord_single another $part than by syncord, with the words $*" >&2
        failed=1
    done
}

compare() {
    local document="$1" name part due
    name="$(basename "$document")"
    run "$@"
    shift
    for part in out err status; do
        due="$document.$part"
        if [ ! -e "$due" ]; then
            due="$got/none"
            if [ "$part" = status ]; then echo 0 >"$due"; else : >"$due"; fi
        fi
        if ! cmp -s "$got/$part" "$due"; then
            echo "examples/$name: another $part; to run it again: bin/syncord $* <examples/${document#"$top/examples/"}" >&2
            diff "$due" "$got/$part" | head -n 20 >&2
            failed=1
            return
        fi
    done
    echo "examples/$name: as it must be"
}

for document in "$top"/examples/*.line; do compare "$document" line; done
for document in "$top"/examples/*.hex "$top"/examples/policies/*.hex; do compare "$document" verify; done
for document in "$top"/examples/*.hex2; do compare "$document" verify 2; done
# A trace of several workers that isn't refused: its report by a command, and the one that is stored.
judge() {
    local document="$1" command="$2" judged="$3" name
    name="$(basename "$document")"
    if ! "$top/bin/syncord" "$command" <"$document" >"$got/out" 2>"$got/err" || [ -s "$got/err" ]; then
        echo "examples/$name: another status, or something was said; to run it again: bin/syncord $command <examples/$name" >&2
        failed=1
    elif "$top/tests/judge.sh" "$judged" "$document" "$got/out" && "$top/tests/judge.sh" "$judged" "$document" "$document.out"; then
        echo "examples/$name: as it may be"
    else
        failed=1
    fi
}

# a trace by a command, whose reports this judges where there are several workers
run_trace() {
    if [ "$(grep -c '^worker ' "$1")" -gt 1 ] && [ ! -e "$1.status" ]; then
        judge "$@"
    else
        compare "$1" "$2"
    fi
}

for document in "$top"/examples/*.trace; do
    run_trace "$document" replay replay
    run_trace "$document" shards replay
done
for due in "$top"/examples/*.trace.rounds; do
    name="$(basename "$due")"
    if "$top/bin/syncord-rounds" replay <"${due%.rounds}" >"$got/out" 2>"$got/err" && [ ! -s "$got/err" ] && cmp -s "$got/out" "$due"; then
        echo "examples/$name: as it must be"
    else
        echo "examples/$name: another text; to run it again: bin/syncord-rounds replay <examples/${name%.rounds}" >&2
        failed=1
    fi
done
for document in "$top"/examples/*.pool; do run_trace "$document" pool pool; done
# as many attachments as a trace may have, each before two calls of four workers
{
    printf 'syncord-trace 1\nworker 0 0 0 0\nworker 1 0 0 0\nworker 0 0 0 0\nworker 1 0 0 0\n'
    printf 'policy none - -\npolicy socket %s -\ncalls\n' "$(tr -d '\n' <"$top/examples/policies/socket.hex")"
    awk 'BEGIN { for (n = 0; n < 4096; n++) {
        print "0 attach " (n % 2 ? "none" : "socket")
        print n % 4 " make 1 n" n % 100
        print (n + 1) % 4 (n % 3 ? " find 1 n" : " drop 1 n") n % 100 } }'
} >"$got/attachments.trace"
for command in replay shards; do
    "$top/bin/syncord" "$command" <"$got/attachments.trace" >"$got/attachments.out" \
        && "$top/tests/judge.sh" replay "$got/attachments.trace" "$got/attachments.out" \
        && grep -qx 'attaches 4096' "$got/attachments.out" && echo "a trace of 4,096 attachments by $command: as it may be" || failed=1
done
for document in "$top"/examples/*.bulk; do
    # its words stand in the document, which the command doesn't read
    read -r -a words <"$document"
    compare "$document" bulk "${words[@]}"
done

# The three forms of a policy say one program: the assembly and the listing of the digits have the digits' slots, and the C
# compiles to them, where a clang for BPF stands ready.
compare_forms() {
    local form="${1%.asm}" name digits slots
    name="examples/policies/$(basename "$form")"
    digits="$(tr -d '\n' <"$form.hex")"
    run "$form.asm" asm
    slots="$(tr -d '\n' <"$got/out")"
    run "$form.hex" disasm
    mv "$got/out" "$got/listing"
    run "$got/listing" asm
    if [ "$slots" != "$digits" ]; then
        echo "$name.asm: other slots than $name.hex" >&2
        failed=1
    elif [ "$(tr -d '\n' <"$got/out")" != "$digits" ]; then
        echo "$name.hex: its listing has other slots" >&2
        failed=1
    elif clang -target bpf -O2 -c "$form.c" -o "$got/policy.o" 2>/dev/null \
        && llvm-objcopy -O binary --only-section=.text "$got/policy.o" "$got/policy.bin" 2>/dev/null \
        && [ "$(od -An -v -tx1 "$got/policy.bin" | tr -d ' \n')" != "$digits" ]; then
        echo "$name.c: other slots than $name.hex" >&2
        failed=1
    elif [ -s "$got/policy.bin" ]; then
        echo "$name: its three forms agree"
    else
        echo "$name: its assembly and its digits agree (no clang for BPF is here to compile the C)"
    fi
    rm -f "$got/policy.bin"
}

for document in "$top"/examples/policies/*.asm; do compare_forms "$document"; done

# The program's own name isn't looked at. A word that is no text, or is longer than any command's, is no command's.
ends_with() {
    local due="$1" name="$2" status=0
    shift 2
    (exec -a "$name" "$top/crates/syncord/out/syncord" "$@" <"$top/examples/fast-path.line" >"$got/out" 2>"$got/err") || status=$?
    [ "$status" = "$due" ] && return
    printf 'the name %q with the words %q: status %s\n' "$name" "$*" "$status" >&2
    failed=1
}
long="$(printf 'x%.0s' {1..300})"
ends_with 0 $'\xff' line
ends_with 0 "$long" line
ends_with 0 '' line
ends_with 2 syncord $'\xff'
ends_with 2 syncord line $'\xff'
ends_with 2 syncord "$long"
ends_with 2 syncord bulk 1 1 1 1 1
ends_with 2 syncord bulk 1 1 1 1 1 1 1

# The program of the commands that start no thread takes no other words, and reads nothing then.
while read -r -a words; do
    {
        status=0
        "$single" "${words[@]}" >"$got/out" 2>"$got/err" || status=$?
        cat >"$got/left"
    } <"$top/examples/fast-path.line"
    [ "$status $(cat "$got/err")" = '2 syncord: words' ] && [ ! -s "$got/out" ] && cmp -s "$got/left" "$top/examples/fast-path.line" && continue
    echo "syncord_single with the words '${words[*]}': status $status" >&2
    failed=1
done <<'END'

replay
shards
pool
bulk 7 8 2000
help
line x
verify 1
disasm 2 2
END

# what belongs to no example
for part in "$top"/examples/*.{out,err,status,rounds} "$top"/examples/policies/*.{out,err,status}; do
    if [ -e "$part" ] && [ ! -e "${part%.*}" ]; then
        echo "examples/${part#"$top/examples/"}: there is no such example" >&2
        failed=1
    fi
done
for document in "$top"/examples/*.{line,hex,hex2,trace,pool,bulk,sim}; do
    grep -qF "\`$(basename "$document")\`" "$top/examples/README.md" && continue
    echo "examples/README.md: it doesn't name $(basename "$document")" >&2
    failed=1
done
exit "$failed"
