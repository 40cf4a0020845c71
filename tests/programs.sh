#!/usr/bin/env bash
# Which of its two programs bin/syncord runs, and which it builds: for the commands that start no thread the smaller one, unless the other one is
# there as the sources stand; for other words that one. Programs and builder are scripts that tell their names.
set -u
top="$(cd "$(dirname "$(readlink -f "${BASH_SOURCE[0]}")")/.." && pwd)"
room="$(mktemp -d)"
trap 'rm -rf "$room"' EXIT
mkdir "$room/bin"
cp "$top/bin/syncord" "$top/bin/program.sh" "$room/bin"
: >"$room/crates.txt"
# as the real one it leaves a program, and beside it what that was built from
cat >"$room/bin/build-program" <<'END'
#!/bin/sh
echo "builds $1"
folder="${0%/*}/../crates/$1"
mkdir -p "$folder/src" "$folder/out"
printf '#!/bin/sh\necho "%s $*"\n' "$1" >"$folder/out/$1"
chmod +x "$folder/out/$1"
touch "$folder/src/main.rt"
echo "folders=crates/$1/src sources=crates/$1/src/main.rt" >"$folder/out/$1.built-from"
END
chmod +x "$room/bin/build-program"
touched() { touch -d "now $2 1 minute" "$room/crates/$1/src/main.rt"; }

{
    "$room/bin/syncord" line
    "$room/bin/syncord" verify 2
    "$room/bin/syncord" asm x
    "$room/bin/syncord" replay
    "$room/bin/syncord" disasm
    touched syncord +
    "$room/bin/syncord" line
    touched syncord_single +
    "$room/bin/syncord" asm 2
    touched syncord -
    "$room/bin/syncord" verify
    rm -r "$room/crates"
    "$room/bin/syncord" help
    rm -r "$room/crates"
    "$room/bin/syncord"
} >"$room/told"

diff - "$room/told" <<'END' && echo 'programs: bin/syncord builds and runs what its words need'
builds syncord_single
syncord_single line
syncord_single verify 2
syncord_single asm x
builds syncord
syncord replay
syncord disasm
syncord_single line
builds syncord_single
syncord_single asm 2
syncord verify
builds syncord
syncord help
builds syncord
syncord 
END
