# Sourced by the scripts here that time `syncord`: the top of the repository, the program, built where it isn't there (SYNCORD names another one), and a folder that goes
# when the script ends.
top="$(cd "$(dirname "$(readlink -f "${BASH_SOURCE[0]}")")/.." && pwd)"
program="${SYNCORD:-$top/crates/syncord/out/syncord}"
room="$(mktemp -d)"
trap 'rm -rf "$room"' EXIT
[ -x "$program" ] || "$top/bin/syncord" </dev/null >/dev/null 2>&1 || true
