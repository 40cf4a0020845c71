#!/usr/bin/env bash
# Runs each command that a document shows in an indented block, `    $ COMMAND`, at the top of the repository, and compares
# what it writes on both streams with the lines under it; a last line `status N` says its status, which else is 0. With no
# words it takes every document of docs/ and the README. What stands behind `%` in place of `$` wants a program that runs, and is left to tests/tool.sh.
set -u
top="$(cd "$(dirname "$(readlink -f "${BASH_SOURCE[0]}")")/.." && pwd)"
cd "$top" || exit 1
[ "$#" -gt 0 ] || set -- README.md docs/*.md
failed=0 count=0

# the programs are built before, so that they say nothing of that below; without words the first only refuses them
bin/syncord </dev/null >/dev/null 2> >(grep -v '^syncord: words$' >&2)
[ "$?" = 2 ] || exit 1
bin/accounts >/dev/null || exit 1
bin/syncord-sim no-words </dev/null 2> >(grep -v '^syncord-sim: words$' >&2)
[ "$?" = 2 ] || exit 1
bin/syncord-rounds </dev/null 2> >(grep -v '^syncord-rounds: words$' >&2)
[ "$?" = 2 ] || exit 1

judge() {
    local got status=0
    got="$(bash -c "$command" 2>&1)" || status=$?
    [ "$status" = 0 ] || got="${got:+$got$'\n'}status $status"
    count=$((count + 1))
    if [ "$got" != "$due" ]; then
        echo "$document, line $at: $command" >&2
        diff <(printf '%s\n' "$due") <(printf '%s\n' "$got") >&2
        failed=1
    fi
}

for document; do
    command='' number=0
    while IFS= read -r line || [ -n "$line" ]; do
        number=$((number + 1))
        case "$line" in
        '    $ '*)
            [ -z "$command" ] || judge
            command="${line#    \$ }" due='' at="$number"
            ;;
        '    '*)
            [ -z "$command" ] || due="${due:+$due$'\n'}${line#    }"
            ;;
        *)
            [ -z "$command" ] || judge
            command=''
            ;;
        esac
    done <"$document"
    [ -z "$command" ] || judge
done
[ "$failed" = 0 ] && echo "documents: $count commands write what is shown"
exit "$failed"
