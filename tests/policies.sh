#!/usr/bin/env bash
# Asks the policies of examples/policies the questions of docs/POLICIES.md, each by a schedule that shows the answer, and compares.
set -u
top="$(cd "$(dirname "$(readlink -f "${BASH_SOURCE[0]}")")/.." && pwd)"
cd "$top" || exit 1
yes_program=b7000000010000009500000000000000
failed=0 count=0

steps() { for ((i = 0; i < $2; i++)); do echo "step $1"; done; }

# the passes 1 and on join the queue behind the holder 0, the first in four steps, the others in five; a waiter looks once
joined() {
    local pass
    echo 'write 0'
    steps 0 1
    echo 'write 1'
    steps 1 4
    for ((pass = 2; pass <= $1; pass++)); do
        echo "write $pass"
        steps "$pass" 5
    done
}

# anchor and waiter are the passes 1 and 2, and a third stands behind them: the waiter joins the batch where the answer is yes
ask_should() {
    {
        printf 'shfl-line 1\nform spin\nlimit 1024\npolicy program %s -\n' "$1"
        printf 'pass 0 0 0 0\npass %s\npass %s\npass 0 0 0 0\nevents\n' "$2" "$3"
        joined 3
        steps 1 6
    } | bin/syncord line | awk '/ line / { last = $0 } END { print (last ~ / line 1:1,2:2,3:0 / ? "yes" : last ~ / line 1:1,2:0,3:0 / ? "no" : last) }'
}

# the round of the head (batch 1), or of a shuffler whose batch the head's round made so long: it walks where the answer is no
ask_skip() {
    local batch="$3" pass
    {
        printf 'shfl-line 1\nform spin\nlimit 1024\npolicy program %s %s\npass 0 0 0 0\n' "$yes_program" "$1"
        for ((pass = 1; pass <= batch + 1; pass++)); do echo "pass $2"; done
        printf 'events\n'
        joined $((batch + 1))
        if [ "$batch" = 1 ]; then
            # begin, and give where it is skipped
            steps 1 2
        else
            # begin, then five steps for each waiter that joins, then next, tail and give; look, begin, and give where it is skipped
            steps 1 $((1 + 5 * (batch - 1) + 3))
            steps "$batch" 3
        fi
    } | bin/syncord line | awk -v at="$batch" '/ role / { for (i = 1; i < NF; i++) if ($i == "role") last = $(i + 1) }
        END { print (last == "rest:" at ? "yes" : last == "walk:" at ? "no" : last) }'
}

while IFS='|' read -r _ policy hook anchor waiter batch answer _; do
    policy="${policy//[\` ]/}" hook="${hook// /}" batch="${batch// /}" answer="${answer// /}"
    case "$hook" in should | skip) ;; *) continue ;; esac
    # parted by single blanks
    # shellcheck disable=SC2086
    anchor="$(echo $anchor)" waiter="$(echo $waiter)"
    digits="$(tr -d ' \n' <"examples/policies/$policy.hex")"
    case "$hook" in
    should) got="$(ask_should "$digits" "$anchor" "$waiter")" ;;
    skip) got="$(ask_skip "$digits" "$anchor" "$batch")" ;;
    esac
    count=$((count + 1))
    if [ "$got" != "$answer" ]; then
        echo "docs/POLICIES.md: $policy, $hook, anchor $anchor, waiter $waiter, batch $batch: $got" >&2
        failed=1
    fi
done < <(sed -n '/^| Policy | Hook/,/^$/p' docs/POLICIES.md)
[ "$count" -gt 0 ] || failed=1

# what C comes to, where a clang for BPF stands ready: a file, the status that is due and what is told
in_c() {
    local said status
    said="$(bin/policy "$1" 2>&1)"
    status=$?
    if [ "$status" != "$2" ] || [[ "$said" != *"$3"* ]]; then
        echo "bin/policy: $4: status $status: $said" >&2
        failed=1
    fi
}

# the body of a policy in C
c_policy() { printf '#include "%s/examples/policies/context.h"\nunsigned long policy(const struct context *c) { %s }\n' "$top" "$1" >"$room/it.c"; }

if command -v clang >/dev/null && command -v llvm-objdump >/dev/null; then
    room="$(mktemp -d)"
    trap 'rm -rf "$room"' EXIT
    printf '%s\n' 'unsigned long other(const void *c) { return 1; }' 'unsigned long policy(const void *c) { return 0; }' >"$room/it.c"
    in_c "$room/it.c" 1 'more than one function' 'a second function, which would run in the place of the policy'
    c_policy 'switch (c->waiter_class) { case 0: return 0; case 3: return c->waiter_prio > 2; case 5: return 1; case 9: return c->waiter_prio < 7;
        case 12: return c->batch < 4; default: return c->waiter_socket == c->anchor_socket; }'
    in_c "$room/it.c" 0 'policy program ' 'a switch'
    c_policy 'return (c->batch < 4 && c->waiter_prio > 2) || (c->batch >= 4 && c->waiter_class > 2);'
    in_c "$room/it.c" 0 'policy program ' 'a choice of two conditions'
    c_policy 'if (c->batch < 4) return c->waiter_prio > 2; return c->waiter_class > 2;'
    in_c "$room/it.c" 6 'choose between two fields' 'a choice of two fields'
    c_policy 'volatile unsigned long x[4]; x[c->batch & 3] = c->waiter_prio; return x[0];'
    in_c "$room/it.c" 6 'the stack' 'an array'
    in_c --help 2 'usage' 'an option'
    for name in socket priority batch_cap; do in_c "examples/policies/$name.c" 0 "$(tr -d ' \n' <"examples/policies/$name.hex")" "$name"; done
fi
[ "$failed" = 0 ] && echo "policies: $count questions are answered as told"
exit "$failed"
