#!/usr/bin/env bash
# What a skeptic reads to believe the headline, with the number of lines: the definitions that its clauses rest on, and the calls that
# carry the clauses. Proofs are not in it: the prover reads those. With --write the list in docs/READING.md is made anew, and
# else compared.
set -u
top="$(cd "$(dirname "$(readlink -f "${BASH_SOURCE[0]}")")/.." && pwd)"
cd "$top" || exit 1

list() {
    local what files total=0 lines
    echo '| What it says | Files | Lines |'
    echo '|---|---|---|'
    while IFS='|' read -r what files; do
        # the files stand as words
        # shellcheck disable=SC2086
        lines="$(cat $files | wc -l)" || return 1
        total=$((total + lines))
        echo "| $what | $(printf '`%s` ' $files | sed 's/ $//') | $lines |"
    done <<'FILES'
what an observer sees of a lock, and its steps|crates/shfl_line/specs/Line.antt crates/shfl_line/specs/Steps.antt crates/shfl_line/specs/Passes.antt
the words|crates/shfl_line/specs/Words.antt crates/shfl_core/specs/Words.antt
the rows: what a pass does, and where it then stands|crates/shfl_core/specs/Plan.antt crates/shfl_core/specs/Take.antt crates/shfl_core/specs/Waiting.antt
worlds, moves, runs|crates/shfl_core/specs/Worlds.antt crates/shfl_core/specs/Phases.antt
the headline in plain words|crates/shfl_laws/specs/Headline.antt crates/shfl_laws/specs/Theorem.antt crates/shfl_laws/src/safety.rt
what happens to a lock, what a list of it makes of the opening, and that this is safe|crates/shfl_laws/specs/Changes.antt crates/shfl_laws/specs/Moves.antt crates/shfl_laws/specs/Holds.antt crates/shfl_laws/specs/Runs.antt crates/shfl_bound/specs/Runs.antt crates/shfl_bound/src/runs.rt
the lock on shared words: its rule, what a pass knows, what a step does|crates/shfl_table/specs/BoardRule.antt crates/shfl_table/specs/Views.antt crates/shfl_table/specs/Histories.antt crates/shfl_table/specs/PassModel.antt crates/shfl_table/specs/PassSteps.antt crates/shfl_table/specs/FoundInRun.antt crates/shfl_table/specs/PlainWords.antt crates/shfl_table/specs/MadeInHolds.antt crates/shfl_table/specs/ThreadRuns.antt crates/shfl_table/src/passes.rt crates/shfl_table/src/plain_words.rt crates/shfl_table/src/closing.rt
policies in use: versions, and that no place is refilled while a round uses it|crates/policy_versions/specs/Models.antt crates/policy_versions/specs/Places.antt crates/policy_versions/specs/Rule.antt crates/policy_versions/specs/Turning.antt crates/policy_versions/src/place.rt crates/policy_versions/src/turns.rt crates/policy_versions/src/registry/enter.rt crates/policy_versions/src/registry/publish.rt crates/policy_versions/specs/Choosing.antt crates/policy_versions/specs/Noting.antt crates/policy_versions/src/chooser.rt crates/round_log/specs/Logs.antt
which programs are accepted, and what a policy answers|crates/bpf_verifier/specs/Acceptance.antt crates/bpf_verifier/specs/Faults.antt crates/bpf_verifier/specs/Safety.antt crates/shfl_policy/specs/Context.antt crates/shfl_policy/specs/Loading.antt crates/shfl_policy/specs/Policies.antt
objects behind it|crates/shfl_table/specs/Books.antt crates/shfl_cell/specs/Cells.antt crates/shfl_cell/src/calls.rt crates/rw_cell/specs/RwCells.antt crates/rw_cell/specs/Closings.antt
what a schedule and its report are|crates/shfl_sched/specs/Grammar.antt crates/shfl_sched/specs/Run.antt crates/shfl_sched/specs/Report.antt
what the command promises|crates/syncord_line/specs/Reports.antt crates/syncord_line/specs/Safety.antt crates/syncord_line/src/run.rt
how a command ends|crates/syncord_endings/specs/Endings.antt crates/syncord_endings/specs/Traffic.antt
legal histories, and the histories of a trace|crates/hist_log/specs/History.antt crates/dir_table/specs/Directory.antt crates/trace_text/specs/Histories.antt
what `replay` promises, and who runs its trace|crates/syncord_replay/specs/Replays.antt crates/syncord_replay/specs/Runnable.antt crates/shfl_workers/specs/LockRuns.antt crates/syncord_replay/src/outcome.rt crates/syncord_replay/src/manner.rt crates/syncord_replay/src/run.rt crates/syncord_app/src/manners.rt crates/syncord_app/src/threads.rt crates/syncord_app/src/doing.rt crates/syncord_app/src/top.rt
FILES
    echo "| in all | | $total |"
}

made="$(list)" || exit 1
if [ "${1:-}" = --write ]; then
    sed '/^| What it says/,$d' docs/READING.md >"docs/READING.new" && printf '%s\n' "$made" >>docs/READING.new &&
        mv docs/READING.new docs/READING.md
elif [ "$made" != "$(sed -n '/^| What it says/,$p' docs/READING.md)" ]; then
    echo "docs/READING.md: its list isn't current; run tests/reading-list.sh --write" >&2
    exit 1
else
    echo "reading list: ${made##*| |}"
fi
