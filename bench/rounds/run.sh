#!/usr/bin/env bash
# Runs a row of 1,000 actors that add one, rings of 100 and of 1,000 with 64 tokens, 64 that are each behind itself with 64
# tokens, and 64 with an input and an output each, and prints nanoseconds a firing and a token moved, with a trace that is
# swallowed and with one that is kept in memory; beside them one such cell that fires as often without a network, and the
# ratio to it. It writes nothing into the checkout.
set -eu
. "$(dirname -- "${BASH_SOURCE[0]}")/../common.sh"
rounds=${1:-5}

make_driver rounds_bench rvc_base rvc_io code_ir schedule_fsm priority_order lowered_actor net_model round_plan \
    round_runner actor_cell kit_runs
echo "building, which takes up to half an hour if nothing was proved before" >&2
build_driver rounds_bench

for ((round = 0; round < rounds; round++)); do
    "$proved"
done >"$work/times"

# The least of the rounds' times, since other programs only make a run slower.
awk '
    { each = $2 / $3; moved = $2 / $4 }
    !($1 in firing) { names[++count] = $1; firing[$1] = each; token[$1] = moved }
    each < firing[$1] { firing[$1] = each; token[$1] = moved }
    END {
        for (k = 1; k <= count; k++)
            printf "%s: %.1f ns a firing, %.1f ns a token: ratio %.2f\n", names[k], firing[names[k]], token[names[k]],
                firing[names[k]] / firing["by_hand"]
    }' "$work/times"
