#!/usr/bin/env bash
# Lets six actors fire, lowered and as cells, and by hand in Rust, in turn, and prints nanoseconds a firing of each and their
# ratio. A firing is counted with the tokens that come in and those that are read. Both must send the same numbers. It
# writes nothing into the checkout.
set -eu
. "$(dirname -- "${BASH_SOURCE[0]}")/../common.sh"
rounds=${1:-5}

echo "lowering the actors, which takes some minutes" >&2
bash "$top/bench/lowering/lowered.sh" "$top" "$work" "$here/actors" Inc.cal AddNet.xdf FlipNet.xdf dec/Rld.cal dec/Zigzag.cal \
    Wheel.cal >"$work/lowered.txt"

make_driver firing_bench rvc_base code_ir schedule_fsm priority_order lowered_actor net_model lower_scratch actor_cell
{
    printf '//! The code and the tables of actors.\n\nuse code_ir::Instr;\nuse rvc_base::{Num, Scalar};\n\n'
    awk -v apart=1 -f "$top/bench/lowering/tables.awk" "$work/lowered.txt"
} >"$work/crates/firing_bench/src/tables.rt"
echo "building both, which takes some minutes" >&2
build_driver firing_bench

cp -r "$here/plain" "$work/plain"
build_plain plain_firing

for ((round = 0; round < rounds; round++)); do
    "$proved"
    "$plain"
done >"$work/times"

# The least of the rounds' times, since other programs only make a run slower.
awk '
    { key = $1 " " $2; each = $3 / $4 }
    !(key in least) || each < least[key] { least[key] = each }
    !($2 in sum) { names[++count] = $2; sum[$2] = $5 }
    sum[$2] != $5 { differs = 1 }
    END {
        if (differs) { print "the two send different numbers"; exit 1 }
        for (k = 1; k <= count; k++) {
            p = least["proved " names[k]]; q = least["plain " names[k]]
            printf "%s: proved %.1f ns, plain %.1f ns a firing: ratio %.1f\n", names[k], p, q, p / q
        }
    }' "$work/times"
