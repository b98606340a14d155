#!/usr/bin/env bash
# Lowers five bodies, and runs their code and the code that a careful hand writes for them on the proved machine and on a
# plain one in Rust, and the bodies written out in Rust, in turn. Prints how many instructions the code has and runs, and
# nanoseconds a firing, with their ratios. All must send the same numbers. It writes nothing into the checkout.
set -eu
. "$(dirname -- "${BASH_SOURCE[0]}")/../common.sh"
rounds=${1:-5}

echo "lowering the bodies, which takes some minutes" >&2
bash "$here/lowered.sh" "$top" "$work" "$here/bodies" Sat.cal Idct.cal Crc.cal Grid.cal Chain.cal >"$work/lowered.txt"
cat "$work/lowered.txt" "$here/hand.txt" | awk -f "$here/tables.awk" >"$work/tables"

make_driver lowering_bench rvc_base code_ir action_machine
{
    printf '//! The code of bodies.\n\nuse code_ir::Instr;\nuse rvc_base::{Num, Scalar};\n\n'
    cat "$work/tables"
} >"$work/crates/lowering_bench/src/tables.rt"
echo "building both machines, which takes some minutes" >&2
build_driver lowering_bench

cp -r "$here/plain" "$work/plain"
cp "$top/bench/machine/plain/src/machine.rs" "$work/plain/src/"
{
    echo "use crate::machine::{Instr, Num, Scalar};"
    cat "$work/tables"
} >"$work/plain/src/tables.rs"
build_plain plain_lowering

for ((round = 0; round < rounds; round++)); do
    "$proved"
    "$plain"
done >"$work/times"

# The least of the rounds' times, since other programs only make a run slower.
awk '
    $1 == "length" { length_of[$2, $3] = $4; runs[$2, $3] = $5; turns[$3] = $6; next }
    {
        key = $1 " " $2 " " $3; each = $4 / $5
        if (!($3 in sum)) { names[++count] = $3; sum[$3] = $6 }
        if (sum[$3] != $6) differs = 1
        if (!(key in least) || each < least[key]) least[key] = each
    }
    END {
        if (differs) { print "not all send the same numbers"; exit 1 }
        for (k = 1; k <= count; k++) {
            n = names[k]
            printf "%s: %d instructions, by hand %d: ratio %.2f", n, length_of["lowered", n], length_of["hand", n],
                length_of["lowered", n] / length_of["hand", n]
            printf "; a firing runs %d, by hand %d: ratio %.2f", runs["lowered", n], runs["hand", n],
                runs["lowered", n] / runs["hand", n]
            if (turns[n] > 0) printf "; %.1f a turn", runs["lowered", n] / turns[n]
            printf "\n"
        }
        for (k = 1; k <= count; k++) {
            n = names[k]; p = least["lowered proved " n]; q = least["lowered plain " n]; r = least["straight rust " n]
            h = least["hand proved " n]
            printf "%s: proved %.1f ns a firing, plain machine %.1f ns: ratio %.2f; Rust %.1f ns: ratio %.0f", n, p, q, p / q, r,
                p / r
            printf "; by hand %.1f ns: ratio %.2f\n", h, p / h
        }
    }' "$work/times"
