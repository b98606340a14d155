#!/usr/bin/env bash
# Runs one loop of 110 million instructions on the proved machine and on a plain one in Rust, in turn, and prints
# nanoseconds an instruction of each and their ratio. Both must leave the same numbers. It writes nothing into
# the checkout.
set -eu
. "$(dirname -- "${BASH_SOURCE[0]}")/../common.sh"
rounds=${1:-5}

make_driver machine_bench rvc_base code_ir action_machine
echo "building both machines, which takes some minutes" >&2
build_driver machine_bench

cp -r "$here/plain" "$work/plain"
build_plain plain_machine

for ((round = 0; round < rounds; round++)); do
    echo "proved $("$proved")"
    echo "plain $("$plain")"
done >"$work/times"

# The least of the rounds' times, since other programs only make a run slower.
awk '
    { each = $2 / $3 }
    $1 == "proved" { if (!seen++ || each < proved) proved = each; left = $4 " " $5 }
    $1 == "plain" { if (!other++ || each < plain) plain = each; if ($4 " " $5 != left) differs = 1 }
    END {
        if (differs) { print "the two machines leave different numbers"; exit 1 }
        printf "proved %.2f ns, plain %.2f ns an instruction: ratio %.2f\n", proved, plain, proved / plain
    }' "$work/times"
