#!/usr/bin/env bash
# Reads, binds and flattens networks of 128, 256, 512 and 1,024 actors in a row with four connections to each, and prints
# milliseconds, nanoseconds a link, and the ratio of the latter to that of the smallest network: 1 if time is linear in
# links. It writes nothing into the checkout.
set -eu
. "$(dirname -- "${BASH_SOURCE[0]}")/../common.sh"
rounds=${1:-5}

make_driver flatten_bench rvc_base fnl_bind fnl_read fnl_tree fnl_walk fnl_flatten test_fnl_flatten
echo "building, which takes up to half an hour if nothing was proved before" >&2
build_driver flatten_bench

for ((round = 0; round < rounds; round++)); do
    "$proved"
done >"$work/times"

# The least of the rounds' times, since other programs only make a run slower.
awk '
    { key = $1 " " $2; each = $4 / $3 }
    !(key in took) { keys[++count] = key; took[key] = $4; link[key] = each; name[key] = $1; actors[key] = $2; links[key] = $3 }
    $4 < took[key] { took[key] = $4; link[key] = each }
    END {
        for (k = 1; k <= count; k++) {
            key = keys[k]
            if (!(name[key] in first)) first[name[key]] = link[key]
            printf "%s, %d actors, %d links: %.2f ms, %.0f ns a link: ratio %.2f\n", name[key], actors[key], links[key],
                took[key] / 1e6, link[key], link[key] / first[name[key]]
        }
    }' "$work/times"
