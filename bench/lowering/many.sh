#!/usr/bin/env bash
# The time of making code of actors with many functions, and with many procedures: processor seconds of `check`, and of `run`
# over an empty input, which makes the code and runs nothing; and the kilobytes that `run` takes.
#
#     bench/lowering/many.sh RVC [SIZE ..]
#
# RVC is the program. Each function calls one or two of those that have the numbers before its own, each procedure one; they
# stand in the order of their numbers, or backwards. The sizes are 400, 800 and 1600 if none is given.
set -euo pipefail

rvc=$(readlink -f -- "$1")
shift
[[ $# -gt 0 ]] || set -- 400 800 1600
room=$(mktemp -d)
trap 'rm -rf "$room"' EXIT
cd "$room"

# An actor of these many.
actor() { # functions or procedures, how many, forwards or backwards
    local order=cat call
    [[ $3 == forwards ]] || order=tac
    echo 'actor Many() int(size=32) In ==> int(size=32) Out :'
    if [[ $1 == functions ]]; then
        for ((k = 0; k < $2; k++)); do
            printf '  function f%d(int(size=32) v) --> int(size=32) : if v > %d then (v * 3 + %d) mod 1000 else if v < 0 then ' $k $k $k
            ((k > 0)) && printf 'f%d(v + %d)' $((k - 1)) $((k - 1)) || printf 'v'
            printf ' else '
            ((k > 1)) && printf 'f%d(v + %d)' $((k - 2)) $((k - 2)) || printf 'v'
            printf ' end end end\n'
        done | $order
        printf '  action In:[x] ==> Out:[f%d(x)] end\nend\n' $(($2 - 1))
    else
        echo '  int(size=32) s := 0;'
        for ((k = 0; k < $2; k++)); do
            call=
            ((k == 0)) || call="p$((k - 1))(v + 1);"
            printf '  procedure p%d(int(size=32) v) begin if v > %d then s := s + v * %d; else s := s - 1; %s end end\n' $k $k $k "$call"
        done | $order
        printf '  action In:[x] ==> Out:[s] do p%d(x); end\nend\n' $(($2 - 1))
    fi
}

: >in.bin
for what in functions procedures; do
    for way in forwards backwards; do
        for size in "$@"; do
            actor "$what" "$size" "$way" >Many.cal
            rm -f out.bin trace.txt
            check=$({ /usr/bin/time -f %U "$rvc" check Many.cal >report.txt; } 2>&1)
            made=$({ /usr/bin/time -f '%U s %M KB' "$rvc" run Many.cal In=in.bin Out=out.bin --trace trace.txt >report.txt; } 2>&1)
            echo "$size $what $way: check $check s, run $made"
        done
    done
done
