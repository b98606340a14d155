#!/usr/bin/env bash
# Certifies actors of 256 actions from the command line, and prints the milliseconds of each. The actions have guards that
# exclude each other. In some actors all of them are eligible in each state, so there are 32,640 pairs of them; in others each
# state offers two. The time of checking the same actor stands beside it. It writes nothing into the checkout but the
# program.
set -eu
. "$(dirname -- "${BASH_SOURCE[0]}")/../common.sh"
find_program

# An actor with so many states. Of its 256 actions each state offers all, or only the first and one other.
write_actor() {
    awk -v states="$1" -v offers="$2" 'BEGIN {
        printf "actor Wide() uint(size=8) In ==> uint(size=8) Out :\n  int s := 0;\n"
        for (k = 0; k < 256; k++) {
            tag = k == 0 ? "step : " : offers == "all" ? "" : sprintf("a%d : ", k)
            printf "  %saction In:[v] ==> Out:[v] guard 0 <= v, s = %d do s := %d; end\n", tag, k, (k + 1) % 256
        }
        printf "  schedule fsm s0 :\n"
        for (k = 0; k < states; k++) {
            printf "    s%d (step) --> s%d;\n", k, (k + 1) % states
            if (offers != "all") printf "    s%d (a%d) --> s%d;\n", k, 1 + k % 255, (k + 1) % states
        }
        printf "  end\nend\n"
    }'
}

# The milliseconds of a command, whatever its exit status.
time_of() {
    local start=$EPOCHREALTIME
    "$program" "$@" >report || true
    local end=$EPOCHREALTIME
    echo $(((${end/./} - ${start/./}) / 1000))
}

cd "$work"
for row in "1 all" "16 all" "64 all" "256 all" "1024 all" "256 two" "1024 two"; do
    read -r states offers <<<"$row"
    write_actor "$states" "$offers" >Wide.cal
    checked=$(time_of check Wide.cal)
    certified=$(time_of certify Wide.cal)
    echo "$states states, $offers offered: certify $certified ms, of which check $checked ms: $(tail -n 1 report)"
done
