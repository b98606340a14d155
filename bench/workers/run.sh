#!/usr/bin/env bash
# Times a program of the words of `rvc` with 1, 2, 4 and 64 workers in turn, on rows, side by side actors, a ring and a decoder.
#
#     bench/workers/run.sh PROGRAM [ROUNDS [WORD ..]]
#
# Of each it prints the seconds of one worker by the clock, the least of so many runs (5), and the ratios of more workers to
# it: below 1 they are faster. With words, what is run are those whose names have one of them. It writes nothing into the
# checkout.
set -eu
[ $# -ge 1 ] || { echo 'usage: bench/workers/run.sh PROGRAM [ROUNDS [WORD ..]]' >&2; exit 2; }
here=$(cd -- "$(dirname -- "${BASH_SOURCE[0]}")" && pwd)
program=$1 rounds=${2:-5}
shift $(($# < 2 ? $# : 2))
PYTHONDONTWRITEBYTECODE=1 exec python3 "$here/measure.py" "$program" "$rounds" "$@"
