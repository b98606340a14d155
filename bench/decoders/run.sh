#!/usr/bin/env bash
# Times two programs of the words of `rvc` in turn, on what people run: a decoder, a filter, tables, loops, rows, a tree, rings
# and a generated row.
#
#     bench/decoders/run.sh OLD NEW [ROUNDS [WORD ..]]
#
# Of each it prints the processor time of a firing by the least of so many runs (9), how many times as fast NEW is, and where
# valgrind is installed the x86 instructions of a firing. All are slopes between a short run and a long one, so what is done
# once isn't in them. With words, what is run are those whose names have one of them. It writes nothing into the checkout.
set -eu
[ $# -ge 2 ] || { echo 'usage: bench/decoders/run.sh OLD NEW [ROUNDS [WORD ..]]' >&2; exit 2; }
here=$(cd -- "$(dirname -- "${BASH_SOURCE[0]}")" && pwd)
old=$1 new=$2 rounds=${3:-9}
shift $(($# < 3 ? $# : 3))
PYTHONDONTWRITEBYTECODE=1 exec python3 "$here/measure.py" "$old" "$new" "$rounds" "$@"
