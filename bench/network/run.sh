#!/usr/bin/env bash
# Runs networks by `rvc` from the command line, as a user would, and prints nanoseconds a firing and tokens a second:
# rows of 1, 10, 100 and 1,000 actors that add one, beside the same rows in plain Rust (`plain/`) and, where it is installed,
# in GNU Radio; a ring of 100 actors; a tree of 512 adders; of each also the replay of the trace that the run wrote; and how long a network of 1,000 instances and 4,096 links takes to
# be checked. Times are slopes between two lengths of input, so that what is done once isn't in them. It writes nothing into
# the checkout but the program.
set -eu
. "$(dirname -- "${BASH_SOURCE[0]}")/../common.sh"
rounds=${1:-3}
find_program

cp -r "$here/plain" "$work/plain"
build_plain plain_network

python3 "$here/measure.py" "$program" "$plain" "$here/gnuradio_row.py" "$rounds"
