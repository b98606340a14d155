#!/usr/bin/env bash
# Checks sources of many like parts by `rvc` from the command line, and prints processor seconds: of some 100,000 and some
# 1,000,000 bytes, or of 100 and of 1,000 files or instances, and how many times as long ten times as many parts take. What
# takes ten times as long goes with the text, what takes a hundred times as long with the square of the parts. It writes
# nothing into the checkout but the program.
set -eu
. "$(dirname -- "${BASH_SOURCE[0]}")/../common.sh"
find_program
# As the script `rvc` does: a chain of calls takes stack.
ulimit -S -s "$(ulimit -H -s)" 2>/dev/null || true
PYTHONDONTWRITEBYTECODE=1 python3 "$here/measure.py" "$program" "${1:-100}" "${@:2}"
