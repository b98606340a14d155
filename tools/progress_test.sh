#!/usr/bin/env bash
# Tries how the script `rvc` shows how far a run is, round a program that only pretends: it reads its input and writes its
# trace slowly.
#
#     tools/progress_test.sh [PROGRAM]
#
# With a built program it also shows the progress of a long replay.
set -u
top=$(readlink -f -- "$(dirname -- "$(readlink -f -- "${BASH_SOURCE[0]}")")/..")
program=${1:+$(readlink -f -- "$1")}
folder=$(mktemp -d) || exit 1
trap 'rm -rf "$folder"' EXIT
cd "$folder" || exit 1
passed=0
failed=0

# Counts whether what was found matches what is wanted.
judge() { # what is judged, found, wanted as a regular expression
    if [[ $2 =~ ^$3$ ]]; then
        passed=$((passed + 1))
    else
        failed=$((failed + 1))
        printf 'of %s: wanted %s, found %q\n' "$1" "$3" "$2"
    fi
}

# A copy of the script round this program.
pretend() { # program
    mkdir -p copy/crates/rvc_cli/out
    cp "$top/rvc" "$top/crates.txt" copy/
    cp -r "$top/tools" "$top/docs" copy/
    cp "$1" copy/crates/rvc_cli/out/rvc_cli
    touch copy/crates/rvc_cli/out/rvc.built
}

# Runs the copy, and keeps its status, its output and what it says beside.
run_copy() { # words
    output=$(./copy/rvc "$@" 2>errors)
    status=$?
    errors=$(<errors)
}

# The same on a terminal, whose lines end by carriage return and line feed, and begin anew by a carriage return.
run_on_terminal() { # words
    output=$(script -qec "./copy/rvc $*" /dev/null </dev/null)
    status=$?
}

cat >slow <<'TEXT'
#!/usr/bin/env bash
exec 3<in.bin 4>trace.txt
for ((k = 0; k < ${STEPS:-16}; k++)); do
    head -c 1000 <&3 >piece
    printf 'f 0 0\n%.0s' {1..100} >&4
    sleep 0.1
done
printf 'firings 1\nstalled 0 0 1\n'
exit 6
TEXT
chmod +x slow
head -c 16000 /dev/zero >in.bin
pretend slow
words=(run A.cal In=in.bin --trace trace.txt)
clear=$'\r\e\[K'
line='rvc: input [0-9]+ % of 16\.0 kB, trace [0-9.]+ (kB|bytes), [0-9,]+ lines/s, 0 min 01 s'
report=$'firings 1\nstalled 0 0 1'

RVC_PROGRESS=1 run_copy "${words[@]}"
judge 'a run' "$status $output $errors" "6 $report $line"
RVC_PROGRESS=1 RVC_EXPLAIN=1 run_copy "${words[@]}"
judge 'a run that may be explained' "$status $output $errors" "6 $report $line"
run_copy "${words[@]}"
judge 'a run that nobody looks at' "$status $output $errors" "6 $report "
RVC_PROGRESS=1 run_copy check A.cal In=in.bin --trace trace.txt
judge 'a check' "$status $output $errors" "6 $report "
STEPS=2 RVC_PROGRESS=1 run_copy "${words[@]}"
judge 'a short run' "$status $output $errors" "6 $report "
RVC_PROGRESS=1 run_copy run A.cal In=other.bin --trace other.txt
judge 'a run without positions' "$status $output $errors" "6 $report "
RVC_PROGRESS=1 run_copy replay A.cal In=in.bin --trace=trace.txt
judge 'a replay' "$status $output $errors" "6 $report ${line/trace/trace [0-9]+ % of}"
if command -v script >/dev/null; then
    report=$'firings 1\r\nstalled 0 0 1\r?\n?'
    run_on_terminal "${words[@]}"
    judge 'a run on a terminal' "$status $output" "6 $clear$line$clear$report"
    RVC_PROGRESS=0 run_on_terminal "${words[@]}"
    judge 'a terminal without progress' "$status $output" "6 $report"
fi
sleep 0.5
judge 'what is left' "$(pgrep -f "^bash $folder/copy/tools/progress" || true)" ''

if [[ $program ]]; then
    pretend "$program"
    cp -r "$top/examples" .
    cd examples || exit 1
    for ((k = 0; k < 3000; k++)); do cat block/in.bin; done >long.bin
    words=(block/Decoder.xdf Pairs=long.bin --trace trace.txt)
    RVC_PROGRESS=1 ../copy/rvc run "${words[@]}" >report 2>errors
    judge 'a long run' "$? $(tail -n 1 report) $(head -n 1 errors)" \
        '0 quiet rvc: input [0-9]+ % of 5\.1 MB, trace [0-9.]+ MB, [0-9,]+ lines/s, 0 min 01 s'
    RVC_PROGRESS=1 ../copy/rvc replay "${words[@]}" >report 2>errors
    judge 'a long replay' "$? $(tail -n 1 report) $(head -n 1 errors)" \
        '0 done rvc: input [0-9]+ % of 5\.1 MB, trace [0-9]+ % of 78\.[0-9] MB, [0-9,]+ lines/s, 0 min 01 s'
fi

printf '%d passed, %d failed\n' "$passed" "$failed"
[[ $failed -eq 0 ]]
