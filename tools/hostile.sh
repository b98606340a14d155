#!/usr/bin/env bash
# Tries on a built program what its users meet: full disks, closed pipes, names that are one file, FIFOs, files that change
# while they are read, few open files, little stack, memory and time, signals.
#
#     tools/hostile.sh PROGRAM [WORD ..]
#
# PROGRAM is `crates/rvc_cli/out/rvc_cli` or another program of these words, and not the script `rvc`, which raises limits
# before it starts the program. With words, the cases alone are tried whose names have one of them.
#
# Each case prints one line: `ok: CASE` if what is due was seen, or `open: CASE: what was seen; what is due`. `skipped:` says
# what can't be tried here: a full disk needs leave to mount one. The status is 0 if nothing is open, 1 if something is, and
# 2 if nothing could be tried. Nothing is written but below a folder of its own, which is removed at the end.
set -u

if [[ $# -lt 1 ]] || ! program=$(command -v -- "$1"); then
    echo "usage: tools/hostile.sh PROGRAM [WORD ..]" >&2
    exit 2
fi
program=$(readlink -f -- "$program")
shift
wanted=("$@")
room=$(mktemp -d) || exit 2
disk=
clean() {
    [[ -z $disk ]] || umount "$disk" 2>/dev/null
    rm -rf "$room"
}
trap clean EXIT
passed=0
open=0
skipped=0
# The most seconds of a case. A program that goes on after them is stopped, and its status is 124.
patience=${RVC_PATIENCE:-120}

inc='actor Inc() uint(size=8) In ==> uint(size=8) Out : action In:[a] ==> Out:[a + 1] end end'
byte="<Type name='uint'><Entry kind='Expr' name='size'><Expr kind='Literal' literal-kind='Integer' value='8'/></Entry></Type>"

# --- What a case is made of ---

# Whether a case is asked for. If it is, begins it in a fresh folder, with an actor, an input of three bytes and one of
# 200,000, whose trace has 1,200,000.
begin() { # the case
    case=$1
    local word found=no
    [[ ${#wanted[@]} -eq 0 ]] && found=yes
    for word in "${wanted[@]}"; do
        [[ $case == *"$word"* ]] && found=yes
    done
    [[ $found == yes ]] || return 1
    cd "$room" && rm -rf work && mkdir work && cd work || exit 2
    printf '%s' "$inc" >Inc.cal
    printf '\0\1\377' >in
    head -c 200000 /dev/zero >long
    status= last=
}

ok() {
    passed=$((passed + 1))
    printf 'ok: %s\n' "$case"
}

differs() { # what was seen, what is due
    open=$((open + 1))
    printf 'open: %s: %s; due: %s\n' "$case" "$1" "$2"
}

skip() { # why
    skipped=$((skipped + 1))
    printf 'skipped: %s: %s\n' "$case" "$1"
}

# Runs the program with words, the report in `report`, and sets `status` and `last`, the last line of the report.
run() {
    timeout -s KILL "$patience" "$program" "$@" >report 2>errors </dev/null
    status=$?
    last=$(tail -n 1 report | tr -d '\0')
}

# What was seen: the status, the last line, and the first line on standard error if there is any.
seen() {
    local signal=
    [[ $status -gt 128 ]] && signal=" (signal $((status - 128)))"
    printf 'status %s%s, `%s`' "$status" "$signal" "$last"
    [[ -s errors ]] && printf ', and on standard error `%s`' "$(head -n 1 errors)"
}

# The status and the last line are these, and the conditions hold, each of which is a command.
due() { # status, last line, conditions ..
    local want_status=$1 want_last=$2 condition
    shift 2
    if [[ $status != "$want_status" || $last != "$want_last" ]]; then
        differs "$(seen)" "status $want_status, \`$want_last\`"
        return
    fi
    for condition; do
        if ! eval "$condition"; then
            differs "$(seen), but not: $condition" "status $want_status, \`$want_last\`, and $condition"
            return
        fi
    done
    ok
}

# A file holds the first bytes of another.
prefix() {
    [[ -e $1 ]] && cmp -s -n "$(stat -c %s -- "$1")" -- "$1" "$2"
}

bytes() { # a file
    stat -c %s -- "$1"
}

port() { # Input or Output, name
    printf "<Port kind='%s' name='%s'>%s</Port>" "$1" "$2" "$byte"
}

instance() { # id, class
    printf "<Instance id='%s'><Class name='%s'/></Instance>" "$1" "$2"
}

connection() { # from, its port, to, its port
    printf "<Connection src='%s' src-port='%s' dst='%s' dst-port='%s'/>" "$1" "$2" "$3" "$4"
}

# A network whose input leads to so many actors, of which the first have outputs of their own, O0, O1 ..
fork() { # how many actors, how many outputs
    local k
    printf "<XDF name='Fork'>"
    port Input In
    for ((k = 0; k < $2; k++)); do port Output "O$k"; done
    for ((k = 0; k < $1; k++)); do instance "a$k" Inc; done
    for ((k = 0; k < $1; k++)); do connection '' In "a$k" In; done
    for ((k = 0; k < $2; k++)); do connection "a$k" Out '' "O$k"; done
    printf '</XDF>'
}

# What an undisturbed run writes, for comparison: `whole.out`, `whole.trace` and `whole.report`.
whole() { # words, with Out=whole.out --trace whole.trace
    run "$@" Out=whole.out --trace whole.trace
    cp report whole.report
    [[ $status -eq 0 ]] || echo "an undisturbed run ended with $(seen)" >&2
}

# --- Disks ---

if begin 'full disk, the output'; then
    whole run Inc.cal In=long
    mkdir disk
    if mount -t tmpfs -o size=100k none disk 2>/dev/null; then
        disk=$PWD/disk
        run run Inc.cal In=long Out=disk/out --trace trace
        due 3 'write fault 2' 'prefix disk/out whole.out' 'prefix trace whole.trace' '[[ $(bytes disk/out) -gt 0 ]]'
        umount disk && disk=
    else
        skip 'no leave to mount'
    fi
fi
if begin 'full disk, the trace'; then
    whole run Inc.cal In=long
    mkdir disk
    if mount -t tmpfs -o size=100k none disk 2>/dev/null; then
        disk=$PWD/disk
        run run Inc.cal In=long Out=out --trace disk/trace
        due 3 'write fault 1' 'prefix disk/trace whole.trace' 'prefix out whole.out' '[[ $(bytes disk/trace) -gt 0 ]]'
        umount disk && disk=
    else
        skip 'no leave to mount'
    fi
fi
if begin 'full device, the output'; then
    run run Inc.cal In=in Out=/dev/full --trace trace
    due 3 'write fault 2'
fi
if begin 'full device, the trace'; then
    run run Inc.cal In=in Out=out --trace /dev/full
    due 3 'write fault 1'
fi
if begin 'full device, the report'; then
    "$program" run Inc.cal In=in Out=out --trace trace >/dev/full 2>errors
    status=$? last=
    due 3 '' '[[ $(bytes out) -eq 3 ]]' '[[ $(tail -n 1 trace) == q ]]'
fi
if begin 'full device, the text of fmt'; then
    "$program" fmt Inc.cal >/dev/full 2>errors
    status=$? last=
    due 3 ''
fi
if begin 'a limit on the size of files'; then
    whole run Inc.cal In=long
    { (ulimit -f 100 && exec timeout -s KILL "$patience" "$program" run Inc.cal In=long Out=out --trace trace) >report 2>errors; } 2>/dev/null
    status=$? last=$(tail -n 1 report)
    # The system ends the program by a signal, unless it was started with that signal ignored.
    [[ $status -eq 153 ]] && status='153 (signal 25)'
    due '153 (signal 25)' '' 'prefix out whole.out' 'prefix trace whole.trace'
fi
if begin 'a limit on the size of files, its signal ignored'; then
    whole run Inc.cal In=long
    (trap '' XFSZ && ulimit -f 100 && exec timeout -s KILL "$patience" "$program" run Inc.cal In=long Out=out --trace trace) >report 2>errors
    status=$? last=$(tail -n 1 report)
    due 3 'write fault 1' 'prefix out whole.out' 'prefix trace whole.trace'
fi

# --- Pipes and standard streams ---

many() {
    printf 'actor Many() ==> : '
    for ((k = 0; k < 20000; k++)); do printf 'int v%d = %d; ' "$k" "$k"; done
    printf 'end'
}

# The program isn't ended by the signal that says that nobody reads: it goes on to its report.
if begin 'a closed pipe, the text of fmt'; then
    many >Many.cal
    timeout -s KILL "$patience" "$program" fmt Many.cal 2>errors | head -c 20 >report
    status=${PIPESTATUS[0]} last=$(tail -n 1 report)
    due 3 'actor Many ( ) ==> :' '[[ ! -s errors ]]'
fi
if begin 'a closed pipe, the trace'; then
    mkfifo pipe
    whole run Inc.cal In=long
    (head -c 100 pipe >begun) &
    run run Inc.cal In=long Out=out --trace pipe
    wait
    due 3 'write fault 1' 'prefix begun whole.trace' 'prefix out whole.out'
fi
if begin 'standard input closed'; then
    "$program" run Inc.cal In=in Out=out --trace trace >report 2>errors <&-
    status=$? last=$(tail -n 1 report)
    due 0 'quiet' '[[ $(bytes out) -eq 3 ]]'
fi
if begin 'standard output closed, a run'; then
    "$program" run Inc.cal In=in Out=out --trace trace >&- 2>errors
    status=$? last=
    due 3 '' '[[ $(bytes out) -eq 3 ]]' '[[ $(tail -n 1 trace) == q ]]'
fi
if begin 'standard output closed, a run without inputs'; then
    "$program" run Inc.cal Out=out --trace trace >&- 2>errors
    status=$? last=
    due 3 '' '[[ $(tail -n 1 trace) == q ]]'
fi
if begin 'standard output closed, the text of fmt'; then
    "$program" fmt Inc.cal >&- 2>errors
    status=$? last=
    due 3 '' '[[ $(<Inc.cal) == "$inc" ]]'
fi
if begin 'standard input and output closed, a check'; then
    "$program" check Inc.cal >&- 2>errors <&-
    status=$? last=
    due 3 '' '[[ $(<Inc.cal) == "$inc" ]]'
fi
if begin 'standard streams closed'; then
    "$program" gen 1 Out=out --trace trace >&- 2>&- <&-
    status=$? last=
    : >errors
    due 3 '' '[[ $(bytes out) -eq 1024 ]]' '[[ $(tail -n 1 trace) == q ]]'
fi

# --- Names that are one file, or none ---

if begin 'the output is the input'; then
    run run Inc.cal In=in Out=in --trace trace
    due 3 'write fault 2' '[[ $(bytes in) -eq 3 ]]'
fi
if begin 'the output is a link to the input'; then
    ln -s in other
    run run Inc.cal In=in Out=other --trace trace
    due 3 'write fault 2' '[[ $(bytes in) -eq 3 ]]'
fi
if begin 'the output is a second name of the input'; then
    ln in other
    run run Inc.cal In=in Out=other --trace trace
    due 3 'write fault 2' '[[ $(bytes in) -eq 3 ]]'
fi
if begin 'the trace is the input'; then
    run run Inc.cal In=in Out=out --trace in
    due 3 'write fault 1' '[[ $(bytes in) -eq 3 ]]'
fi
if begin 'the trace is the source'; then
    run run Inc.cal In=in Out=out --trace Inc.cal
    due 3 'write fault 1' '[[ $(<Inc.cal) == "$inc" ]]'
fi
if begin 'the output is the trace'; then
    run run Inc.cal In=in Out=both --trace both
    due 3 'write fault 2'
fi
if begin 'two outputs of one name'; then
    fork 2 2 >Fork.xdf
    run run Fork.xdf In=in O0=both O1=both --trace trace
    due 3 'write fault 3'
fi
if begin 'the output is the file of the report'; then
    run run Inc.cal In=in Out=report --trace trace
    due 3 'write fault 2' '[[ $(bytes in) -eq 3 ]]'
fi
if begin 'the output of a check that is redirected to a source'; then
    "$program" check Inc.cal >>Inc.cal 2>errors
    status=$? last=$(tail -n 1 Inc.cal)
    due 0 'done' '[[ $(head -c ${#inc} Inc.cal) == "$inc" ]]'
fi
if begin 'an output that was there before'; then
    printf 'before and longer' >out
    run run Inc.cal In=in Out=out --trace trace
    due 0 'quiet' '[[ $(bytes out) -eq 3 ]]'
fi
if begin 'the output is a folder'; then
    run run Inc.cal In=in Out=. --trace trace
    due 3 'write fault 2' '[[ $(bytes trace) -eq 0 ]]'
fi
if begin 'the trace is a folder'; then
    run run Inc.cal In=in Out=out --trace .
    due 3 'write fault 1' '[[ ! -e out ]]'
fi
if begin 'the output lies in no folder'; then
    run run Inc.cal In=in Out=none/out --trace trace
    due 3 'write fault 2'
fi
if begin 'the input is a folder'; then
    run run Inc.cal In=. Out=out --trace trace
    due 2 'read fault .' '[[ $(bytes out) -eq 0 ]]'
fi
if begin 'the input is missing'; then
    run run Inc.cal In=none Out=out --trace trace
    due 2 'read fault none' '[[ ! -e trace && ! -e out ]]'
fi
if begin 'the source is a folder'; then
    mkdir Folder.cal
    run check Folder.cal
    due 2 'read fault Folder.cal'
fi
if begin 'the source leads round in links'; then
    ln -s Round.cal Round.cal
    run check Round.cal
    due 2 'read fault Round.cal'
fi
if begin 'a name of 5,000 letters'; then
    name=$(head -c 5000 /dev/zero | tr '\0' a)
    run run Inc.cal In=in Out="$name" --trace trace
    due 3 'write fault 2'
fi
if begin 'a name that is no text'; then
    run run Inc.cal In=in Out=$'\377' --trace trace
    last=$(head -n 1 report)
    due 1 'usage words' '[[ ! -e trace ]]'
fi
if begin 'a top outside of the folder'; then
    run check ../work/Inc.cal
    last=$(head -n 1 report)
    due 1 'usage top'
fi
if begin 'nothing goes nowhere'; then
    run run Inc.cal In=/dev/null Out=/dev/null --trace /dev/null
    due 0 'quiet' 'grep -q "in In 0 tokens 0 rest 0" report'
fi
if begin 'all goes nowhere'; then
    run run Inc.cal In=long Out=/dev/null --trace /dev/null
    due 0 'quiet' 'grep -q "out Out tokens 200000" report'
fi

# --- FIFOs, endless files and files that change ---

if begin 'the input is a FIFO'; then
    whole run Inc.cal In=long
    mkfifo pipe
    (cat long >pipe) &
    run run Inc.cal In=pipe Out=out --trace trace
    wait
    due 0 'quiet' 'cmp -s out whole.out' 'cmp -s trace whole.trace'
fi
if begin 'the input is a FIFO that gives byte after byte'; then
    whole run Inc.cal In=in
    mkfifo pipe
    (printf '\0'; sleep 0.2; printf '\1'; sleep 0.2; printf '\377') >pipe &
    run run Inc.cal In=pipe Out=out --trace trace
    wait
    due 0 'quiet' 'cmp -s out whole.out' 'cmp -s trace whole.trace'
fi
if begin 'the output is a FIFO'; then
    whole run Inc.cal In=long
    mkfifo pipe
    (cat pipe >out) &
    run run Inc.cal In=long Out=pipe --trace trace
    wait
    due 0 'quiet' 'cmp -s out whole.out'
fi
if begin 'the source is a FIFO'; then
    mkfifo Pipe.cal
    (printf 'actor Pipe() ==> : end' >Pipe.cal) &
    run check Pipe.cal
    wait
    due 0 'done'
fi
if begin 'the source is endless'; then
    ln -s /dev/zero Zero.cal
    run check Zero.cal
    due 4 'refused Z1 Zero.cal 1048576'
fi
if begin 'the trace to replay is endless'; then
    run replay Inc.cal In=in --trace /dev/zero
    due 9 'not a run 1 Form'
fi
if begin 'the input is endless'; then
    run run Inc.cal In=/dev/zero Out=out --trace trace --budget 100000
    due 7 'budget 100000' '[[ $(bytes out) -eq 100000 ]]'
fi
if begin 'the input shrinks while it is read'; then
    head -c 2000000 /dev/zero >input
    (sleep 0.05; truncate -s 100 input) &
    run run Inc.cal In=input Out=out --trace trace
    wait
    tokens=$(sed -n 's/^in In 0 tokens \([0-9]*\) rest 0$/\1/p' report)
    due 0 'quiet' '[[ $(bytes out) -eq $tokens ]]' '[[ $(tail -n 1 trace) == q ]]' '[[ $tokens -le 2000000 ]]'
fi
if begin 'the trace shrinks while it is replayed'; then
    head -c 500000 /dev/zero >input
    run run Inc.cal In=input Out=out --trace trace
    (sleep 0.05; truncate -s 70001 trace) &
    run replay Inc.cal In=input --trace trace
    wait
    # It was read before it shrank, or it breaks off in its last line, or behind one.
    [[ $last == done ]] && status=9
    [[ $last =~ ^(done|not\ a\ run\ [0-9]+\ (Form|Cut))$ ]] && last='done, or not a run'
    due 9 'done, or not a run'
fi

# --- Few files, little stack, memory and processors ---

if begin 'few open files, many inputs'; then
    fork 100 0 >Fork.xdf
    (ulimit -n 30 && exec "$program" run Fork.xdf In=in --trace trace) >report 2>errors
    status=$? last=$(tail -n 1 report)
    due 2 'read fault in' '[[ ! -e trace ]]'
fi
if begin 'few open files, many outputs'; then
    fork 32 32 >Fork.xdf
    words=()
    for ((k = 0; k < 32; k++)); do words+=("O$k=o$k"); done
    (ulimit -n 20 && exec "$program" run Fork.xdf "${words[@]}" --trace trace) >report 2>errors
    status=$? last=$(tail -n 1 report | sed 's/[0-9]*$/N/')
    due 3 'write fault N' '[[ $(bytes trace) -eq 0 ]]'
fi
if begin 'many open files'; then
    fork 1000 32 >Fork.xdf
    words=()
    for ((k = 0; k < 32; k++)); do words+=("O$k=o$k"); done
    if (ulimit -n 1100) 2>/dev/null; then
        (ulimit -n 1100 && exec timeout -s KILL "$patience" "$program" run Fork.xdf In=in "${words[@]}" --trace trace) >report 2>errors
        status=$? last=$(tail -n 1 report)
        due 0 'quiet' '[[ $(bytes o31) -eq 3 ]]' '[[ $(grep -c "^in In [0-9]* tokens 3 rest 0" report) -eq 1000 ]]'
    else
        skip 'no leave for 1,100 open files'
    fi
fi
if begin 'few threads'; then
    whole gen 4
    if [[ $(id -u) -ne 0 ]]; then
        (ulimit -u 1 && exec "$program" gen 4 Out=out --trace trace --workers 64) >report 2>errors
        status=$? last=$(tail -n 1 report)
        due 0 'quiet' 'cmp -s out whole.out' 'cmp -s trace whole.trace'
    else
        skip 'the limit on threads does not bind this user'
    fi
fi
for megabytes in 4 8 16 32 64 128 256 512; do
    if begin "little memory, $megabytes MB"; then
        whole gen 100
        (ulimit -v $((megabytes * 1024)) && exec timeout -s KILL "$patience" "$program" gen 100 Out=out --trace trace --grow 20000) >report 2>errors
        status=$? last=$(tail -n 1 report)
        if [[ $status -eq 8 && $last == 'out of memory' && ! -e trace && ! -e out ]]; then
            ok
        elif [[ $status -eq 0 && $last == quiet ]] && cmp -s out whole.out; then
            ok
        elif [[ $status -eq 127 || $status -eq 126 ]] || grep -q 'shared object\|error while loading' errors; then
            skip 'the program itself is larger'
        else
            differs "$(seen)" 'status 8, `out of memory`, and no trace; or the answer'
        fi
    fi
done

# A source under a small stack gets an answer: `done`, or one of a rule.
answers() { # stack in KB, words ..
    local stack=$1
    shift
    { (ulimit -s "$stack" && exec timeout -s KILL "$patience" "$program" "$@") >report 2>errors </dev/null; } 2>/dev/null
    status=$? last=$(tail -n 1 report | cut -c 1-80)
    if [[ $status -eq 0 || $status -eq 4 || $status -eq 7 ]]; then
        ok
    else
        differs "$(seen)" 'an answer'
    fi
}

deep() { # the case, a command that prints the source of the actor Deep, words ..
    local name=$1 source=$2 stack
    shift 2
    for stack in 1024 8192; do
        if begin "$name, $((stack / 1024)) MB of stack"; then
            eval "$source" >Deep.cal
            answers "$stack" "$@"
        fi
    done
}

generators() {
    printf 'actor Deep() ==> : List(type:int, size=1) l = [a0 : for int a0 in 0 .. 0'
    for ((k = 1; k < 20000; k++)); do printf ', for int a%d in 0 .. 0' "$k"; done
    printf ']; end'
}
chain() {
    printf 'actor Deep() ==> : function f0(int x) --> int : x end '
    for ((k = 1; k < 18000; k++)); do printf 'function f%d(int x) --> int : f%d(x) end ' "$k" $((k - 1)); done
    printf 'int v := f%d(1); end' 17999
}
constants() {
    printf 'actor Deep() ==> : int c0 = 1; '
    for ((k = 1; k < 40000; k++)); do printf 'int c%d = c%d; ' "$k" $((k - 1)); done
    printf 'end'
}
backwards() {
    printf 'actor Deep() ==> : '
    for ((k = 39999; k > 0; k--)); do printf 'int c%d = c%d; ' "$k" $((k - 1)); done
    printf 'int c0 = 1; end'
}
procedures() {
    printf 'actor Deep() ==> : procedure p0() begin end '
    for ((k = 1; k < 20000; k++)); do printf 'procedure p%d() begin p%d(); end ' "$k" $((k - 1)); done
    printf 'action ==> do p%d(); end end' 19999
}
parentheses() { # how many
    printf 'actor Deep() ==> : int v = '
    head -c "$1" /dev/zero | tr '\0' '('
    printf '1'
    head -c "$1" /dev/zero | tr '\0' ')'
    printf '; end'
}
operators() {
    printf 'actor Deep() ==> : int v = '
    for ((k = 0; k < 250000; k++)); do printf -- '- '; done
    printf '1; end'
}
sums() {
    printf 'actor Deep() ==> : int v = 1'
    for ((k = 0; k < 250000; k++)); do printf ' + 1'; done
    printf '; end'
}
lists() {
    printf 'actor Deep() ==> : int v = '
    head -c 400000 /dev/zero | tr '\0' '['
    printf '; end'
}
conditionals() {
    printf 'actor Deep() ==> : action ==> do '
    for ((k = 0; k < 30000; k++)); do printf 'if true then '; done
    for ((k = 0; k < 30000; k++)); do printf 'end '; done
    printf 'end end'
}
branches() {
    printf 'actor Deep() ==> : int v = '
    for ((k = 0; k < 20000; k++)); do printf 'if true then 1 else '; done
    printf '1 '
    for ((k = 0; k < 20000; k++)); do printf 'end '; done
    printf '; end'
}
types() {
    printf 'actor Deep() ==> : '
    for ((k = 0; k < 30000; k++)); do printf 'List(type:'; done
    printf 'int v; end'
}
deep '20,000 generators' generators check Deep.cal
deep 'a chain of 18,000 functions' chain check Deep.cal
deep 'a chain of 40,000 constants' constants check Deep.cal
deep 'a chain of 40,000 constants backwards' backwards check Deep.cal
deep 'a chain of 20,000 procedures' procedures check Deep.cal
deep 'a chain of 18,000 functions, certified' chain certify Deep.cal
deep 'a chain of 18,000 functions, run' chain run Deep.cal --trace trace
deep 'a chain of 20,000 procedures, run' procedures run Deep.cal --trace trace --budget 10
deep '255 pairs of parentheses' 'parentheses 255' check Deep.cal
deep '500,000 pairs of parentheses' 'parentheses 500000' check Deep.cal
deep '500,000 pairs of parentheses, printed' 'parentheses 500000' fmt Deep.cal
deep '250,000 signs' operators check Deep.cal
deep 'a sum of 250,000 numbers' sums check Deep.cal
deep '400,000 lists in one another' lists check Deep.cal
deep '30,000 statements in one another' conditionals check Deep.cal
deep '20,000 conditions in one another' branches check Deep.cal
deep '30,000 types in one another' types check Deep.cal
deep '20,000 generators, printed' generators fmt Deep.cal

for stack in 1024 8192; do
    if begin "1,000 networks in one another, $((stack / 1024)) MB of stack"; then
        for ((k = 0; k < 1000; k++)); do
            { printf "<XDF name='N%d'>" "$k"; instance a "N$((k + 1))"; printf '</XDF>'; } >"N$k.xdf"
        done
        printf "<XDF name='N1000'/>" >N1000.xdf
        answers "$stack" check N0.xdf
    fi
    if begin "1,000 units that import one another, $((stack / 1024)) MB of stack"; then
        for ((k = 0; k < 1000; k++)); do
            printf 'import U%d.*; unit U%d : int c%d = c%d; end' $((k + 1)) "$k" "$k" $((k + 1)) >"U$k.cal"
        done
        printf 'unit U1000 : int c1000 = 1; end' >U1000.cal
        printf 'import U0.*; actor Deep() ==> : int v = c0; end' >Deep.cal
        answers "$stack" check Deep.cal
    fi
    if begin "100,000 elements in one another, $((stack / 1024)) MB of stack"; then
        {
            printf "<XDF name='Deep'><Attribute name='x'>"
            for ((k = 0; k < 100000; k++)); do printf '<x>'; done
            for ((k = 0; k < 100000; k++)); do printf '</x>'; done
            printf '</Attribute></XDF>'
        } >Deep.xdf
        answers "$stack" check Deep.xdf
    fi
    if begin "20,000 expressions in one another, $((stack / 1024)) MB of stack"; then
        {
            printf "<XDF name='Deep'><Instance id='a'><Class name='A'/><Parameter name='k'>"
            for ((k = 0; k < 20000; k++)); do printf "<Expr kind='List'>"; done
            for ((k = 0; k < 20000; k++)); do printf '</Expr>'; done
            printf '</Parameter></Instance></XDF>'
        } >Deep.xdf
        answers "$stack" check Deep.xdf
    fi
    if begin "a row of 10,000 operands, $((stack / 1024)) MB of stack"; then
        {
            printf "<XDF name='Deep'><Instance id='a'><Class name='A'/><Parameter name='k'><Expr kind='BinOpSeq'><Expr kind='Var' name='v'/>"
            for ((k = 0; k < 10000; k++)); do printf "<Op name='+'/><Expr kind='Var' name='v'/>"; done
            printf '</Expr></Parameter></Instance></XDF>'
        } >Deep.xdf
        answers "$stack" check Deep.xdf
    fi
    if begin "a row of 1,000 instances and 64 workers, $((stack / 1024)) MB of stack"; then
        answers "$stack" gen 1000 --trace trace --workers 64 --budget 100000
    fi
done

# --- Time ---

# More firings than 32 bits count take some minutes: tried if RVC_LONG is 1.
if [[ ${RVC_LONG-} == 1 ]] && begin 'a run of 4,294,967,297 firings'; then
    printf 'actor Ever() ==> : action ==> end end' >Ever.cal
    patience=7200
    run run Ever.cal --trace /dev/null --budget 4294967297 --burst 65536
    due 7 'budget 4294967297' 'grep -q "^firings 4294967297$" report'
fi

# --- Signals ---

# Ends a run by a signal after a moment. What it had written is the beginning of what it would have.
interrupted() { # signal, its number
    head -c 3000000 /dev/zero >input
    timeout -s KILL "$patience" "$program" run Inc.cal In=input Out=whole.out --trace whole.trace >whole.report 2>errors
    "$program" run Inc.cal In=input Out=out --trace trace >report 2>errors &
    local pid=$! k
    for ((k = 0; k < 500; k++)); do
        [[ -s trace && $(bytes trace) -gt 100000 ]] && break
        sleep 0.01
    done
    kill -s "$1" "$pid"
    wait "$pid" 2>/dev/null
    status=$? last=$(tail -n 1 report)
    due $((128 + $2)) '' 'prefix trace whole.trace' 'prefix out whole.out' '[[ $(bytes trace) -lt $(bytes whole.trace) ]]'
}

# A background job of a script ignores this signal, and a program begun so keeps it ignored: so it is begun by one that
# doesn't.
if begin 'an interrupt (SIGINT)'; then
    if command -v python3 >/dev/null; then
        head -c 3000000 /dev/zero >input
        timeout -s KILL "$patience" "$program" run Inc.cal In=input Out=whole.out --trace whole.trace >whole.report 2>errors
        python3 - "$program" <<'PYTHON'
import os, signal, subprocess, sys, time
signal.signal(signal.SIGINT, signal.SIG_DFL)
words = [sys.argv[1], 'run', 'Inc.cal', 'In=input', 'Out=out', '--trace', 'trace']
run = subprocess.Popen(words, stdout=open('report', 'wb'), stderr=open('errors', 'wb'),
                       preexec_fn=lambda: signal.signal(signal.SIGINT, signal.SIG_DFL))
for _ in range(500):
    if os.path.exists('trace') and os.path.getsize('trace') > 100000:
        break
    time.sleep(0.01)
run.send_signal(signal.SIGINT)
code = run.wait()
open('code', 'w').write(str(128 - code if code < 0 else code))
PYTHON
        status=$(<code) last=$(tail -n 1 report)
        due 130 '' 'prefix trace whole.trace' 'prefix out whole.out' '[[ $(bytes trace) -lt $(bytes whole.trace) ]]'
        run replay Inc.cal In=input --trace trace
        case='the trace of an interrupted run, replayed'
        # The trace breaks off where a piece of 65,536 bytes ends: in a line, or behind one.
        [[ $last =~ ^not\ a\ run\ [0-9]+\ (Form|Cut)$ ]] && last='not a run'
        due 9 'not a run'
    else
        skip 'no python3'
    fi
fi
if begin 'an end by SIGTERM'; then
    interrupted TERM 15
fi
if begin 'an end by SIGKILL'; then
    interrupted KILL 9
fi

printf '%s as due, %s open, %s skipped\n' "$passed" "$open" "$skipped"
[[ $open -eq 0 ]]
