#!/usr/bin/env bash
# Compares the sentences of docs/RULES.md with those of the table of rules in the code, gives reports to tools/explain and
# words to the script `rvc` round a program that only pretends, and then runs `rvc` on small sources that break a rule, on
# actors that aren't certified, runs that trap or stall and traces of no run, and compares what it explains with what is
# wanted.
#
#     tools/explain_test.sh [--without-program]
#
# The last part needs the built program, so it is outside the gate. It is left out with --without-program.
set -u
top=$(readlink -f -- "$(dirname -- "$(readlink -f -- "${BASH_SOURCE[0]}")")/..")
rvc=$top/rvc
folder=$(mktemp -d) || exit 1
trap 'rm -rf "$folder"' EXIT
cd "$folder" || exit 1
printf 'actor Inc() uint(size=8) In ==> uint(size=8) Out : action In:[a] ==> Out:[a + 1] end end' >Inc.cal
printf '\0' >a.bin
passed=0
failed=0

# Each rule of the table in docs/RULES.md has the sentence of the table in the code.
same_sentences() {
    local rule sentence
    while IFS=$'\t' read -r rule sentence; do
        if grep -qxF "    /// $rule: $sentence." "$top/crates/rvc_base/src/rules.rt"; then
            passed=$((passed + 1))
        else
            failed=$((failed + 1))
            printf 'of %s: the code has another sentence than docs/RULES.md\n' "$rule"
        fi
    done < <(awk -F ' *[|] *' '$2 ~ /^[A-Z][0-9]+$/ && NF == 6 { print $2 "\t" $3 }' "$top/docs/RULES.md")
}

# Each rule of the table in the code has a row in docs/RULES.md.
all_rules() {
    local rule
    while read -r rule; do
        if grep -q "^| $rule |" "$top/docs/RULES.md"; then
            passed=$((passed + 1))
        else
            failed=$((failed + 1))
            printf 'of %s: docs/RULES.md has no row\n' "$rule"
        fi
    done < <(sed -n -E 's|^    /// ([A-Z][0-9]+): .*|\1|p' "$top/crates/rvc_base/src/rules.rt")
}

# Counts whether what was found is what is wanted.
judge() { # what is judged, found, wanted
    if [[ $2 == "$3" ]]; then
        passed=$((passed + 1))
    else
        failed=$((failed + 1))
        printf 'of %s: wanted\n%s\nfound\n%s\n' "$1" "$3" "$2"
    fi
}

# A report is explained in one line.
shortly() { # report, wanted, words
    local report=$1 wanted=$2
    shift 2
    judge "$report" "$(printf '%s\n' "$report" | "$top/tools/explain" --short "$@")" "$wanted"
}

# What editors read: reports of places in files, at ends of files and lines, in files that aren't there, and in words.
short_lines() {
    printf 'unit U :\nint X = ; end' >Short.cal
    shortly 'refused G1 Short.cal 17' \
        'Short.cal:2:9: error[G1]: the tokens spell no file; an expression is missing behind `=`'
    shortly 'refused G1 Short.cal 0' \
        'Short.cal:1:1: error[G1]: the tokens spell no file; compare what is before the place with the grammar, and write there what may follow'
    shortly 'refused L5 Short.cal 8' 'Short.cal:1:9: error[L5]: a string literal; leave it out: this profile has no strings'
    shortly 'refused L2 Short.cal 99' 'Short.cal:2:14: error[L2]: a comment is never closed; write `*/` where it ends'
    shortly 'refused L5 a b.cal 8' 'a b.cal:1:1: error[L5]: a string literal; leave it out: this profile has no strings'
    shortly 'refused P1 words 0' \
        'rvc: error[P1]: a port word names no port that the command opens, in the word O=b; there is no port `O`: is `Out` meant?' \
        run Inc.cal O=b --trace t
    shortly 'usage trace' \
        'rvc: error[usage]: the verb needs a trace, and none is named; docs/FORMATS.md lists the words that each verb takes, and `rvc --help` shows them'
    shortly 'usage trace' \
        'rvc: error[usage]: the verb needs a trace, and none is named; add `--trace FILE`, the file that `run` writes the trace to; docs/FORMATS.md lists the words that each verb takes, and `rvc --help` shows them' \
        run Inc.cal
    shortly 'quiet' ''
    shortly 'done' ''
    shortly 'budget 7' ''
    # What the numbers name, as far as it is known: nothing of it, or all.
    shortly 'trapped 3 1 IndexRange' \
        'rvc: error[IndexRange]: an index lies outside its list; instance 3; action 1; count from 0: the last item of n has the index n - 1; both bounds of a `foreach` are inside' \
        run No.cal --trace t
    shortly 'trapped 0 0 Overflow' \
        'Inc.cal:1:52: error[Overflow]: a number needs more than 128 bits; instance 0 is `Inc`; action 0 is that of line 1; store what grows in a variable of a type, which keeps its lowest bits, or compare it before it is used' \
        run Inc.cal --trace t
    shortly 'stalled 9 9 9' \
        'rvc: error[stalled]: each instance waits, and one that has its tokens lacks room on a link; instance 9; action 9; give the `Connection` of the link a greater `bufferSize`, or the run `--grow N`' \
        run Inc.cal --trace t
    shortly 'uncertified 0 7 8 9 C3' \
        'rvc: error[C3]: a guard calls a function or computes a list, and neither is looked into; instance 0 is `Inc`; action 8; action 9; write the test out, or let an action that fires before keep its answer in a variable' \
        certify Inc.cal
    shortly 'not a run 3 Trap' \
        'no:3:1: error[Trap]: the action traps there, or the trap that the line tells doesn'"'"'t come; name the inputs of that run, and the sources as they were in it' \
        replay Inc.cal --trace no
    shortly 'trapped' ''
    shortly 'stalled x' 'rvc: error[stalled]: each instance waits, and one that has its tokens lacks room on a link; give the `Connection` of the link a greater `bufferSize`, or the run `--grow N`'
    shortly 'not a run' ''
    shortly 'refused X9 Short.cal 1' ''
    # A place per line for each rule with one.
    local rule
    while read -r rule; do
        if [[ $(echo "refused $rule Short.cal 3" | "$top/tools/explain" --short) == "Short.cal:1:4: error[$rule]: "*'; '* ]]; then
            passed=$((passed + 1))
        else
            failed=$((failed + 1))
            echo "of $rule: it has no short line"
        fi
    done < <(awk -F ' *[|] *' '$2 ~ /^[A-Z][0-9]+$/ && NF == 6 { print $2 }' "$top/docs/RULES.md")
}

# Each cause that an end of a run, a replay or a certification may have is explained.
all_ends() {
    local cause
    for cause in C1 C2 C3 C4 Overflow DivideByZero IndexRange ShiftRange TurnLimit Form Header NotExposed NoRoom Trap End \
        After Cut TooLong; do
        case $cause in
        C?) line="uncertified 0 0 0 0 $cause" ;;
        *Range | *Zero | Overflow | TurnLimit) line="trapped 0 0 $cause" ;;
        *) line="not a run 1 $cause" ;;
        esac
        if [[ $(echo "$line" | "$top/tools/explain" --short check Inc.cal) == *": error[$cause]: "*'; '* ]]; then
            passed=$((passed + 1))
        else
            failed=$((failed + 1))
            echo "of $cause: it has no explanation"
        fi
    done
}

# Without Python, and where sources are hostile, the tables speak: nothing fails, and nothing takes long.
bare_tables() {
    local found tool
    mkdir -p bare
    for tool in bash awk dirname readlink cat tail timeout; do
        ln -sf "$(command -v "$tool")" "bare/$tool"
    done
    found=$(echo 'refused T4 Inc.cal 6' | PATH=$folder/bare "$top/tools/explain" --short check Inc.cal 2>&1)
    judge 'a refusal without Python' "$found" 'Inc.cal:1:7: error[T4]: a constant is assigned; declare it with `:=`, so that it changes; of a token or a parameter change a copy'
    found=$(echo 'trapped 0 0 Overflow' | PATH=$folder/bare "$top/tools/explain" --short run Inc.cal --trace t 2>&1)
    judge 'a trap without Python' "$found" 'rvc: error[Overflow]: a number needs more than 128 bits; store what grows in a variable of a type, which keeps its lowest bits, or compare it before it is used'
    # 2 to the power of 40 calls.
    printf 'actor Slow() int(size=f39(1)) In ==> :\nfunction f0(int a) --> int : a end\n' >Slow.cal
    for tool in {1..39}; do
        printf 'function f%d(int a) --> int : f%d(a) + f%d(a) end\n' "$tool" $((tool - 1)) $((tool - 1)) >>Slow.cal
    done
    echo 'action In:[x] ==> end end' >>Slow.cal
    SECONDS=0
    found=$(echo 'trapped 0 0 Overflow' | "$top/tools/explain" --short run Slow.cal --trace t 2>&1)
    judge 'a trap of what takes long' "$found" 'rvc: error[Overflow]: a number needs more than 128 bits; store what grows in a variable of a type, which keeps its lowest bits, or compare it before it is used'
    judge 'the time that it takes' "$((SECONDS <= 9))" 1
    { printf 'actor Deep() ==> : int x = ' && printf '(%.0s' {1..20000}; } >Deep.cal
    found=$(echo 'refused T9 Deep.cal 27' | "$top/tools/explain" --short check Deep.cal 2>&1)
    judge 'what is too deep' "$found" "Deep.cal:1:28: error[T9]: an expression that must be constant isn't; write a number or a constant that is declared earlier"
    head -c 300000 /dev/urandom >Noise.cal
    found=$(echo 'refused G1 Noise.cal 299999' | "$top/tools/explain" --short check Noise.cal 2>&1 | wc -l)
    judge 'a file of noise' "$found" 1
    printf '\033[31mactor\007' >Red.cal
    found=$(echo 'refused L1 Red.cal 0' | "$top/tools/explain" check Red.cal 2>&1 | tr -dc '\033\007')
    judge 'what a terminal takes for commands' "$found" ''
}

# A copy of the script round a program that gives the report `REPORT` with the status `STATUS`.
pretend() {
    mkdir -p copy/crates/rvc_cli/out
    cp "$top/rvc" "$top/crates.txt" copy/
    cp -r "$top/tools" "$top/docs" copy/
    printf '#!/bin/sh\nprintf "%%s\\n" "$REPORT"\nexit "$STATUS"\n' >copy/crates/rvc_cli/out/rvc_cli
    chmod +x copy/crates/rvc_cli/out/rvc_cli
    touch copy/crates/rvc_cli/out/rvc.built
}

# Runs the copy, and keeps its status, its output and what it says beside.
run_copy() { # words
    output=$(./copy/rvc "$@" 2>errors)
    status=$?
    errors=$(<errors)
}

# The words that the script answers by itself, and what it does with reports of the program.
script_answers() {
    local usage='rvc VERB TOP [PORT=FILE ..] [--trace FILE] [--workers N] [--round P] [--burst N] [--budget N] [--grow N]' verb
    pretend
    export REPORT='no answer of the program' STATUS=77
    run_copy
    judge 'no words' "$status $output" "1 usage words"$'\n'"$usage"
    judge 'help on no words' "$errors" "$("$top/tools/usage" --help)"
    RVC_EXPLAIN=short run_copy
    judge 'no words, shortly' "$errors" 'rvc: error[usage]: a word is lacking or isn'"'"'t known, an option is given twice or without a value, or the words aren'"'"'t text (UTF-8); docs/FORMATS.md lists the words that each verb takes, and `rvc --help` shows them'
    for verb in run gen check certify replay fmt; do
        run_copy help "$verb"
        judge "help on $verb" "$status ${output%%[ :]*} ${output#* }" "0 rvc ${output#* }"
        judge "the verb in help on $verb" "${output:4:${#verb}}" "$verb"
        local page=$output
        run_copy "$verb" --help
        judge "$verb --help" "$status $output" "0 $page"
    done
    run_copy help nothing
    judge 'help on no verb' "$status $output" '1 '
    run_copy --version
    judge 'the version' "$status ${output%%$'\n'*}" '0 rvc 0.1.0'
    run_copy check Inc.cal
    judge 'the program' "$status $output" '77 no answer of the program'

    REPORT='refused L5 Inc.cal 6' STATUS=4
    local long=$'error L5: a string literal\n  --> Inc.cal:1:7\n  |\n1 | actor Inc() uint(size=8) In ==> uint(size=8) Out : action In:[a] ==> Out:[a + 1] end end\n  |       ^\nhelp: leave it out: this profile has no strings'
    run_copy check Inc.cal
    judge 'a refusal that nobody reads' "$status $output $errors" "4 $REPORT "
    RVC_EXPLAIN=1 run_copy check Inc.cal
    judge 'a refusal' "$status $output $errors" "4 $REPORT $long"
    RVC_EXPLAIN=short run_copy check Inc.cal
    judge 'a refusal, shortly' "$status $output $errors" \
        "4 $REPORT Inc.cal:1:7: error[L5]: a string literal; leave it out: this profile has no strings"
    RVC_EXPLAIN=0 run_copy check Inc.cal
    judge 'a refusal without explanation' "$status $output $errors" "4 $REPORT "
    rm copy/crates/rvc_cli/out/rvc.built
    run_copy run Inc.cal
    judge 'usage without a program' "$status $output" $'1 usage trace\n'"$usage"
    unset REPORT STATUS
}

# The explanation of these words begins with the first line, and has the second as its place.
wants() { # first line, place, words
    local first=$1 place=$2 found
    shift 2
    found=$(RVC_EXPLAIN=1 "$rvc" "$@" 2>&1 >/dev/null)
    if [[ ${found%%$'\n'*} == "$first"* && $found == *"--> $place"* && $found == *$'\nhelp: '* ]]; then
        passed=$((passed + 1))
    else
        failed=$((failed + 1))
        printf 'of %s: wanted %s at %s, found\n%s\n' "$*" "$first" "$place" "$found"
    fi
}

# The same of a source.
source_wants() { # first line, place, text
    printf '%b' "$3" >B.cal
    wants "$1" "$2" fmt B.cal
}

same_sentences
all_rules
short_lines
all_ends
bare_tables
script_answers

if [[ ${1-} == --without-program ]]; then
    printf '%d passed, %d failed\n' "$passed" "$failed"
    [[ $failed -eq 0 ]]
    exit
fi

source_wants 'error L1: a byte' 'B.cal:1:3' 'a !b'
source_wants 'error L2: a comment' 'B.cal:2:1' 'a\n/* b'
source_wants 'error L3: a number' 'B.cal:1:1' '1000000000000000000000000000000000000000'
source_wants 'error L4: a number' 'B.cal:1:2' ' 1.5'
source_wants 'error L5: a string' 'B.cal:1:1' '"x"'
source_wants 'error L6: a decimal number' 'B.cal:1:1' '007'
source_wants 'error G1: the tokens' 'B.cal:2:9' 'unit U :\nint X = ; end'
source_wants 'error Z11: a name' 'B.cal:1:1' "$(printf 'a%.0s' {1..256})"
wants 'error N1: a class' 'the words' fmt No.cal
wants 'error P1: a port word' 'the word Uot=b.bin' run Inc.cal In=a.bin Uot=b.bin --trace t
wants 'error P2: a port' 'the word In=c.bin' run Inc.cal In=a.bin In=c.bin --trace t
wants 'error P1: a port word' 'the word Uot=b.bin' run Inc.cal --trace a=b Uot=b.bin
wants 'error Z12: capacities' 'the words' gen 17 --trace t --grow 1048576

# The same in one line.
printf 'unit U :\nint X = ; end' >B.cal
judge 'B.cal, shortly' "$(RVC_EXPLAIN=short "$rvc" fmt B.cal 2>&1 >/dev/null | cut -d ' ' -f 1-2)" 'B.cal:2:9: error[G1]:'

# The program refuses a file by this rule, and the explanation tells how to mend it by this help.
helped() { # rule, help, top
    local found
    found=$(RVC_EXPLAIN=short "$rvc" check "$3" 2>&1 >/dev/null)
    if [[ $found == *" error[$1]: "*"; $2" ]]; then
        passed=$((passed + 1))
    else
        failed=$((failed + 1))
        printf 'of %s: wanted %s: %s, found\n%s\n' "${4-$3}" "$1" "$2" "$found"
    fi
}

# The same of the text of B.cal.
helps() { # rule, help, text
    printf '%b' "$3" >B.cal
    helped "$1" "$2" B.cal "$3"
}

# The same of the parts of an actor.
within() { # rule, help, parts
    helps "$1" "$2" "actor B() int In ==> int Out : $3 end"
}

# The same of the head and the body of an action.
in_action() { # rule, help, the text behind the inputs
    within "$1" "$2" "int y := 0; action In:[x] ==> $3 end"
}

# What people write who come from C, VHDL or other tools for CAL.
other_languages() {
    in_action G1 'equality is `=`' 'guard x == 1'
    in_action G1 'inequality is `!=`' 'guard x <> 1'
    in_action L1 'write `not`; only `!=` has a `!`' 'guard !x'
    in_action L1 'write `mod` for the remainder' 'Out:[x % 2]'
    in_action L1 'write `if c then a else b end` for a choice between values' 'Out:[x ? 2 : 1]'
    in_action L1 'there are no braces: write `then` or `do` in front of statements, and `end` behind them' 'do if (x > 2) { y := 1; }'
    in_action L1 'there are no braces: write `end` behind statements' 'do y := 1; }'
    in_action L1 'there are no characters: write the number, as 65 for A' "do y := 'A';"
    in_action L1 'there is no length of a list: write the number that its type says' 'do y := #l;'
    within L1 'there are no annotations: leave it out' '@native function f() --> int : 1 end'
    helps L1 'save the file without a mark of its encoding (BOM) at the start' '\xef\xbb\xbfactor B() ==> : end'
    in_action L1 'outside of comments a file has ASCII alone: write the character anew, or remove it' 'do y\xc2\xa0:= 1;'
    within L4 'there are no binary numbers: write a decimal number, or a hexadecimal one as `0x1F`' 'int z = 0b11;'
    within L4 'leave the `_` out of the number' 'int z = 1_000;'
    within L4 'write a whole number' 'int z = 1.5;'
    in_action G1 'there is no power: multiply, or write `1 << n`' 'do y := 2 ** 3;'
    in_action G1 'write `^` for the exclusive or of bits, and `!=` for that of truth values' 'do y := x xor 3;'
    in_action G1 'write `mod` for the remainder' 'do y := x rem 3;'
    in_action G1 'leave `old` out' 'do y := old y;'
    in_action G1 'there is no `lambda`: declare a function' 'do y := lambda(int a) --> int : a end;'
    in_action G1 'there is no `let`: declare a variable behind `var`, in front of `do`' 'do y := let int z = 1 : z end;'
    in_action G1 'a statement assigns with `:=`' 'do y = 1;'
    in_action G1 'a statement assigns with `:=`' 'do y <= 1;'
    in_action G1 'there is no such assignment: write `y := y + 1;`' 'do y += 1;'
    in_action G1 'there is no such assignment: write `y := y + 1;`' 'do y++;'
    in_action G1 'write `foreach int k in 0 .. 3 do .. end`' 'do for (int k = 0; k < 3; k++) y := k;'
    in_action G1 'the variable has a type, as in `foreach int k in 0 .. 3`' 'do foreach k in 0 .. 3 do y := k; end'
    in_action G1 'bounds are written `0 .. 3`, the lower one first' 'do foreach int k in 0 to 3 do y := k; end'
    in_action G1 'write `in` behind `k`' 'do foreach int k = 0 .. 3 do y := k; end'
    in_action G1 'write `do` behind the bounds' 'do foreach int k in 0 .. 3 y := k; end'
    in_action G1 'write `do` behind the condition' 'do while (x > 1) y := 1; end'
    in_action G1 'write `then` behind the condition' 'do if (x > 1) y := 1; end'
    in_action G1 'write `elsif`' 'do if x > 1 then y := 1; elseif x > 2 then y := 2; end'
    in_action G1 'in an expression write `else if .. end`, with an `end` for each `if`' 'Out:[if x > 1 then 1 elsif x > 2 then 2 else 3 end]'
    in_action G1 'an `end` is missing: each `if` of an expression has its own, and the `if` of line 1 is open' 'Out:[if x > 1 then 1 else if x > 2 then 2 else 3 end]'
    in_action G1 'an `if` in an expression needs an `else`' 'Out:[if x > 1 then 1 end]'
    in_action G1 'there is no `return`: an action sends in its head, and the value of a function is its expression' 'do return x;'
    in_action G1 'variables of an action are declared in front of `do`, behind `var` and without `;`' 'do int z := 1;'
    in_action G1 'variables behind `var` have a `,` between them, and no `;`' 'var int z; do'
    in_action G1 'an index is one number: write a loop' 'do l[1 .. 2] := 1;'
    within G1 'the type of a list is written `List(type:int, size=4)`' 'List[int, 4] z;'
    within G1 'the type of a list is written `List(type:int, size=4)`' 'int z[4];'
    within G1 'the type of a list is written `List(type:int, size=4)`' 'List(int, 4) z;'
    within S1 'the type of items stands behind a `:`, as in `List(type:int, size=4)`' 'List(type=int, size=4) z;'
    within G1 'the size of a type is written `int(size=8)`' 'int(8) z;'
    within G1 'the size of a type is written `uint(size=8)`' 'uint<8> z;'
    within G1 'leave `const` out: a constant is declared as `int c = 1;`' 'const int c = 1;'
    within G1 'variables of an actor are declared without `var`, each with a `;` behind it' 'var int z;'
    within G1 'declare each variable by itself, with its type and a `;`' 'int a, b;'
    within G1 'a list is computed by `[E : for int k in 0 .. 3]`' 'List(type:int, size=4) l = [0 for int k in 0 .. 3];'
    within G1 'the variable has a type, as in `for int k in 0 .. 3`' 'List(type:int, size=4) l = [0 : for k in 0 .. 3];'
    in_action G1 'inequality is `!=`' 'guard x /= 1'
    in_action G1 'equality is `=`' 'do if x := 1 then y := 2; end'
    in_action G1 'there is no such assignment: write `x[i] := x[i] + 1;`' 'do l[0] += 1;'
    in_action G1 'bounds are written `0 .. 3`, the lower one first' 'do foreach int k in Integers(1, 10) do y := k; end'
    in_action G1 'there is no `case`: write `if .. then .. elsif .. end`' 'do case x is when 1 => y := 1; end case;'
    in_action G1 'there is no `break`: let the condition of an `if` or a `while` decide' 'do break;'
    in_action G1 'there are no parts of values and no methods; tokens come and go in the head of the action' 'do Out.write(x);'
    in_action G1 'a statement assigns, as `x := ..;`, or calls a procedure, as `p(..);`' 'do send Out x;'
    in_action G1 'numbers aren'"'"'t cast: what is stored keeps the lowest bits of its type' 'do y := (int) x;'
    in_action S1 'numbers aren'"'"'t cast: what is stored keeps the lowest bits of its type' 'do y := int(x);'
    in_action G1 'write `and` alone: its right side is evaluated only if the left one doesn'"'"'t decide' 'guard x = 1 and then y = 2'
    within L1 'the items of a list stand in brackets, as `[1, 2, 3]`' 'List(type:int, size=2) l = {1, 2};'
    within L4 'leave the letters behind the number out: its type is that of the variable' 'int z = 0xFFu;'
    within G1 'the value of a constant stands behind one `=`, that of a variable behind `:=`' 'int z == 1;'
    within G1 'a variable is declared with its type in front of its name, as `int z := 1;`' 'z : integer := 1;'
    within G1 'a function is declared as `function f(int x) --> int : x end`' 'int f(int x) : x end'
    within G1 'a procedure has no type and gives no value: write a function' 'procedure p() --> int begin end'
    within G1 'there are no native functions and procedures: write it in this language' 'native procedure p() end'
    within G1 'how many tokens are taken is fixed: name each, or write `repeat`' 'action [x | s] ==> end'
    within G1 'here stand names alone: what is asked of their values stands behind `guard`' 'action In:[1] ==> end'
    helps G1 'write `==>` between inputs and outputs' 'actor B() int In => int Out : end'
    helps G1 'a port has a type, as in `int In`' 'actor B() In ==> Out : end'
    helps G1 'there are no ports of several channels: declare each port' 'actor B() multi int In ==> : end'
    helps G1 'there are no parameters of types: leave them out' 'actor B[T]() int In ==> : end'
    helps G1 'a file begins with `package`, `import`, `actor` or `unit`' 'network B() int In ==> : end'
}

# Words, marks and ends that are missing, or are too many.
grammar() {
    within G1 '`unit` is a reserved word of the language: take another name' 'int unit := 0;'
    helps G1 '`in` is a reserved word of the language: take another name' 'actor B() int in ==> int Out : end'
    within G1 '`do` is a reserved word of the language: take another name' 'do: action In:[x] ==> end'
    within G1 '`begin` is a reserved word of the language: take another name' 'schedule fsm begin : begin (a) --> s; end'
    within G1 '`repeat` is a reserved word of the language: take another name' 'schedule fsm s : s (a) --> repeat; end'
    in_action G1 'a `;` is missing in front of this' 'do y := 1'
    within G1 'a `;` is missing in front of this' 'int y := 0 action In:[x] ==> end'
    helps G1 'a `;` is missing in front of this' 'package a.b actor B() ==> : end'
    in_action G1 'no `;` stands behind an `end`' 'do if x > 1 then y := 1; end;'
    in_action G1 'no `;` stands behind an `end`' 'do if x > 1 then y := 1; end if;'
    in_action G1 'no `;` stands here: `guard`, `var`, `do` or `end` follows' 'Out:[x];'
    in_action G1 'no `;` stands here; several guards have a `,` between them' 'guard x > 1; do'
    in_action G1 'leave this `;` out' 'do y := 1;;'
    in_action G1 'the `(` of line 1 isn'"'"'t closed' 'do y := (x + 1;'
    in_action G1 'no parenthesis or bracket is open that this `)` could close' 'do y := x + 1);'
    in_action G1 'an expression is missing behind `+`' 'do y := x + ;'
    in_action G1 'an index is missing' 'do y := l[];'
    in_action G1 '`then` stands here twice' 'do if x > 1 then then y := 1; end'
    within G1 '`repeat` needs a constant number behind it' 'action In:[x] repeat ==> end'
    within G1 'something is missing behind the `,`' 'action In:[x], ==> end'
    in_action G1 '`guard` and then `var` stand in front of `do`' 'do y := 1; var int z'
    in_action G1 'the outputs stand in front of `guard` and `var`' 'guard x = 1 Out:[x]'
    in_action G1 'what goes through a port stands in brackets: `Out:[..]`' 'Out:x'
    in_action G1 'a guard needs an expression; leave the word `guard` out if there is none' 'guard'
    in_action G1 'a port from which nothing is taken, or to which nothing is sent, isn'"'"'t named' 'Out:[]'
    in_action G1 'the statements of an action stand behind `do`' 'begin y := 1; end'
    in_action G1 'what is open here is the `action` of line 1: close it by `end` or `endaction`' 'Out:[x] endif'
    in_action G1 '`elsif` stands in front of `else`, and an `if` has one `else`' 'do if x > 1 then y := 1; else y := 2; elsif x > 3 then y := 3; end'
    within G1 'write `In:[..]`, with a `:`' 'action In[x] ==> end'
    within G1 'what goes through a port stands in brackets: `In:[..]`' 'action In:x ==> end'
    within G1 'a tag stands in front of `action`, as in `a: action In:[..] ==> .. end`' 'action a: In:[x] ==> end'
    within G1 'a `:` is missing behind the tag `a`' 'a action In:[x] ==> end'
    within G1 'behind a tag and its `:` stands `action`' 'a: In:[x] ==> end'
    within G1 'tokens are named without a type: it is that of the port' 'action In:[int x] ==> end'
    within G1 '`==>` is missing, which stands there also if nothing is sent' 'action In:[x] end'
    within G1 'a `,` is missing in front of this' 'action In:[x] ==> Out:[1] Out:[2] end'
    within G1 'an `initialize` takes no tokens: `==>` follows it' 'initialize In:[x] ==> end'
    within G1 'a formal has a type, as in `int x`' 'function f(x) --> int : x end'
    within G1 'each transition ends with a `;`' 'schedule fsm s : s (a) --> s, s (b) --> s; end'
    helps G1 'the `)` of the type is missing in front of this' 'actor B() int(size=8 In ==> : end'
    helps G1 'a name is missing behind the type' 'actor B() int In, uint(size=8) ==> : end'
    within G1 '`guard` stands behind `==>` and the outputs' 'action In:[x] guard x > 1 ==> end'
    within G1 'statements stand behind the `do` of an action; a variable is declared with its type in front of its name' 'y := 1;'
    within G1 'a function has a type: `function f(int x) --> int : x end`' 'function f(int x) : x end'
    within G1 'write `-->` here' 'function f(int x) -> int : x end'
    within G1 'the value of a function is one expression, and `end` follows it' 'function f(int x) --> int : x; end'
    within G1 'the statements of a procedure stand between `begin` and `end`' 'procedure p() do y := 1; end'
    within G1 'a transition is written `state (tag) --> state;`' 'schedule fsm s : s a --> s; end'
    within G1 'a schedule begins with `schedule fsm NAME :`' 'fsm s : s (a) --> s; end'
    within G1 'an actor has one schedule: put all transitions into it' 'schedule fsm s : s (a) --> s; end schedule fsm t : t (a) --> t; end'
    within G1 'a priority is written `higher > lower;`' 'priority a >> b; end'
    within G1 'imports stand in front of `actor` or `unit`' 'import U.*;'
    helps G1 'the head of an actor ends with `:`' 'actor B() int In ==> int Out end'
    helps G1 'behind the name of an actor stand its parameters, `()` if it has none' 'actor B int In ==> : end'
    helps G1 'the long end is one word: `endactor`' 'actor B() ==> : action ==> end end actor'
    helps G1 'the actor or unit has ended in front of this: an `end` stands too early, or too often' 'actor B() ==> : end end'
    helps G1 'an `end` is missing: the `actor` of line 1 is open at the end of the file; the `end` of line 3 closes the `action` of line 2' 'actor B() ==> :\n  action ==>\nend'
    helps G1 'an `end` is missing: the `action` of line 2 is open at the end of the file' 'actor B() ==> :\n  action ==> do'
    helps G1 'an `end` is missing: the `actor` of line 1 is open at the end of the file; the `end` of line 8 closes the `if` of line 4' \
        'actor B() int In ==> :\n  int y := 0;\n  action In:[x] ==> do\n    if x > 1 then\n      y := 1;\n      while y > x do y := 2; end\n    foreach int k in 0 .. 1 do y := k; end\n  end\nend'
    helps G1 'an `end` is missing in front of this: the `action` of line 3 is open; the `else if` of line 4 needs an `end` of its own, so write `elsif`' \
        'actor B() int In ==> :\n  int y := 0;\n  a: action In:[x] ==> do\n  if x > 1 then y := 1; else if x > 2 then y := 2; end end\n  b: action In:[x] ==> end\nend'
}

# What a name is decides what is said of its use.
names() {
    printf 'unit U : int c = 1; function g(int a) --> int : a end end' >U.cal
    within S5 '`p` is a procedure, and gives no value: call it as a statement, and read what it changed, or write a function' \
        'int y := 0; procedure p() begin end action In:[x] ==> do y := p(); end'
    within S5 '`p` is a procedure, and has no value: call it as a statement, `p(..);`' 'procedure p() begin end action In:[x] ==> Out:[p] end'
    within S5 '`f` is a function, and its value is dropped here: assign it, `x := f(..);`, or write a procedure' \
        'function f(int a) --> int : a end action In:[x] ==> do f(1); end'
    within S5 '`f` is a function: call it with arguments in parentheses, `f(..)`' 'function f(int a) --> int : a end action In:[x] ==> Out:[f] end'
    within S5 '`f` is a function, and isn'"'"'t assigned: its value is the expression behind its `:`' \
        'function f(int a) --> int : a end action In:[x] ==> do f := 1; end'
    in_action S5 '`y` is a variable and isn'"'"'t called: items of lists stand in brackets, `y[..]`' 'do y := y(1);'
    within S5 '`Out` is an output: outputs stand behind `==>`' 'action Out:[x] ==> end'
    helps S5 '`g` is imported, and what is imported is no procedure: use its value, or declare a procedure in the actor' \
        'import U.g; actor B() ==> : action ==> do g(1); end end'
    helps S5 '`c` is imported: an imported constant isn'"'"'t called' 'import U.*; actor B() ==> : int y = c(1); end'
    helps S1 'the unit declares no `h`' 'import U.h; actor B() ==> : end'
    in_action S1 'an output is no variable: what is sent stands in the head of the action, as `Out:[..]`' 'do Out := x;'
    in_action S1 'an input is no variable: an action takes tokens in its head, as `In:[x]`, and calls them by these names' 'Out:[In]'
    in_action S1 'the actor has no port `Aus`; it has `In`, `Out`' 'Aus:[x]'
    within S1 'is `sample` meant?' 'int sample := 0; action In:[x] ==> do sampel := x; end'
    in_action S1 'nothing is called `q` here: declare a function or procedure of this name, import it, or mend the name' 'do q(x);'
    in_action S1 'there is no such function: write the operator `&`' 'Out:[bitand(x, 1)]'
    in_action S1 'actors print nothing: send it to an output, or look at the trace' 'do println(x);'
    in_action S1 'write `true`' 'guard TRUE'
    in_action S1 '`n` is declared behind this: put its declaration in front' 'var List(type:int, size=n) l, int n'
    within S1 'types are `bool`, `int(size=8)`, `uint(size=8)` and `List(type:int, size=4)`' 'integer z;'
    within S1 'the token `x` isn'"'"'t known here: how many there are is a constant' 'action In:[x] repeat x ==> end'
    within A3 'is `done` meant?' 'done: action In:[x] ==> end schedule fsm s : s (dome) --> s; end'
    within A3 'no action has a tag: write `go:` in front of the action' 'action In:[x] ==> end schedule fsm s : s (go) --> s; end'
}

# What may change, what is constant, and what types ask for.
types() {
    within T4 'declare `c` with `:=` (line 1), so that it changes' 'int c = 1; action In:[x] ==> do c := 2; end'
    in_action T4 '`x` is a token, and keeps its value: declare a variable behind `var`, with `:= x` as its start, and change that' 'do x := 1;'
    helps T4 '`p` is a parameter, and keeps its value: declare a variable with `:= p` as its start, and change that' \
        'actor B(int p = 1) ==> : action ==> do p := 2; end end'
    helps T4 '`c` is imported, and so a constant: declare a variable with `:= c` as its start, and change that' \
        'import U.c; actor B() ==> : action ==> do c := 2; end end'
    in_action T4 '`k` is the variable of a `foreach`, which counts by itself: use a `while`, or a variable of your own' \
        'do foreach int k in 0 .. 1 do k := 1; end'
    within T9 '`y` is declared in line 1: put its declaration in front of this one' 'int x := y + 1; int y := 1;'
    within T9 '`n` is declared in line 1: put its declaration in front of this one' 'function f(int a) --> int : n + a end int m = f(1); int n = 3;'
    within T9 '`y` changes: declare it with `=`, as a constant, or write a number' 'int y := 1; action In:[x] repeat y ==> end'
    in_action T9 '`x` is known only when the actor runs: write a number or a constant, as large as it may come to be' 'var List(type:int, size=x) l'
    helps T9 '`n` isn'"'"'t known in the head of the actor: parameters and imported constants are' 'actor B() ==> int(size=n) Out : int n = 8; end'
    within T2 'a list has a `size` of at least 1 and at most 16,384 scalars' 'List(type:int, size=0) z;'
    within T2 'the `size` of the list is missing: write `List(type:int, size=4)`' 'List(type:int) z;'
    within T2 'the `type` of the list is missing: write `List(type:int, size=4)`' 'List(size=4) z;'
    within T2 'a list has no `length`: write `List(type:int, size=4)`' 'List(type:int, length=4) z;'
    within T2 'write a `size` from 1 to 64' 'uint(size=65) z;'
    within T2 '`int` has no `bits`: write `int(size=8)`' 'int(bits=8) z;'
    within T2 '`bool` has no size: leave the argument out' 'bool(size=1) z;'
    helps N2 'the top is given no values: give each of its parameters a default, as `int p = 1`, or name a network that gives them' 'actor B(int p) ==> : end'
}

# Files and folders: where classes are looked for, and what a file is to hold.
folders() {
    cp -r "$top/examples/tiny" tiny
    local below='classes are looked for below the current folder'
    helped N1 "$below, and there is no \`Sum.cal\`; there is \`tiny/Sum.cal\`" Sum.cal
    helped N1 "$below, and there is no \`tiny/Decoder.cal\`; there is \`tiny/Decoder.xdf\`" tiny/Decoder.cal
    helped N1 "$below, and there is no \`None.cal\`" None.cal
    cd tiny || exit 1
    helped N1 "$below, and there is no \`tiny/ReadHead.cal\` or \`tiny/ReadHead.xdf\`: call \`rvc\` in the folder above" Decoder.xdf
    helped S5 "$below, and the package is \`tiny\`: call \`rvc\` in the folder above, with \`tiny/Sum.cal\`" Sum.cal
    cd ..
    helps S5 "$below, and the package is \`other\`: put the file into the folder \`other\`, or leave \`package\` out" 'package other; actor B() ==> : end'
    helps S5 'the file'"'"'s name asks for `actor B`, and the actor in it is `A`: make them equal' 'actor A() ==> : end'
    helps S5 'an actor is asked for, and this is a unit, which is only imported' 'unit B : end'
    helps S3 "$below, and there is no \`No.cal\`" 'import No.x; actor B() ==> : end'
    cp tiny/Sum.cal Sum.cal
    sed -i 's/package tiny;//' tiny/Sum.cal
    helped S5 "$below, so the package of this file is \`tiny\`: begin it with \`package tiny;\`" tiny/Sum.cal
    cp Sum.cal tiny/Sum.cal
    rm Sum.cal

    cp -r "$top/examples/stall" stall
    helped N1 "$below: call \`rvc\` in the folder \`stall\`, with \`Pair.xdf\`" stall/Pair.xdf
    decoder 's/"tiny\.Expand"/"Expand"/' N1 "write the class with its package, \`tiny.Expand\`: $below"
    decoder 's/"tiny\.Expand"/"tiny.Expond"/' N1 "$below, and there is no \`tiny/Expond.cal\` or \`tiny/Expond.xdf\`"
    decoder 's/name="Decoder"/name="Tiny"/' S5 'the attribute `name` in line 3 is `Tiny`, and the file'"'"'s name asks for `Decoder`: make them equal'
    decoder 's/name="Decoder"/name="tiny.Decoder"/' F3 'the `name` is that of the network alone: leave the package out, `Decoder`'
    decoder 's/ name="Decoder"//' F3 '`XDF` needs the attribute `name`'
    decoder 's/kind="Input"/kind="In"/' F3 'the `kind` of a port is `Input` or `Output`'
    decoder 's/ src-port="Bytes"//' F3 '`Connection` needs the attribute `src-port`'
    decoder 's/src="sum"/src="som"/' N5 'there is no instance `som`: is `sum` meant?'
    decoder 's/dst-port="In"/dst-port="Inn"/' N5 '`turn` has no input `Inn`: is `In` meant?'
    decoder 's/src-port="Bytes"/src-port="Octets"/' N5 'the network has no input `Octets`: it has `Bytes`'
}

# The same of the network in tiny, with an edit.
decoder() { # edit, rule, help
    cp tiny/Decoder.xdf kept.xdf
    sed -i "$1" tiny/Decoder.xdf
    helped "$2" "$3" tiny/Decoder.xdf "$1"
    cp kept.xdf tiny/Decoder.xdf
}

# What the words say.
wrong_words() { # cause, help, words
    local cause=$1 help=$2 found
    shift 2
    found=$(RVC_EXPLAIN=short "$rvc" "$@" 2>&1)
    judge "$*" "${found%%$'\n'*}; ${found##*error\[usage\]: }" "usage $cause; $(
        awk -F ' *[|] *' -v key="\`$cause\`" '$2 == key { print $3; exit }' "$top/docs/FORMATS.md"
    ); $help docs/FORMATS.md lists the words that each verb takes, and \`rvc --help\` shows them"
}

# All words that may be wrong.
all_wrong_words() {
    wrong_words verb 'there is no verb `runn`: is `run` meant?' runn Inc.cal --trace t
    wrong_words trace 'add `--trace FILE`, the file that `run` writes the trace to;' run Inc.cal
    wrong_words trace 'add `--trace FILE`, the file that `replay` reads;' replay Inc.cal
    wrong_words words 'there is no option `--tarce`: is `--trace` meant?' run Inc.cal --tarce t
    wrong_words words '`--trace` is given twice;' run Inc.cal --trace t --trace u
    wrong_words words 'write the value of `--trace` behind it;' run Inc.cal --trace
    wrong_words words 'write the top behind `check`, as `NAME.cal`;' check
    wrong_words number 'the value of `--workers` is a whole number from 1 to 64, in digits alone;' run Inc.cal --trace t --workers 65
    wrong_words round 'write `--round all`, `--round turn`, or `--round seed:7` with a number of your own;' run Inc.cal --trace t --round any
    wrong_words port 'the word `In` isn'"'"'t of the form `PORT=FILE`;' run Inc.cal In --trace t
    wrong_words top 'the top is a path below the current folder, of names with `/` between them, and ends in `.cal`;' fmt Inc.xdf
    wrong_words top 'the top of `gen` is a number from 1 to 1000;' gen Inc.cal --trace t
    judge 'a port of a check' "$(RVC_EXPLAIN=short "$rvc" check Inc.cal In=a.bin 2>&1 >/dev/null)" \
        'rvc: error[P1]: a port word names no port that the command opens, in the word In=a.bin; `check` opens no port: leave the word out'
    judge 'an output of a replay' "$(RVC_EXPLAIN=short "$rvc" replay Inc.cal Out=a.bin --trace a.bin 2>&1 >/dev/null)" \
        'rvc: error[P1]: a port word names no port that the command opens, in the word Out=a.bin; `replay` opens inputs alone: leave `Out=a.bin` out'
}

# A command over the files in tiny: its status, the last line of its report, and what it explains.
ends() { # status, last line, explanation, words
    local status=$1 last=$2 wanted=$3 output
    shift 3
    output=$("$rvc" "$@" 2>errors)
    judge "$*" "$? ${output##*$'\n'}"$'\n'"$(<errors)" "$status $last"$'\n'"$wanted"
}

# Ends of certifications, runs and replays.
all_commands() {
    export RVC_EXPLAIN=1 RVC_PROGRESS=0
    local run=(run tiny/Decoder.xdf Bytes=tiny/in.bin Samples=tiny/out.bin --trace tiny/trace.txt)
    local decide='let guards exclude each other, put a priority between the two, or let each fire in a state of its own'
    cp -r tiny good

    sed -i '/guard/d' tiny/Expand.cal
    local two='note: instance 1 is `expand` (tiny.Expand)
note: state 1 is `giving`
note: action 1 is `give`, in line 15
note: action 2 is `done`, in line 20'
    ends 10 'uncertified 1 1 1 2 C2' "error C2: nothing decides between two actions that may fire in one state
   --> tiny/Expand.cal:15:3
   |
15 |   give: action ==> Differences:[difference]
   |   ^
$two
help: $decide" certify tiny/Decoder.xdf
    two=${two//note: /}
    RVC_EXPLAIN=short ends 10 'uncertified 1 1 1 2 C2' \
        "tiny/Expand.cal:15:3: error[C2]: nothing decides between two actions that may fire in one state; ${two//$'\n'/; }; $decide" \
        certify tiny/Decoder.xdf
    RVC_EXPLAIN=0 ends 10 'uncertified 1 1 1 2 C2' '' certify tiny/Decoder.xdf
    cp good/Expand.cal tiny

    sed -i 's/other: action Bytes:\[letter, n\]/other: action Bytes:[letter]/' tiny/ReadHead.cal
    ends 10 'uncertified 0 0 0 1 C1' 'error C1: of two actions that may fire in one state, the higher needs more tokens on some port
  --> tiny/ReadHead.cal:9:3
  |
9 |   head: action Bytes:[letter, n] ==>
  |   ^
note: instance 0 is `head` (tiny.ReadHead)
note: state 0 is `start`
note: action 0 is `head`, in line 9
note: action 1 is `other`, in line 15
note: from `Bytes` action 0 takes 2, and action 1 takes 1
help: let both take as many tokens, or let a variable or a state of the schedule say which of them may fire' certify tiny/Decoder.xdf
    cp good/ReadHead.cal tiny

    sed -i 's/15 - k/16 - k/' tiny/Turn.cal
    ends 5 'trapped 3 0 IndexRange' 'error IndexRange: an index lies outside its list
  --> tiny/Turn.cal:6:3
  |
6 |   action In:[x] repeat 16 ==> Out:[y] repeat 16
  |   ^
note: instance 3 is `turn` (tiny.Turn)
note: action 0 is that of line 6
help: count from 0: the last item of n has the index n - 1; both bounds of a `foreach` are inside' "${run[@]}"
    RVC_EXPLAIN=0 ends 5 'trapped 3 0 IndexRange' '' "${run[@]}"
    cp good/Turn.cal tiny

    sed -i 's/  action/  turn: action/; s/^end/schedule fsm first : first (turn) --> stopped; end end/' tiny/Turn.cal
    run[2]=Bytes=tiny/long.bin
    local link='note: instance 2 is `sum` (tiny.Sum)
note: action 0 is that of line 12
note: link 3 leads from `Samples` of `sum` to `In` of `turn`, and holds 512 tokens'
    ends 6 'stalled 2 0 3' "error stalled: each instance waits, and one that has its tokens lacks room on a link
   --> tiny/Decoder.xdf:17:3
   |
17 |   <Connection src=\"sum\" src-port=\"Samples\" dst=\"turn\" dst-port=\"In\"/>
   |   ^
$link
help: give this \`Connection\` a \`bufferSize\` above 512, or the run \`--grow N\` for all links; if \`turn\` never takes again, let it take what isn't wanted" "${run[@]}"
    link=${link//note: /}
    link=${link/512/600}
    RVC_EXPLAIN=short ends 6 'stalled 2 0 3' "tiny/Decoder.xdf:17:3: error[stalled]: each instance waits, and one that has its tokens lacks room on a link; ${link//$'\n'/; }; give this \`Connection\` a \`bufferSize\` above 600, or the run a greater \`--grow\`; if \`turn\` never takes again, let it take what isn't wanted" "${run[@]}" --grow 600
    # A trace that is no file of the disk tells nothing.
    run[5]=/dev/null
    ends 6 'stalled 2 0 3' '' "${run[@]}"
    cp good/Turn.cal tiny
    replays
    ends 0 quiet '' run Inc.cal In=a.bin --trace t.txt
    ends 0 'done' '' certify Inc.cal
    ends 2 'read fault none' '' replay Inc.cal In=none --trace t.txt
    unset RVC_EXPLAIN RVC_PROGRESS
}

# Traces of no run.
replays() {
    local replay=(replay Inc.cal In=a.bin --trace t.txt)
    local at='note: instance 0 is `Inc`
note: action 0 is that of line 1'
    traced 'rvc-trace 1 1 2/i 0 Inc Inc/r/f 0 0/r/q'
    ends 0 'done' '' "${replay[@]}"
    traced 'rvc-trace 1 1 2/i 0 Inc Inc/r/f 0 0/f 0 0/r/q'
    ends 9 'not a run 5 NotExposed' "error NotExposed: the action can't fire there: it lacks tokens, or the state, a guard or a higher action forbids it
 --> t.txt:5:1
note: line 5 is \`f 0 0\`
$at
help: name the inputs of that run; else look in the lines before for a firing or an \`r\` that is missing" "${replay[@]}"
    at=${at//note: /}
    export RVC_EXPLAIN=short
    RVC_EXPLAIN=0 ends 9 'not a run 5 NotExposed' '' "${replay[@]}"
    traced 'rvc-trace 1 1 3/i 0 Inc Inc/r/f 0 0/r/q'
    ends 9 'not a run 1 Header' 't.txt:1:1: error[Header]: another line is due at the head of the trace; line 1 is `rvc-trace 1 1 3`; `rvc-trace 1 1 2` is due; name the network of which it is the trace, and `--grow` as in its run' "${replay[@]}"
    ends 9 'not a run 1 Header' 't.txt:1:1: error[Header]: another line is due at the head of the trace; line 1 is `rvc-trace 1 1 3`; `rvc-trace 2 1 2 8` is due; name the network of which it is the trace, and `--grow` as in its run' "${replay[@]}" --grow 8
    traced 'rvc-trace 1 1 2/i 0 Inc Ink/r/f 0 0/r/q'
    ends 9 'not a run 2 Header' 't.txt:2:1: error[Header]: another line is due at the head of the trace; line 2 is `i 0 Inc Ink`; `i 0 Inc Inc` is due; name the network of which it is the trace, and `--grow` as in its run' "${replay[@]}"
    traced 'rvc-trace 1 1 2/i 0 Inc Inc/r/f 0 0/r'
    ends 9 'not a run 6 Cut' 't.txt:6:1: error[Cut]: the trace ends without an end line; the run was stopped, or the file was cut: run it once more' "${replay[@]}"
    traced 'rvc-trace 1 1 2/i 0 Inc Inc/r/f 0 0/r/q/q'
    ends 9 'not a run 7 After' 't.txt:7:1: error[After]: bytes follow the end line; line 7 is `q`; cut the trace behind its end line' "${replay[@]}"
    traced 'rvc-trace 1 1 2/i 0 Inc Inc/r/q'
    ends 9 'not a run 4 End' 't.txt:4:1: error[End]: what the end line or the growth says isn'"'"'t so there; line 4 is `q`; look whether lines are missing before: the run had more to do, or ended otherwise' "${replay[@]}"
    traced 'rvc-trace 1 1 2/i 0 Inc Inc/r/t 0 0 Overflow'
    ends 9 'not a run 4 Trap' "t.txt:4:1: error[Trap]: the action traps there, or the trap that the line tells doesn't come; line 4 is \`t 0 0 Overflow\`; ${at//$'\n'/; }; name the inputs of that run, and the sources as they were in it" "${replay[@]}"
    traced 'rvc-trace 1 1 2/i 0 Inc Inc/r/f  0 0'
    ends 9 'not a run 4 Form' "t.txt:4:1: error[Form]: the line is of no form that lines of a trace have; line 4 is \`f  0 0\`; ${at//$'\n'/; }; compare it with the table of lines: one blank between the parts, no leading zeros, a line feed at its end" "${replay[@]}"
    # The report of a replay goes where it is wanted, whole, and its status is kept where it can't be written.
    traced 'rvc-trace 1 1 2/i 0 Inc Inc/r/f 0 0/r/q'
    judge 'the report of a replay' "$("$rvc" "${replay[@]}" 2>&1)" "$(RVC_EXPLAIN=0 "$rvc" "${replay[@]}" 2>&1)"
    "$rvc" "${replay[@]}" >/dev/full 2>/dev/null
    judge 'the status of a report that is lost' $? 3
    export RVC_EXPLAIN=1
}

# Writes a trace: its lines with a slash between them.
traced() { # lines
    tr / '\n' <<<"$1" >t.txt
}

other_languages
grammar
names
types
folders
all_wrong_words
all_commands

printf '%d passed, %d failed\n' "$passed" "$failed"
[[ $failed -eq 0 ]]
