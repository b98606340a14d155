#!/usr/bin/env bash
# Runs each example on a program, and compares the status, the report and the files that it writes with what is expected.
#
#     examples/check.sh RVC [all]
#
# With `all` the tests of the tools for people run, too: of pictures, of progress, of explanations and of packages.
# RVC is the script `rvc` or another program of these words. A copy of the examples is run, so nothing is written here.
# What is kept is also compared with what other programs give, if these are installed. The status is 0 if nothing differs,
# 1 if something does, and 2 if nothing could be run.
set -u

if [[ $# -lt 1 || $# -gt 2 || ${2-all} != all ]] || ! rvc=$(command -v -- "$1"); then
    echo "usage: examples/check.sh RVC [all]" >&2
    exit 2
fi
rvc=$(readlink -f -- "$rvc")
here=$(dirname -- "$(readlink -f -- "${BASH_SOURCE[0]}")")
room=$(mktemp -d) || exit 2
trap 'rm -rf "$room"' EXIT
passed=0
failed=0

# Whether what came is what is wanted: a failure is told and counted.
judge() { # what is judged, the answer of the comparison
    if [[ $2 == yes ]]; then
        passed=$((passed + 1))
    else
        failed=$((failed + 1))
        printf 'differs: %s\n' "$1"
    fi
}

# A fresh copy of the examples.
copy() {
    rm -rf "$room/examples"
    cp -r -- "$here" "$room/examples" || exit 2
    find "$room/examples" -mindepth 2 -maxdepth 2 \( -name out.bin -o -name trace.txt -o -name b.bin -o -name t.txt \) \
        -exec rm -f {} +
}

# Runs words in the copy. The report is kept beside the copy, and the status in `status`.
call() { # the folder to be in, words
    local folder=$1
    shift
    (cd "$room/examples/$folder" && exec "$rvc" "$@") >"$room/report.txt" 2>"$room/errors" </dev/null
    status=$?
}

# Runs words in a fresh copy.
run() { # the folder to be in, words
    copy
    call "$@"
}

same_files() {
    cmp -s -- "$1" "$2" && echo yes || echo no
}

same_status() {
    [[ $status -eq $1 ]] && echo yes || echo no
}

# The words give the files of a folder: `report.txt` on standard output, the others in the folder above it.
wants() { # the folder of what is expected, the folder to be in, the status, words
    local expected=$1 folder=$2 wanted=$3 file name
    shift 3
    run "$folder" "$@"
    judge "the status of $*: $status, not $wanted" "$(same_status "$wanted")"
    for file in "$here/$expected"/*; do
        name=$(basename -- "$file")
        if [[ $name == report.txt ]]; then
            judge "the report of $*" "$(same_files "$room/report.txt" "$file")"
        else
            judge "$name of $*" "$(same_files "$room/examples/$(dirname -- "$expected")/$name" "$file")"
        fi
    done
}

# The words end quiet, make as many firings as the example does, and give the same output.
wants_alike() { # the example, the folder to be in, words
    local example=$1 folder=$2 same=no
    shift 2
    run "$folder" "$@"
    judge "the status of $*: $status, not 0" "$(same_status 0)"
    diff <(grep -v '^rounds ' "$room/report.txt") <(grep -v '^rounds ' "$here/$example/expected/report.txt") >/dev/null &&
        same=yes
    judge "the report of $*, without its rounds" "$same"
    judge "out.bin of $*" "$(same_files "$room/examples/$example/out.bin" "$here/$example/expected/out.bin")"
}

# The words spend their budget, and give a beginning of the output.
wants_prefix() { # the example, the folder to be in, the budget, words
    local example=$1 folder=$2 budget=$3 same=no size
    shift 3
    run "$folder" "$@" --budget "$budget"
    judge "the status of $* --budget $budget: $status, not 7" "$(same_status 7)"
    [[ $(tail -n 1 "$room/report.txt") == "budget $budget" ]] && same=yes
    judge "the last line of $* --budget $budget" "$same"
    same=no
    if [[ -e $room/examples/$example/out.bin ]]; then
        size=$(stat -c %s -- "$room/examples/$example/out.bin")
        cmp -s -n "$size" -- "$room/examples/$example/out.bin" "$here/$example/expected/out.bin" && same=yes
    fi
    judge "out.bin of $* --budget $budget" "$same"
}

# All actors at the top of this are certified.
wants_certified() { # the top
    run . certify "$1"
    judge "the status of certify $1: $status, not 0" "$(same_status 0)"
}

# The words decode to the bytes that are kept and end quiet, and every actor is certified.
wants_decoded() { # the example, what is kept, words
    local example=$1 kept=$2 same=no
    shift 2
    run . "$@"
    judge "the status of $*: $status, not 0" "$(same_status 0)"
    [[ $(tail -n 1 "$room/report.txt") == quiet &&
        $(sed -n 's/^instances //p' "$room/report.txt") == "$(sed -n 's/^certified //p' "$room/report.txt")" ]] && same=yes
    judge "the end of $*, or how many are certified" "$same"
    judge "out.bin of $*" "$(same_files "$room/examples/$example/out.bin" "$here/$kept")"
}

# `fmt` reads each source of a folder, and it reads the text that it prints as that text again.
wants_printed() { # the example
    local source
    for source in "$here/$1"/*.cal; do
        source=$1/$(basename -- "$source")
        run . fmt "$source"
        judge "the status of fmt $source: $status, not 0" "$(same_status 0)"
        cp -- "$room/report.txt" "$room/Once.cal"
        (cd "$room" && exec "$rvc" fmt Once.cal) >"$room/twice.txt" 2>/dev/null </dev/null
        judge "the text of fmt $source, printed again" "$(same_files "$room/twice.txt" "$room/Once.cal")"
    done
}

# A source of `tiny` with a mistake: the report ends with this line, and the guide shows it.
wants_mistake() { # the file, the edit that makes it, the words, the line
    local file=$room/examples/tiny/$1 same=no shown=no changed=no
    copy
    sed -i -E "$2" "$file"
    [[ -z $2 ]] || ! cmp -s -- "$file" "$here/tiny/$1" && changed=yes
    judge "whether $2 changes tiny/$1" "$changed"
    # The words are several.
    # shellcheck disable=SC2086
    call . $3
    [[ $(tail -n 1 "$room/report.txt") == "$4" ]] && same=yes
    judge "the report of $3 after $2 in tiny/$1: $(tail -n 1 "$room/report.txt"), not $4" "$same"
    grep -qxF -- "    $4" "$here/../docs/GUIDE.md" && shown=yes
    judge "whether docs/GUIDE.md shows: $4" "$shown"
}

# Whether a program is here that gives what is kept. If it isn't, that is said.
has() { # the program, the example
    command -v -- "$1" >/dev/null && return
    printf 'passed over: %s is not installed, so what is kept for %s is compared with the actors alone\n' "$1" "$2"
    return 1
}

# The program gives what is kept.
gives() { # what is kept, the program and its words
    local kept=$1 same=no
    shift
    (cd -- "$here" && exec "$@") 2>/dev/null | cmp -s -- - "$here/$kept" && same=yes
    judge "$kept by $*" "$same"
}

dec=(run dec/Top.xdf In=dec/in.bin Out=dec/out.bin --trace dec/trace.txt)
block=(run block/Decoder.xdf Pairs=block/in.bin Video=block/out.bin --trace block/trace.txt)
tiny=(run tiny/Decoder.xdf Bytes=tiny/in.bin Samples=tiny/out.bin --trace tiny/trace.txt)
fir=(run fir/Chain.xdf In=fir/in.bin Out=fir/out.bin --trace fir/trace.txt)
stall=(run Pair.xdf In=in.bin Out=out.bin --trace trace.txt)

wants inc/expected inc 0 run Inc.cal In=a.bin Out=b.bin --trace t.txt
wants dec/expected . 0 "${dec[@]}"
wants block/expected . 0 "${block[@]}"
wants tiny/expected . 0 "${tiny[@]}"
wants fir/expected . 0 "${fir[@]}"
wants stall/expected stall 6 "${stall[@]}"
wants stall/grown stall 0 "${stall[@]}" --grow 4

for option in '--round turn' '--round seed:7' '--burst 1' '--burst 100'; do
    # The option is two words.
    # shellcheck disable=SC2086
    wants_alike dec . "${dec[@]}" $option
    # shellcheck disable=SC2086
    wants_alike block . "${block[@]}" $option
    # shellcheck disable=SC2086
    wants_alike tiny . "${tiny[@]}" $option
    # shellcheck disable=SC2086
    wants_alike fir . "${fir[@]}" $option
done

wants_prefix dec . 100 "${dec[@]}"
wants_prefix block . 2000 "${block[@]}"

wants_certified fir/Chain.xdf
wants_printed fir
if has python3 fir; then
    python3 "$here/fir/make.py" "$room/made"
    judge 'fir/in.bin by make.py' "$(same_files "$room/made/in.bin" "$here/fir/in.bin")"
    judge 'fir/expected/out.bin by make.py' "$(same_files "$room/made/expected/out.bin" "$here/fir/expected/out.bin")"
fi

for name in mono stereo damaged; do
    adpcm=(run adpcm/Decoder.xdf "Wave=adpcm/$name.wav" Samples=adpcm/out.bin --trace adpcm/trace.txt)
    for option in '--round all' '--round turn' '--burst 1'; do
        # shellcheck disable=SC2086
        wants_decoded adpcm "adpcm/expected/$name.raw" "${adpcm[@]}" $option
    done
done
wants_certified adpcm/Decoder.xdf
wants_printed adpcm
if has sox adpcm; then
    for name in mono stereo damaged; do
        gives "adpcm/expected/$name.raw" sox "adpcm/$name.wav" -t raw -e signed -b 16 -L -
    done
fi

for name in grey full half wide progressive; do
    jpeg=(run jpeg/Decoder.xdf "Jpeg=jpeg/$name.jpg" Image=jpeg/out.bin --trace jpeg/trace.txt)
    wants_decoded jpeg "jpeg/expected/$name.pnm" "${jpeg[@]}"
    wants_decoded jpeg "jpeg/expected/$name.pnm" "${jpeg[@]}" --round seed:7
done
for option in '--round turn' '--burst 1' '--burst 1000' '--workers 4'; do
    jpeg=(run jpeg/Decoder.xdf Jpeg=jpeg/half.jpg Image=jpeg/out.bin --trace jpeg/trace.txt)
    # shellcheck disable=SC2086
    wants_decoded jpeg jpeg/expected/half.pnm "${jpeg[@]}" $option
done
wants_certified jpeg/Decoder.xdf
wants_printed jpeg
if has djpeg jpeg; then
    for name in grey full half wide; do
        gives "jpeg/expected/$name.pnm" djpeg -dct int -nosmooth -pnm "jpeg/$name.jpg"
    done
fi

wants_certified tiny/Decoder.xdf
wants_printed tiny
while IFS=@ read -r file edit words line; do
    wants_mistake "$file" "$edit" "$words" "$line"
done <"$here/tiny/mistakes"

run fmt fmt AddClip.cal
judge "the status of fmt AddClip.cal: $status, not 0" "$(same_status 0)"
judge 'the text of fmt AddClip.cal' "$(same_files "$room/report.txt" "$here/fmt/expected")"

# Runs a tool's own tests, whose last line counts what passed and what didn't.
tries_tool() { # the test, words
    local test=$here/../tools/$1 last
    shift
    last=$("$test" "$@" 2>&1 | tee "$room/tool.txt" | tail -n 1)
    if [[ $last =~ ^([0-9]+)' passed, '([0-9]+)' '(differ|failed)$ ]]; then
        passed=$((passed + BASH_REMATCH[1]))
        failed=$((failed + BASH_REMATCH[2]))
        [[ ${BASH_REMATCH[2]} -eq 0 ]] || cat "$room/tool.txt"
    else
        judge "the end of $test: $last" no
    fi
}

if [[ ${2-} == all ]]; then
    program=$rvc
    [[ $(head -c 2 -- "$rvc") == '#!' ]] && program=$(dirname -- "$rvc")/crates/rvc_cli/out/rvc_cli
    tries_tool pictures_test "$rvc"
    tries_tool progress_test.sh "$program"
    tries_tool explain_test.sh --without-program
    tries_tool package_test.sh "$program"
fi

printf '%s passed, %s differ\n' "$passed" "$failed"
[[ $failed -eq 0 ]]
