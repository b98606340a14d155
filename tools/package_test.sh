#!/usr/bin/env bash
# Makes packages of the last commit with tools/package, compares them, installs them in folders of their own, and runs the
# examples there without the kit.
#
#     tools/package_test.sh [PROGRAM [ROOT]]
#
# PROGRAM is the built program, else crates/rvc_cli/out/rvc_cli. ROOT is the folder of a clean system, as `debootstrap`
# makes it: the package is installed in it, tried and removed again, which takes the rights of root.
set -u
export LC_ALL=C
top=$(readlink -f -- "$(dirname -- "$(readlink -f -- "${BASH_SOURCE[0]}")")/..")
program=$(readlink -f -- "${1:-$top/crates/rvc_cli/out/rvc_cli}")
root=${2-}
if [[ ! -x $program ]]; then
    echo "package_test: there is no program \`$program\`" >&2
    exit 2
fi
room=$(mktemp -d) || exit 2
trap 'rm -rf "$room"' EXIT
passed=0
failed=0

# Counts whether what was found is what is wanted.
judge() { # what is judged, found, wanted
    if [[ $2 == "$3" ]]; then
        passed=$((passed + 1))
    else
        failed=$((failed + 1))
        printf 'of %s: wanted\n%s\nfound\n%s\n' "$1" "$3" "$2"
    fi
}

# Counts whether something is part of a text.
judge_part() { # what is judged, text, part
    judge "$1" "$([[ $2 == *"$3"* ]] && echo "$3" || echo "${2:0:400}")" "$3"
}

# Two packages are the same bytes, whoever makes them, where and when.
same_bytes() {
    local file
    (umask 077 && cd / && TZ=Asia/Tokyo LC_ALL=C.UTF-8 "$top/tools/package" --program "$program" --output "$room/one") \
        >"$room/names" || exit 1
    sleep 2
    cp "$program" "$room/program"
    chmod 700 "$room/program"
    touch -d 2001-01-01 "$room/program"
    (umask 002 && cd "$room" && "$top/tools/package" --program program --output two) >/dev/null || exit 1
    judge 'how many packages there are' "$(wc -l <"$room/names")" 2
    for file in "$room"/one/*; do
        judge "${file##*/}, made twice" "$(cmp "$file" "$room/two/${file##*/}" 2>&1)" ''
    done
    deb=$(echo "$room"/one/*.deb)
    tar=$(echo "$room"/one/*.tar.gz)
}

# What the package says of itself.
same_words() {
    local version commit
    version=$(dpkg-deb -f "$deb" Version)
    commit=$(git -C "$top" rev-parse --short=12 HEAD)
    judge 'the name' "${deb##*/}" "rvc_${version}_amd64.deb"
    judge 'the name of the tar' "${tar##*/}" "rvc_${version}_amd64.tar.gz"
    judge_part 'the version' "$version" "$("$top/tools/usage" --number)"
    judge 'the architecture' "$(dpkg-deb -f "$deb" Architecture)" amd64
    judge_part 'what it depends on' "$(dpkg-deb -f "$deb" Depends)" 'libc6 (>= 2.'
    judge 'owners in it' "$(dpkg-deb -c "$deb" | awk '{ print $2 }' | sort -u)" root/root
    judge 'files that others may write' "$(dpkg-deb -c "$deb" | grep -c '^-.......w')" 0
    if [[ $version == *+unproved ]]; then
        judge_part 'what proved it' "$("$1" --version)" 'not proved: '
    else
        judge_part 'what proved it' "$("$1" --version)" 'proved by rattle'
    fi
    judge_part 'the commit' "$("$1" --version)" "($commit)"
    judge 'its checksums' "$(cd "$room/installed" && md5sum --quiet -c <(dpkg-deb --ctrl-tarfile "$deb" | tar xO ./md5sums) 2>&1)" ''
}

# Runs something with nothing on the path but the package and the system: neither the kit nor this checkout.
bare() { # folder of the commands, words
    local path=$1
    shift
    env -i "PATH=$path:/usr/bin:/bin" "HOME=$room" LC_ALL=C "$@"
}

# An installed package does its work.
works() { # what it is, folder of the commands, folder of the documents
    judge "the kit is hidden from $1" "$(bare "$2" sh -c 'command -v rt')" ''
    judge "where rvc of $1 is" "$(bare "$2" sh -c 'command -v rvc')" "$2/rvc"
    local copy=$room/copy
    rm -rf "$copy"
    cp -r "$3" "$copy"
    judge "the examples of $1" "$(bare "$2" "$copy/examples/check.sh" rvc 2>&1 | tail -n 1 | sed 's/^[0-9]* passed/all passed/')" \
        'all passed, 0 differ'
    printf 'unit U :\nint X = ; end' >"$room/B.cal"
    judge_part "an explanation by $1" "$(cd "$room" && bare "$2" RVC_EXPLAIN=short rvc fmt B.cal 2>&1)" \
        'B.cal:2:9: error[G1]: the tokens spell no file; '
    judge_part "help of $1" "$(bare "$2" rvc --help)" 'rvc run TOP'
    judge "help of $1 about a build" "$(bare "$2" rvc --help | grep -c 'proves and builds')" 0
    judge "a build by $1" "$(bare "$2" rvc --build 2>&1; echo $?)" 0
    if command -v python3 >/dev/null; then
        judge_part "a picture by $1" "$(cd "$copy/examples" && bare "$2" "PATH=$2:$PATH" rvc-draw dec/Top.xdf --plain)" 'dec.Zigzag'
        judge_part "a timeline by $1" \
            "$(cd "$copy/examples" && bare "$2" "PATH=$2:$PATH" rvc-timeline dec/expected/trace.txt --text)" 'rounds 5'
    fi
}

# Installs the package in a folder that has a list of packages of its own.
install_apart() {
    mkdir -p "$room/installed/var/lib/dpkg"/{info,updates}
    touch "$room/installed/var/lib/dpkg/status"
    dpkg --root="$room/installed" --force-depends --force-not-root --log="$room/log" -i "$deb" >"$room/dpkg" 2>&1
    judge 'the status of dpkg' $? 0
    judge_part 'what dpkg lists' "$(dpkg --root="$room/installed" -s rvc)" 'Status: install ok installed'
}

# The manual: it is set without a warning, and has the documents' words.
manual() {
    local page=$room/installed/usr/share/man/man1/rvc.1.gz shown
    if command -v man >/dev/null; then
        judge 'warnings of the manual' "$(LC_ALL=C.UTF-8 man --warnings -E UTF-8 -l -Tutf8 "$page" 2>&1 >/dev/null)" ''
        shown=$(LC_ALL=C.UTF-8 man -E UTF-8 -l -Tutf8 "$page" | sed 's/.\x08//g' | tr -s '[:space:]' ' ')
        for word in 'NAME' 'rvc, rvc-draw, rvc-timeline - compiles and runs' '--workers N' 'trapped I A C' 'RVC_PROGRESS' 'rvc-draw' 'uint(size=8)'; do
            judge_part "the manual has $word" "$shown" "$word"
        done
    fi
}

# What bash offers behind these words.
offers() { # words, the last of which is to be completed
    bare "$room/installed/usr/bin" bash --norc -c '
        cd "$1" && . "$2" && shift 2
        COMP_WORDS=(rvc "$@") COMP_CWORD=$# COMPREPLY=()
        compopt() { :; }
        _rvc rvc "${COMP_WORDS[COMP_CWORD]}" "${COMP_WORDS[COMP_CWORD - 1]}"
        echo "${COMPREPLY[*]}"' bash "$room/copy/examples" "$room/installed/usr/share/bash-completion/completions/rvc" "$@"
}

completions() {
    local share=$room/installed/usr/share
    judge 'verbs that are offered' "$(offers c)" 'check certify'
    judge 'tops that are offered' "$(offers run dec/T)" 'dec/Top.xdf'
    judge 'tops of fmt' "$(offers fmt dec/S) $(offers fmt dec/T)" 'dec/Sat.cal '
    judge 'folders that are offered' "$(offers run st)" 'stall/'
    judge 'ports that are offered' "$(offers run dec/Top.xdf '') $(offers run stall/Join.cal '')" 'In= Out= A= B= Out='
    judge 'files of a port' "$(offers run dec/Top.xdf In = dec/in)" 'dec/in.bin'
    judge 'files of the trace' "$(offers run dec/Top.xdf --trace dec/in) $(offers run dec/Top.xdf --trace = dec/in)" 'dec/in.bin dec/in.bin'
    judge 'options that are offered' "$(offers run dec/Top.xdf --b)" '--burst --budget'
    judge 'policies that are offered' "$(offers run dec/Top.xdf --round t)" 'turn'
    judge 'verbs of help' "$(offers help re)" 'replay'
    if command -v fish >/dev/null; then
        judge 'verbs that fish offers' "$(fish_offers 'rvc cer')" 'certify'
        judge 'ports that fish offers' "$(fish_offers 'rvc run dec/Top.xdf ' | sort | paste -sd ' ')" 'In= Out='
        judge 'tops that fish offers' "$(fish_offers 'rvc check dec/To')" 'dec/Top.xdf'
    fi
    if command -v zsh >/dev/null; then
        judge 'the script of zsh' "$(zsh -fn "$share/zsh/vendor-completions/_rvc" 2>&1)" ''
        judge 'what zsh completes by' "$(HOME=$room zsh -fc 'fpath=('"$share"'/zsh/vendor-completions $fpath)
            autoload -Uz compinit && compinit -D -u && echo ${_comps[rvc]}' 2>&1)" '_rvc'
    fi
}

fish_offers() { # words
    (cd "$room/copy/examples" && bare "$room/installed/usr/bin" fish --no-config -c \
        "source $room/installed/usr/share/fish/vendor_completions.d/rvc.fish; complete -C '$1'" 2>&1 | cut -f 1)
}

# What vim makes of files.
vim_says() { # file, expression
    vim -N -u NONE -i NONE -es --cmd "set rtp^=$room/installed/usr/share/vim/vimfiles" -c 'filetype plugin on' -c 'syntax on' \
        -c "edit $1" -c "redir! > $room/vim" -c "silent echo $2" -c 'redir END' -c 'qa!' </dev/null >/dev/null 2>&1
    tr -d '\n' <"$room/vim"
}

editors() {
    command -v vim >/dev/null || return
    vim --version | grep -q '+syntax' || return
    local here=$room/copy/examples
    echo 'network N () ==> : entities structure end' >"$room/N.nl"
    judge 'the type of an actor' "$(vim_says "$here/dec/Rld.cal" '&filetype . " " . &commentstring')" 'cal // %s'
    judge 'the type of a network' "$(vim_says "$here/dec/Top.xdf" '&filetype')" 'xml'
    judge 'the type of a network as text' "$(vim_says "$room/N.nl" '&filetype')" 'nl'
    judge 'the colours of an actor' "$(vim_says "$here/dec/Rld.cal" \
        'join(map([[1, 1], [4, 1], [6, 3], [9, 3], [9, 8], [9, 15], [16, 3], [16, 13], [16, 15]],
        "synIDattr(synID(v:val[0], v:val[1], 1), \"name\")"), " ")')" \
        'calComment calUnit calType calTag calMember calPort calMember calOperator calNumber'
    judge 'the heading of a network as text' "$(vim_says "$room/N.nl" 'synIDattr(synID(1, 1, 1), "name")')" 'nlHeading'
    echo 'dec/Top.xdf:13:3: error[N5]: an instance' >"$room/errors"
    judge 'where a message leads' "$(cd "$here" && vim_says dec/Rld.cal \
        "[execute('cgetfile $room/errors'), map(getqflist(), {_, q -> bufname(q.bufnr) . ' ' . q.lnum . ' ' . q.col . ' ' . q.text})][1]")" \
        "['dec/Top.xdf 13 3 an instance']"
}

# Runs words in the clean system, whose /proc is there for them alone.
in_root() {
    unshare --mount sh -c 'mount -t proc proc "$1/proc" && exec chroot "$@"' sh "$root" "$@"
}

# The same in a clean system.
clean_system() {
    cp "$deb" "$root/rvc.deb" || return
    judge 'the status of dpkg in a clean system' "$(in_root dpkg -i /rvc.deb >"$room/dpkg" 2>&1; echo $?)" 0
    judge 'the kit in a clean system' "$(in_root sh -c 'command -v rt || ls /opt/rattle 2>/dev/null')" ''
    judge 'the examples in a clean system' "$(in_root /usr/share/doc/rvc/examples/check.sh rvc 2>&1 | tail -n 1 |
        sed 's/^[0-9]* passed/all passed/')" 'all passed, 0 differ'
    judge 'what the program needs' "$(in_root ldd /usr/lib/rvc/rvc_cli | grep -vcE 'linux-vdso|libc\.so|ld-linux')" 0
    judge 'the status of its removal' "$(in_root dpkg -r rvc >"$room/dpkg" 2>&1; echo $?)" 0
    judge 'what is left of it' "$(in_root sh -c 'command -v rvc; ls -d /usr/lib/rvc /usr/share/doc/rvc 2>/dev/null')" ''
    rm -f "$root/rvc.deb"
}

same_bytes
install_apart
same_words "$room/installed/usr/bin/rvc"
works 'the package' "$room/installed/usr/bin" "$room/installed/usr/share/doc/rvc"
manual
completions
editors
mkdir "$room/unpacked" && tar xzf "$tar" -C "$room/unpacked" --strip-components=1
works 'the tar' "$room/unpacked/bin" "$room/unpacked/share/doc/rvc"
[[ -n $root ]] && clean_system

printf '%d passed, %d failed\n' "$passed" "$failed"
[[ $failed -eq 0 ]]
