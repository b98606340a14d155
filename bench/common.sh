# What the measurements have in common: read by `.` from the script of each, behind its `set -eu`. It sets `here`, the folder
# of that script, `top`, the checkout, and `work`, a folder that is removed at the end.
here=$(cd -- "$(dirname -- "${BASH_SOURCE[1]}")" && pwd)
top=$(cd -- "$here/../.." && pwd)
work=$(mktemp -d)
trap 'rm -rf -- "$work"' EXIT

# Runs a command with what it prints put into a file of the work folder. If it fails, shows the last lines and ends.
logged() {
    local log=$work/$1
    shift
    "$@" >"$log" 2>&1 || { tail -n 20 "$log" >&2; exit 1; }
}

# Sets `program` to that of the checkout, which the script `rvc` builds if there is none.
find_program() {
    "$top/rvc" --help >/dev/null 2>&1 || true
    program=$top/crates/rvc_cli/out/rvc_cli
    [ -x "$program" ] || { echo "the program isn't built: run ./rvc first" >&2; exit 1; }
}

# Copies crates of the checkout into the work folder. What is proved of them isn't proved again.
copy_crates() {
    local name part
    cp "$top/HANDLES" "$work/"
    for name; do
        mkdir -p "$work/crates/$name"
        for part in src specs proofs; do
            [ ! -d "$top/crates/$name/$part" ] || cp -r "$top/crates/$name/$part" "$work/crates/$name/"
        done
        if [ -d "$top/crates/$name/out/rlib" ]; then
            mkdir -p "$work/crates/$name/out"
            cp -a "$top/crates/$name/out/rlib" "$work/crates/$name/out/"
        fi
        grep "^$name:" "$top/crates.txt" >>"$work/crates.txt"
    done
}

# Makes a program of a name over crates of the checkout and those below them: the driver that stands beside the script, with
# its answers where it has any.
make_driver() {
    local name=$1 file base below
    shift
    below=$(awk -v tops="$*" -f "$top/bench/crates_below.awk" "$top/crates.txt")
    copy_crates $below
    mkdir -p "$work/crates/$name/src"
    cp "$here/driver.rt.txt" "$work/crates/$name/src/main.rt"
    for file in "$here"/proofs/*.txt; do
        [ -e "$file" ] || continue
        base=$(basename "$file" .txt)
        mkdir -p "$work/crates/$name/proofs/${base%.*}"
        cp "$file" "$work/crates/$name/proofs/${base%.*}/${base#*.}.antt"
    done
    echo "$name:" $below >>"$work/crates.txt"
}

# Proves and builds the driver of a name, and sets `proved` to its program.
build_driver() {
    cd "$work/crates/$1"
    logged proved.log rt run
    proved=$work/crates/$1/out/$1
    cd "$work"
}

# Builds the crate in plain Rust that stands beside the script, as it lies in the work folder, and sets `plain` to its program.
build_plain() {
    cd "$work/plain"
    RUSTFLAGS="-C target-cpu=x86-64-v2" logged plain.log cargo build --release --offline
    plain=$work/plain/target/release/$1
    cd "$work"
}
