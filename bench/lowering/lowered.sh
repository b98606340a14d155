# lowered.sh CHECKOUT WORK FOLDER TOP..: what `lower.rt.txt` prints of the actors of these tops, whose files stand below the
# folder. It is compiled in WORK with the checks of `rt try`, and nothing is proved again.
set -eu
top=$1
work=$2/lowered
folder=$3
shift 3
mkdir -p "$work/crates/lowered_text/src"

below=$(awk -v tops=rvc_engine -f "$top/bench/crates_below.awk" "$top/crates.txt")
for name in $below; do
    mkdir -p "$work/crates/$name"
    for part in src specs proofs; do
        [ ! -d "$top/crates/$name/$part" ] || cp -r "$top/crates/$name/$part" "$work/crates/$name/"
    done
    grep "^$name:" "$top/crates.txt" >>"$work/crates.txt"
done
echo "lowered_text: rvc_engine network_check cal_files lowered_actor code_ir schedule_fsm fnl_flatten rvc_io rvc_base" >>"$work/crates.txt"

# The files below the folder, and the tops, as constants of the program.
cp "$top/bench/lowering/lower.rt.txt" "$work/crates/lowered_text/src/main.rt"
{
    printf '//! Files with their texts, and tops.\n\npub const FILES: &[(&str, &str)] = &[\n'
    (cd -- "$folder" && find . -type f | LC_ALL=C sort) | while read -r file; do
        printf '    ("%s", "%s"),\n' "${file#./}" "$(tr '\n' ' ' <"$folder/$file" | sed 's/"/\\"/g')"
    done
    printf '];\n\npub const TOPS: &[&str] = &[\n'
    printf '    "%s",\n' "$@"
    printf '];\n'
} >"$work/crates/lowered_text/src/files.rt"

(cd "$work/crates/lowered_text" && rt try) >"$work/try.log" 2>&1 || { tail -n 20 "$work/try.log" >&2; exit 1; }
sed -n '/^name /,$p' "$work/try.log" | sed '/^interpreter:/,$d'
