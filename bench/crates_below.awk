# The crates of `crates.txt` on which those named by `tops` stand, they too, in its order.
/^#/ { next }
{ name = $1; sub(/:$/, "", name); row[name] = $0; order[++count] = name }
function want(name,   words, k, n) {
    if (!(name in row) || name in wanted) return
    wanted[name] = 1
    n = split(row[name], words, /[ :]+/)
    for (k = 2; k <= n; k++) want(words[k])
}
END {
    n = split(tops, top, " ")
    for (k = 1; k <= n; k++) want(top[k])
    for (k = 1; k <= count; k++) if (order[k] in wanted) print order[k]
}
