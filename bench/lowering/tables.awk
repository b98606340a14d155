# Code as `lower.rt.txt` prints it, or as `hand.txt` has it, as constants that both languages read. Labels become places.
# What stands in the state cells at first is that of the body of the same name that came first. With `-v apart=1` each is a
# constant of its own, with a function that gives it.
function place(text,   head, label) {
    if (match(text, /\(@[a-z0-9]+\)/)) {
        label = substr(text, RSTART + 2, RLENGTH - 3)
        return substr(text, 1, RSTART) labels[label] ")"
    }
    return text
}
function row(list, from, to,   k, text) {
    text = ""
    for (k = from; k < to; k++) text = text (k > from ? ", " : "") list[k]
    return text
}
/^#/ || /^$/ { next }
$1 == "name" { name = $2; sub(/^.*\//, "", name); sub(/(Net)?\.(cal|xdf)$/, "", name); instrs = routines = firsts = actions = steps = saved = entries = 0; delete labels; delete firstly; next }
$1 == "label" { labels[$2] = instrs; next }
$1 == "instr" { sub(/^instr /, ""); sub(/Some\(/, "Some(Scalar::"); instr[instrs++] = "Instr::" $0; next }
$1 == "routine" { routine[routines++] = $2; result[routines] = $3; next }
$1 == "entry" { entry[entries++] = $2; next }
$1 == "counts" { cells = $2; kept = $3; start = $4; ins = $5; outs = $6; states = $7; next }
$1 == "first" { firstly[firsts++] = $2; next }
$1 == "saved" { sub(/^saved /, ""); cell = $1; sub(/^[0-9]+ /, ""); save[saved++] = "(" cell ", Scalar::" $0 ")"; next }
$1 == "needs" || $1 == "gives" || $1 == "guards" || $1 == "sends" { word = $1; sub(/^[a-z]+ /, ""); part[actions, word] = $0; if (word == "sends") actions++; next }
$1 == "fire" { part[actions, "fire"] = $2; next }
$1 == "step" { step[steps++] = "(" $2 ", " $3 ", " $4 ")"; next }
$1 == "fault" { print $0 >"/dev/stderr"; exit 1 }
$1 == "end" {
    if (!(name in counted)) { counted[name] = firsts; for (k = 0; k < firsts; k++) known[name, k] = firstly[k] }
    text = "    Table {\n        name: \"" name "\",\n        instrs: &[\n"
    for (k = 0; k < instrs; k++) text = text "            " place(instr[k]) ",\n"
    text = text "        ],\n        routines: &["
    for (k = 0; k < routines; k++) {
        at = routine[k]; if (at ~ /^@/) at = labels[substr(at, 2)]
        text = text (k ? ", " : "") "(" at ", " result[k + 1] ")"
    }
    for (k = 0; k < entries; k++) if (entry[k] ~ /^@/) entry[k] = labels[substr(entry[k], 2)]
    text = text "],\n        entries: &[" row(entry, 0, entries) "],\n        cells: " cells ",\n        first: &["
    for (k = 0; k < cells; k++) text = text (k ? ", " : "") (k < kept ? known[name, k] + 0 : 0)
    text = text "],\n        kept: " kept ",\n        start: " start ",\n        ins: " ins ",\n        outs: " outs ",\n        states: " states ",\n"
    text = text "        saved: &[" row(save, 0, saved) "],\n        steps: &[" row(step, 0, steps) "],\n        actions: &[\n"
    for (k = 0; k < actions; k++) {
        fire = part[k, "fire"]; if (fire ~ /^@/) fire = labels[substr(fire, 2)]
        text = text "            Action { needs: &" part[k, "needs"] ", gives: &" part[k, "gives"] ", guards: &" part[k, "guards"] ", fire: " fire ", sends: &" part[k, "sends"] " },\n"
    }
    tables[count++] = text "        ],\n    },\n"
}
END {
    print "pub struct Action {\n    pub needs: &'static [u32],\n    pub gives: &'static [u32],\n    pub guards: &'static [u32],\n    pub fire: u32,\n    pub sends: &'static [u32],\n}\n"
    print "pub struct Table {\n    pub name: &'static str,\n    pub instrs: &'static [Instr],\n    pub routines: &'static [(u32, u8)],\n    pub entries: &'static [u32],\n    pub cells: u32,\n    pub first: &'static [Num],\n    pub kept: u32,\n    pub start: u16,\n    pub ins: u32,\n    pub outs: u32,\n    pub states: u16,\n    pub saved: &'static [(u32, Scalar)],\n    pub steps: &'static [(u16, u16, u16)],\n    pub actions: &'static [Action],\n}\n"
    # Each table by itself: the check of one constant goes only so far.
    for (k = 0; apart && k < count; k++) {
        printf "pub fn table%d() -> &'static [Table] {\n    T%d\n}\n\n", k, k
        printf "pub const T%d: &[Table] = &[\n%s];\n\n", k, tables[k]
    }
    if (apart) exit
    print "pub const TABLES: &[Table] = &["
    for (k = 0; k < count; k++) printf "%s", tables[k]
    print "];"
}
