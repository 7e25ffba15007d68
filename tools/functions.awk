# The functions that the static library exports, from Rattle, from a C header or from a Rust extern block: a line each, its name, its parameters
# and its result. A core is a pointer to its handle: core; a cluster the same: cluster; memory for either: memory; what a call reports: answer. An array is one pointer, a struct of words
# too: saved, words4 ..; a slice of bytes is a pointer and a length: bytes size; `const` is what is only read.
/extern "C" fn a72_/ || /^    pub fn a72_/ || /^(void|uint64_t) a72_/ { text = ""; on = 1 }
on {
    text = text " " $0
    if (text ~ /\).*(;|ensures)/) { print_one(text); on = 0 }
}

function print_one(t, name, result, i, n, part) {
    match(t, /a72_[a-z0-9_]+/)
    name = substr(t, RSTART, RLENGTH)
    result = t ~ /-> u64/ || t ~ /^ uint64_t/ ? "u64" : "-"
    sub(/^[^(]*\(/, "", t)
    sub(/\).*/, "", t)
    n = split(t, part, ",")
    for (i = 1; i <= n; i++)
        if (part[i] ~ /[a-z]/) name = name " " type_of(part[i])
    print name, "->", result
}

function type_of(p, only) {
    only = p ~ /: &(\[|Saved)/ || p ~ /\*const/ || p ~ /^ *const / ? "const-" : ""
    if (p ~ /ClusterHandle|a72_cluster \*/) return only "cluster"
    if (p ~ /Handle|a72_core/) return only "core"
    if (p ~ /void|Core|Cluster/) return only "memory"
    if (p ~ /State|Saved|A72_WORDS/) return only "saved"
    if (p ~ /: &mut Report|: \*mut Answer|a72_answer \*/) return only "answer"
    if (p ~ /struct a72_(pending|hint) /) return only "words2"
    if (p ~ /struct a72_fetch_hint /) return only "words4"
    if (p ~ /struct a72_entry /) return only "words7"
    if (p ~ /&(mut )?\[u8\]/) return only "bytes size"
    if (p ~ /u8|uint8_t/) return only "bytes"
    if (p ~ /\[/) { match(p, /[0-9]+\]/); return only "words" substr(p, RSTART, RLENGTH - 1) }
    if (p ~ /usize|size_t/) return "size"
    if (p ~ /\*|&/) return only "word"
    return "u64"
}
