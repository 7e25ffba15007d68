# The texts of Rattle sources that stand in none of the samples: awk -v shown=FILE -f tests/texts.awk SOURCE ... A text is what a literal has between its
# holes and ends of lines, and has a letter.
BEGIN { while ((getline line < shown) > 0) all = all line "\n" }
function judge(literal,    n, k, parts) {
    gsub(/\\x1b\[[0-9;]*m?/, "\n", literal)
    gsub(/\\n/, "\n", literal)
    gsub(/{[^}]*}/, "\n", literal)
    n = split(literal, parts, "\n")
    for (k = 1; k <= n; k++) if (parts[k] ~ /[A-Za-z]/ && !index(all, parts[k])) print FILENAME ": " parts[k]
}
FNR == 1 { inside = 0 }
!inside && /^ *(\/\/|ghost use |#\[serde)/ { next }
{
    rest = $0
    while ((at = index(rest, "\"")) > 0) {
        if (inside) {
            judge(literal substr(rest, 1, at - 1))
            literal = ""
        }
        inside = !inside
        rest = substr(rest, at + 1)
    }
    if (inside) literal = literal rest "\n"
}
