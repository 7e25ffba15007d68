# Seconds of each crate and of its must-fail edits, from a gate's log (what ./check wrote): rows '| crate | s | edits | s |', their sum, and the gate's.
#   awk -f tools/seconds.awk GATE.LOG
# The status is 1 where the log has no crate.
/^rt: [a-z0-9_]+ proved \([0-9]+ s\)/ {
    t = $4; sub(/\(/, "", t)
    if (!($2 in s)) order[++count] = $2
    s[$2] = t + 0
}
/^rt: must-fail [a-z0-9_]+\/.*: refused/ {
    split($3, p, "/")
    t = $0; sub(/ s\)$/, "", t); sub(/.*[ (]/, "", t)
    edits[p[1]]++
    es[p[1]] += t
}
/^check: rt ci took / { gate = $5 }
END {
    for (i = 1; i <= count; i++) {
        name = order[i]
        print "| " name " | " s[name] " | " (edits[name] ? edits[name] " | " es[name] : " | ") " |"
        all += s[name]; number += edits[name]; of_edits += es[name]
    }
    print "| all | " all + 0 " | " number + 0 " | " of_edits + 0 " |"
    if (gate) print "| the gate, whole | " gate " | | |"
    if (!count) { print "no crate in the log" >"/dev/stderr"; exit 1 }
}
