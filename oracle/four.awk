# Of a table of `bench`, or of the means of several, the cases of four cores beside those of the same names of one core: as a table, a hint's instructions more
# and a TLBI's time as a multiple, each beside its bar. The status is 1 where a case of one core is missing.
# Of a call by its hint a second file, the lines of steps.c, has the instructions of the function alone: where it is given, those are shown.
#   awk -f four.awk TABLE [STEPS]
BEGIN { FS = " *\\| *"; of["TLBI Page, 1,024 live entries"] = 4.2; of["TLBI All"] = 4.3; more = 8 }
FNR == NR && /^\| [0-9]+ \|/ {
    name = $3
    time[name] = $5
    # the last three columns are instructions: the Rust's, these, their ratio
    counted[name] = NF >= 12 ? $(NF - 2) : ""
    if (sub(/^four cores, /, "", name)) order[++n] = name
}
FNR != NR {
    alone = 1; steps[$1] = $2 + 0; steps_four[$1] = $3 + 0
}
END {
    print "| On four cores | one core | four cores | | bar |\n|---|---:|---:|---:|---|"
    for (i = 1; i <= n; i++) {
        name = order[i]; four = "four cores, " name
        if (!(name in time)) { missing = 1; continue }
        if (name in of) {
            ratio = time[four] / time[name]
            printf "| %s | %.0f ns | %.0f ns | %.2f times | ≤ %.1f times %s |\n", name, time[name], time[four], ratio, of[name], ratio <= of[name] ? "met" : "**missed**"
        } else if (alone || counted[four] != "") {
            if (alone && !(name in steps)) { missing = 1; continue }
            here = alone ? steps[name] : counted[name]; there = alone ? steps_four[name] : counted[four]
            printf "| %s | %.0f | %.0f instructions | %d more | ≤ %d more %s |\n", name, here, there, there - here, more, there - here <= more ? "met" : "**missed**"
        }
    }
    exit missing || !n
}
