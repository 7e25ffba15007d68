# Of several tables that `bench time --plain` wrote, one for each link, one table: the means of the times, their ratio beside its bar, and the least and
# the greatest ratio of a link. Instructions are those of the first table.
#   awk -f means.awk TABLE..
function bar_of(text) { return match(text, /[0-9.]+/) ? substr(text, RSTART, RLENGTH) : "" }
BEGIN { FS = " \\| |^\\| | \\|$"; equal = 1 }
FNR == 1 { tables++ }
FNR == 1 && tables == 1 { sub(/ bar \|/, " bar | links |"); print }
FNR == 2 && tables == 1 { sub(/^\|---:\|---\|---:\|---:\|---:\|---\|/, "&---|"); print }
/^\| [0-9]+ \|/ && $4 !~ /^[0-9.]+$/ { equal = 0; print; next } # the two sides differ, and why
/^\| [0-9]+ \|/ {
    if (!($2 in name)) { order[++cases] = $2; name[$2] = $3; bar[$2] = bar_of($7); counted[$2] = $8 == "" ? "" : " " $8 " | " $9 " | " $10 " |"; low[$2] = 1e9 }
    rust[$2] += $4
    ours[$2] += $5
    if ($6 < low[$2]) low[$2] = $6
    if ($6 > high[$2]) high[$2] = $6
}
/bars met/ && !/all equal/ { equal = 0 }
END {
    for (i = 1; i <= cases; i++) {
        c = order[i]
        ratio = ours[c] / rust[c]
        met = ratio <= bar[c] + 0
        if (bar[c] != "") { bars++; all += met }
        verdict = bar[c] == "" ? "" : "≤ " bar[c] (met ? " met" : " **missed**")
        printf "| %d | %s | %.2f | %.2f | %.3f | %s | %.2f to %.2f |%s\n", c, name[c], rust[c] / tables, ours[c] / tables, ratio, verdict, low[c], high[c], counted[c]
    }
    printf "\n%d of %d bars met; %s\n", all, bars, equal ? "all equal" : "DIFFERENT"
}
