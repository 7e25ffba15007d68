# Of several tables that `guests speed` wrote, one for each link, one: the means of the times, and the least and the greatest ratio of a link.
#   awk -f means.awk TABLE..
FNR == 1 { tables++; next }
/ within / { ended += $(NF - 2); next }
{
    loop = substr($0, 1, 38)
    if (!(loop in a)) { order[++loops] = loop; low[loop] = 1e9 }
    split(substr($0, 39), n, " ")
    a[loop] += n[1]
    b[loop] += n[2]
    h[loop] += n[3]
    if (n[4] < low[loop]) low[loop] = n[4]
    if (n[4] > high[loop]) high[loop] = n[4]
}
END {
    printf "%-38s %9s %9s %9s %7s %9s  %s\n", "ns for each instruction", "published", "proved", "with host", "ratio", "to host", "links"
    for (i = 1; i <= loops; i++) {
        l = order[i]
        ratio = b[l] / a[l]
        sum += log(ratio)
        within += ratio <= 1.05
        printf "%-38s %9.2f %9.2f %9.2f %7.2f %9.2f  %.2f to %.2f\n", l, a[l] / tables, b[l] / tables, h[l] / tables, ratio, b[l] / h[l], low[l], high[l]
    }
    printf "%d of %d within 1.05 of pimu without host pointers, %.2f in the mean; %d end otherwise\n", within, loops, exp(sum / loops), ended
    exit ended != 0
}
