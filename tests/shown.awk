# Whether an output is what a sample shows: awk -f tests/shown.awk WANT GOT. A line '..' of the sample stands for lines left out, ' ..' at a line's end for the
# rest of it; spaces at a line's end do not count. Where they differ it writes the first line that is not met, and its status is 1.
{ sub(/ +$/, "") }
FILENAME == ARGV[1] { want[++wanted] = $0; next }
{ got[++lines] = $0 }
function same(w, g) {
    if (w == g) return 1
    return w ~ / \.\.$/ && substr(g, 1, length(w) - 3) == substr(w, 1, length(w) - 3)
}
function fits(i, j,    k) {
    for (; i <= wanted; i++ + j++) {
        if (want[i] ~ /^ *\.\.$/) {
            for (k = j + 1; k <= lines + 1; k++) if (fits(i + 1, k)) return 1
            return 0
        }
        if (j > lines || !same(want[i], got[j])) {
            if (i > missed) { missed = i; at = j }
            return 0
        }
    }
    if (j <= lines && i > missed) { missed = i; at = j }
    return j > lines
}
END {
    if (fits(1, 1)) exit 0
    print "    shown: " (missed <= wanted ? want[missed] : "nothing more")
    print "    is:    " (at <= lines ? got[at] : "nothing more")
    exit 1
}
