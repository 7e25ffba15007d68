# Takes the samples out of documents: each command, and what is shown below it. Use: awk -v to=PREFIX -f tests/samples.awk FILE ..
# In a block that opens with ```console a line '$ COMMAND' is a command, and the lines up to the next are what it writes. Each goes to PREFIX.N.run
# and PREFIX.N.want, with a line 'N run FILE:LINE' on standard output. Any other block says why it is not run, as in ```text not run: a diagram, and gets
# '- FILE:LINE: REASON'; one that does not, indented ones too, gets '! FILE:LINE'.
function place() { return FILENAME ":" FNR }
function closed() { if (file != "") { close(file); file = "" } }
FNR == 1 { inside = 0; indented = 0; blank = 1 }
/^```/ && !inside {
    inside = 1
    sample = ($0 == "```console")
    if (!sample) {
        if (match($0, /not run: ./)) print "- " place() ": " substr($0, RSTART + 9)
        else print "! " place()
    }
    shown = 0
    next
}
/^```/ {
    if (sample && !shown) print "! " place()
    inside = 0
    closed()
    next
}
inside && sample && /^\$ / {
    closed()
    n++
    shown = 1
    print substr($0, 3) >(to "." n ".run")
    close(to "." n ".run")
    file = to "." n ".want"
    printf "" >file
    print n " run " place()
    next
}
inside && sample && !shown { print "! " place(); shown = 1; next }
inside && sample { print >file; next }
inside { next }
/^    / { if (blank && !indented) { print "! " place(); indented = 1 } next }
{ indented = 0; blank = ($0 == "") }
