#!/bin/sh
# The stack of each function of a static library: what its frame takes (pushes, the stack pointer's step, the return
# address), and the deepest chain of calls from it. A function that two objects have is in two lines. Needs objdump and
# awk.
#   stack.sh LIBRARY.a
set -eu
objdump -dr --no-show-raw-insn -M intel "$1" | awk '
# Calls stay within an object.
/: +file format / { object = $1; next }
/^[0-9a-f]+ <.*>:$/ { name = $2; sub(/^</, "", name); sub(/>:$/, "", name); name = object name; frame[name] = 8; order[++n] = name; next }
$2 == "push" { if (!ended[name]) frame[name] += 8 }
# A large frame is taken piece by piece, down to a goal that is computed first.
$2 == "mov" && $3 ~ /^r[0-9a-z]+,rsp$/ { split($3, part, ","); from = part[1] }
$2 == "sub" && from && index($3, from ",0x") == 1 { split($3, part, ","); goal = number(part[2]); from = "" }
$2 == "lea" && $3 ~ /^r[0-9a-z]+,\[rsp-0x[0-9a-f]+\]$/ { split($3, part, "-"); sub(/\]$/, "", part[2]); goal = number(part[2]) }
$2 == "sub" && $3 ~ /^rsp,0x(1000|c00)$/ && goal { frame[name] += goal; goal = 0; next }
$2 == "sub" && $3 ~ /^rsp,/ { split($3, part, ","); frame[name] += number(part[2]) }
$2 == "ret" { ended[name] = 1 }
/R_X86_64_(PLT32|PC32)/ {
    callee = $3; sub(/[-+]0x[0-9a-f]+$/, "", callee); sub(/^\.text\.(unlikely\.)?/, "", callee)
    calls[name, ++count[name]] = object callee
}
function number(text,   v, i, c) {
    if (text !~ /^0x/) return text + 0
    for (i = 3; i <= length(text); i++) { c = index("0123456789abcdef", substr(text, i, 1)) - 1; v = v * 16 + c }
    return v
}
function deep(f,   i, d, best) {
    if (f in known) return known[f]
    known[f] = frame[f]
    for (i = 1; i <= count[f]; i++) if (calls[f, i] in frame) { d = deep(calls[f, i]); if (d > best) best = d }
    return known[f] = frame[f] + best
}
END { for (i = 1; i <= n; i++) { name = order[i]; sub(/^[a-z_]*\.o:/, "", name); printf "%6d %6d %s\n", frame[order[i]], deep(order[i]), name } }' | sort -rn
