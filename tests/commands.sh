#!/bin/sh
# ./run, ./check and ./a72 over a command `rt` that only speaks as rt does: lines come as they are made, errors stand as they are, the status is
# rt's, and what is stopped leaves nothing behind. Wants nothing. Its last line is 'N as expected, M otherwise'.
set -u
cd "$(dirname "$0")/.." || exit 1
work=$(mktemp -d) || exit 1
trap 'rm -rf "$work"' EXIT
good=0
bad=0
pass() { good=$((good + 1)); }
fail() { bad=$((bad + 1)); echo "differs: $1"; sed 's/^/    /' "$work/out" "$work/err"; }

# A small repository, and the stub: `rt version` names the kit, `rt run` and `rt ci` do what the file `does` says.
here=$work/repository
mkdir -p "$here/crates/word/src" "$here/tools" "$here/tests" "$work/bin"
cp run check a72 "$here"
cp tools/said.sh tools/build tools/requires.awk "$here/tools"
echo 'echo the places are one' >"$here/tests/places.sh"
printf '#!/bin/sh\necho all is as counted\n' >"$here/tools/counts"
printf '#!/bin/sh\ncat "$1" "$2" >"$3"\n' >"$here/tools/lay"
printf '#!/bin/sh\n' >"$here/tools/plain"
chmod +x "$here/tools/counts" "$here/tools/lay" "$here/tools/plain"
printf 'word:\na72: word io\nreplay: word\ncases: word\ncore_static staticlib: word\ncluster_static staticlib: word\n' >"$here/crates.txt"
echo 'kit of the test' >"$here/kit"
: >"$here/crates/word/src/lib.rt"
for name in core_static cluster_static; do
    mkdir -p "$here/crates/$name/src" "$here/crates/$name/out"
    : >"$here/crates/$name/src/lib.rt"
    : >"$here/crates/$name/out/lib$name.a"
done
for name in a72 replay cases; do
    mkdir -p "$here/crates/$name/src" "$here/crates/$name/out"
    : >"$here/crates/$name/src/main.rt"
    printf '#!/bin/sh\necho "played $*"\n' >"$here/crates/$name/out/$name"
    chmod +x "$here/crates/$name/out/$name"
done
cat >"$work/bin/rt" <<'RT'
#!/bin/sh
case $1 in
version) echo 'kit of the test' ;;
*) . "$DOES" ;;
esac
RT
chmod +x "$work/bin/rt"
export PATH="$work/bin:$PATH" DOES="$work/does"
cd "$here" || exit 1

# in_out STATUS COMMAND..: the command has this status; what it says is in out and err.
in_out() {
    want=$1
    shift
    "$@" >"$work/out" 2>"$work/err"
    got=$?
    [ "$got" = "$want" ] || { fail "$* over $(head -n 1 "$DOES") (status $got, not $want)"; return 1; }
}
# what FILE TEXT: one of its lines is the text, or has it where the text ends with '..'.
has() {
    case $2 in
    *..) grep -qF -- "${2%..}" "$work/$1" && pass || fail "no '$2'" ;;
    *) grep -qxF -- "$2" "$work/$1" && pass || fail "no line '$2'" ;;
    esac
}
hasnt() { grep -qF -- "$2" "$work/$1" && fail "there is '$2'" || pass; }
last() { [ "$(tail -n 1 "$work/$1")" = "$2" ] && pass || fail "its last line is not '$2'"; }

# The first run: a line for each crate, none for a function, and the program is run.
cat >"$DOES" <<'RT'
# proves both
echo 'logic /kit: libraries=1' >&2
echo 'rt: word: begins with what a check kept in /elsewhere/crates/word' >&2
echo 'statements core: modules loaded=222 checked=0' >&2
echo 'fn word::bits: proved' >&2
echo 'crate word: modules loaded=0 checked=507' >&2
echo 'logic=proved functions=19 sum=dac8' >&2
echo 'library word: modules loaded=12 checked=0' >&2
echo 'by-macro: thiserror::Error,core::split_item blocks=2' >&2
echo 'only=0 proved=0' >&2
echo 'rt: word: the quick pass above reads the sources alone' >&2
echo 'fn word::each: proved where its callers give what it asks' >&2
echo 'crate a72: modules loaded=3 checked=9' >&2
echo 'logic=proved functions=1 axioms=3' >&2
echo 'what the program says when it is built'
RT
in_out 0 ./run && {
    has err 'run: proves a72 and what it stands on, 2 crates: about 15 minutes..'
    has err 'word: proved, functions: 19'
    has err 'a72: proved, functions: 1'
    hasnt err 'fn word::bits'
    hasnt err 'modules loaded'
    hasnt err 'kept in'
    hasnt err 'by-macro'
    hasnt err 'only=0'
    hasnt err 'quick pass'
    hasnt err 'where its callers'
    hasnt err 'what the program says'
    has out 'played chord'
}

# A second run says nothing before the program does; one after an edit says that it proves again.
echo 'exit 9' >"$DOES"
in_out 0 ./run && { [ ! -s "$work/err" ] && pass || fail 'a second run speaks'; }
echo 'exit 0' >"$DOES"
touch -d '2000-01-02' target/bin/a72
in_out 0 ./run && has err 'run: files are newer..'

# A proof that fails, and a toolchain that does.
cat >"$DOES" <<'RT'
# refuses a proof
echo 'fn word::bits: proved' >&2
printf '%s\n' 'crates/word/src/lib.rt:12:3: error: the goal a ≡ b\n is open' >&2
echo 'fn word::field: not proved' >&2
echo 'src/main.rt:3:1: error: a word is missing' >&2
exit 1
RT
touch -d '2000-01-02' target/bin/a72
in_out 1 ./run && {
    has err 'crates/word/src/lib.rt:12:3: error: the goal a ≡ b\n is open'
    has err 'fn word::field: not proved'
    has err 'crates/a72/src/main.rt:3:1: error: a word is missing'
    has err 'run: a72 is not proved, and was not run..'
    [ ! -s "$work/out" ] && pass || fail 'the program ran'
}
echo "printf 'rt: no toolchain' >&2; exit 2" >"$DOES"
in_out 1 ./run && has err 'rt: no toolchain'
in_out 2 ./run melody && has err 'usage: ./run [chord | cases]'
in_out 0 ./run --help

# A line comes when it is made: rt here waits for its line to arrive.
cat >"$DOES" <<RT
# waits for its own line
echo 'rt: word proved' >&2
n=0
until grep -q 'rt: word proved' "$work/err" || [ \$n = 50 ]; do sleep 0.1; n=\$((n + 1)); done
[ \$n -lt 50 ] || echo 'late'
RT
in_out 0 ./run && hasnt err late

# The gate: rt's last line is the last, and its status is the gate's.
cat >"$DOES" <<'RT'
# passes
echo '== word'
echo 'fn word::bits: proved'
echo 'empty contracts: 0 found; tried 1 of 1 functions'
echo 'crate word: modules loaded=0 checked=507'
echo 'logic=proved functions=19 sum=dac8'
echo 'rt: word proved'
echo 'rt: must-fail word/half_order.edit: refused, as it must be: note: src/lib.rt:1:1'
echo 'rt: ok; handles allowed: none; must-fail edits: 1 refused, 0 bad'
echo '3 passed, 0 failed'
RT
in_out 0 ./check && {
    last out '3 passed, 0 failed'
    has out 'rt: word proved'
    has out 'rt: must-fail word/half_order.edit: refused, as it must be: note: src/lib.rt:1:1'
    has out 'rt: ok; handles allowed: none; must-fail edits: 1 refused, 0 bad'
    hasnt out 'fn word::bits'
    hasnt out 'proved, functions'
    hasnt out 'check: note'
    has out 'check: target/staticlib/liba72abi.a is linked'
}
# What the gate built is run at once.
echo 'exit 9' >"$DOES"
in_out 0 ./run && { [ ! -s "$work/err" ] && pass || fail 'a run after the gate proves again'; }
echo "echo 'rt: ok'; echo '3 passed, 0 failed'" >"$DOES"
mv crates/core_static/out/libcore_static.a crates/core_static/out/kept
in_out 1 ./check && { has err 'check: liba72abi.a is not linked'; last out '3 passed, 1 failed'; }
mv crates/core_static/out/kept crates/core_static/out/libcore_static.a
echo 'another kit' >kit
in_out 0 ./check && { has out 'check: note: this kit is..'; last out '3 passed, 0 failed'; }
for code in 1 2; do
    echo "echo 'rt: FAILED: word'; echo '2 passed, 1 failed'; exit $code" >"$DOES"
    in_out $code ./check && last out '2 passed, 1 failed'
done
echo "echo 'rt: a fault in rt' >&2; exit 2" >"$DOES"
in_out 2 ./check && { has out 'rt: a fault in rt'; last out '0 passed, 1 failed'; }
printf 'pub fn f()\n    requires { x }\n{\n' >crates/word/src/lib.rt
in_out 1 ./check && { has err 'check: a requires on a public function: crates/word/src/lib.rt:2'; last out '0 passed, 1 failed'; }
: >crates/word/src/lib.rt
echo 'echo place LEVEL: 68 and 69; exit 1' >tests/places.sh
in_out 1 ./check && { has err 'check: the places of a state differ: place LEVEL: 68 and 69'; last out '0 passed, 1 failed'; }
echo 'echo the places are one' >tests/places.sh
printf '#!/bin/sh\necho page:7: states 75, counted 76\nexit 1\n' >tools/counts
in_out 1 ./check && { has err 'page:7: states 75, counted 76'; last out '0 passed, 1 failed'; }
printf '#!/bin/sh\necho all is as counted\n' >tools/counts
printf '#!/bin/sh\necho tlb/hint.rs: not what tools/plain writes\nexit 1\n' >tools/plain
in_out 1 ./check && { has err 'tlb/hint.rs: not what tools/plain writes'; last out '0 passed, 1 failed'; }
printf '#!/bin/sh\n' >tools/plain
mkdir crates/stray
in_out 1 ./check && { has err 'check: crates/stray is not listed in crates.txt'; last out '0 passed, 1 failed'; }
rmdir crates/stray
in_out 2 ./check some

# The tests outside it: each is counted, what fails shows its end, and what says nothing has failed.
echo "echo 'rt: ok'; echo '3 passed, 0 failed'" >"$DOES"
printf 'echo first; echo all good\n' >tests/good.sh
printf 'echo first; echo differs: the one at fault; seq 100; echo broken; exit 3\n' >tests/bad.sh
: >tests/silent.sh
in_out 1 ./check tests && {
    has out 'check: tests/good.sh: all good (..'
    has out 'check: tests/bad.sh: FAILED (..'
    has out '    broken'
    has out '    differs: the one at fault'
    has out 'check: tests/silent.sh: FAILED (..'
}

# Without cargo and python3 their parts are left out; `all` counts them as failed, after the gate's own numbers.
rm tests/bad.sh tests/silent.sh
mkdir "$work/few"
for tool in sh awk sed grep cat cp tr date mkdir tail head mktemp rm chmod df find basename dirname; do ln -s "$(command -v $tool)" "$work/few/$tool"; done
in_out 0 env PATH="$work/bin:$work/few" ./check tests && {
    has out 'check: differential: left out, cargo is missing'
    has out 'check: rows of docs/DIFFERENCES.md: left out, python3 is missing'
    last out '3 passed, 0 failed'
}
in_out 1 env PATH="$work/bin:$work/few" ./check all && last out '6 passed, 11 failed'

# Stopped: what rt had started ends too, and no scratch files stay.
cat >"$DOES" <<RT
# starts a prover
(trap '' INT; exec sleep 60) &
echo \$! >"$work/prover"
wait
RT
for command in ./run ./check; do
    rm -f "$work/prover" target/bin/a72
    TMPDIR=$work/scratch
    export TMPDIR
    mkdir -p "$TMPDIR"
    $command >"$work/out" 2>"$work/err" &
    started=$!
    n=0
    until [ -s "$work/prover" ] || [ $n = 50 ]; do sleep 0.1; n=$((n + 1)); done
    kill -TERM $started
    wait $started
    [ $? = 143 ] && pass || fail "$command stopped: its status"
    sleep 0.2
    # Ended, or ended and not yet asked for by its new parent.
    if sed 's/.*) //' "/proc/$(cat "$work/prover")/stat" 2>/dev/null | grep -q '^[^Z]'; then fail "$command stopped: the prover goes on"; else pass; fi
    [ -z "$(ls "$TMPDIR")" ] && pass || fail "$command stopped: scratch files stay"
done

# The tool's script: by a link, with the program's status, with one that is killed, and before it is built.
ln -s "$here/a72" "$work/bin/tool"
cp crates/a72/out/a72 target/bin/a72
in_out 0 tool run x && has out 'played run x'
in_out 0 tool counters x && has out 'played counters x'
printf '#!/bin/sh\necho "wrong $*" >&2\nexit 2\n' >target/bin/a72
in_out 2 ./a72 tune && { has err 'wrong tune'; [ ! -s "$work/out" ] && pass || fail 'the tool writes'; }
printf '#!/bin/sh\nkill -KILL $$\n' >target/bin/a72
chmod +x target/bin/a72
in_out 137 ./a72 chord
rm target/bin/a72
in_out 1 ./a72 chord && has err 'a72: it is not built yet..'

echo "$good as expected, $bad otherwise"
[ "$bad" = 0 ]
