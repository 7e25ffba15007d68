# What ./run, ./check and tools/build share; they source it in the repository's root. $own is their folder for scratch files, removed at the end.
own=$(mktemp -d)
trap 'rm -rf "$own"' EXIT

# rt starts provers in the background, where a shell has them ignore Ctrl-C. So what stops this shell ends all that it started.
stop() { # STATUS
    trap '' INT TERM HUP
    started=$(cat /proc/[0-9]*/stat 2>/dev/null | sed 's/ (.*) / /' | awk -v top=$$ '
        { of[$1] = $3 }
        END { for (p in of) { for (q = p; q in of && q != top; q = of[q]); if (q == top && p != top) print p } }')
    # shellcheck disable=SC2086
    kill $started 2>/dev/null || :
    sleep 1 # they end
    exit "$1"
}
trap 'stop 129' HUP
trap 'stop 130' INT
trap 'stop 143' TERM

# What rt says, without the line of each function that is proved and of what it loads or keeps: a line for each crate and each edit, and every error as
# it stands, with its crate. HOW: all, where rt says itself that a crate is proved; new, where it does not, and what was proved before says nothing. rt's last line goes to
# $own/tally. (Line by line in sh: mawk waits until it has 4 KB.)
speak() { # HOW
    crate=
    while IFS= read -r line || [ -n "$line" ]; do
        case $line in
        'crate '*': modules loaded='*)
            crate=${line%%: modules *} crate=${crate#crate }
            continue
            ;;
        'logic=proved functions='*)
            number=${line#logic=proved functions=}
            [ "$1" = all ] || [ -z "$crate" ] || printf '%s: proved, functions: %s\n' "$crate" "${number%% *}"
            crate=
            continue
            ;;
        'fn '*': proved' | 'enum '*': proved' | 'struct '*': proved' | 'const '*': proved' | 'impl '*': proved' | 'trait '*': proved') continue ;;
        'logic '* | 'library '*': modules loaded='* | 'statements '* | 'checked '*' of '* | 'so far: '* | 'empty contracts: 0 found'* | '== '* | '') continue ;;
        'axioms '*': '* | 'linked target='* | 'rt: running '*) continue ;;
        'note: no function with a body is declared'* | 'rt: chose --jobs '*) continue ;;
        'by-macro: '* | *'only='*' proved='* | *'the quick pass above'* | *': proved where its callers give '*) continue ;;
        [0-9]*' passed, '[0-9]*' failed')
            printf '%s\n' "$line" >"$own/tally"
            continue
            ;;
        'rt: '*': begins with what a check kept in '*) continue ;;
        'rt: '*' is kept: '* | 'rt: ok; '*) [ "$1" = all ] || continue ;;
        esac
        # rt names the files of the crate that it was called for by their place in it.
        case $line in src/* | specs/* | proofs/* | ./proofs/*) line=${folder:+$folder/}${line#./} ;; esac
        printf '%s\n' "$line"
    done
}

# rt with these words, its output by speak; the status is rt's. Under run rt speaks on standard error, and what the program writes is left out.
rt_said() { # HOW WORDS..
    how=$1
    shift
    : >"$own/status"
    : >"$own/tally"
    {
        code=0
        if [ "$1" = run ]; then rt "$@" 2>&1 >/dev/null || code=$?; else rt "$@" 2>&1 || code=$?; fi
        echo "$code" >"$own/status"
    } | speak "$how" &
    wait $! || :
    code=$(cat "$own/status")
    return "${code:-1}"
}

have() { command -v "$1" >/dev/null 2>&1; }
