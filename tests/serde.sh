#!/bin/sh
# bindings/rust-serde with serde itself, which nothing here holds: its unit tests and its documentation's example, and the build without features.
# The crates are those of the folder A72_CRATES (as 'cargo vendor' makes one, or --fetch), or Debian's packages, unpacked for this run.
#   tests/serde.sh            tests
#   tests/serde.sh --fetch F  the crates into the folder F, and no more; status 1 where they are not to be had
set -eu
# A folder is meant from where this was called.
from_here() { case $1 in /*) echo "$1" ;; *) echo "$PWD/$1" ;; esac; }
crates=${A72_CRATES-}
[ -z "$crates" ] || crates=$(from_here "$crates")
packages='serde serde-derive bincode syn quote proc-macro2 unicode-ident'

# Debian's packages of the crates, as a folder of sources; where the machine has no lists of packages, by lists of this run's own. Called where sh forgets -e.
fetch() { # FOLDER
    mkdir -p "$1/packages" "$1/lists/partial" "$1/cache/archives/partial" || return 1
    (
        cd "$1/packages" || exit 1
        set -- -o "Dir::State::lists=$1/lists" -o "Dir::Cache=$1/cache"
        download || { apt-get -o APT::Sandbox::User=root "$@" update && download "$@"; } || exit 1
        for package in *.deb; do dpkg-deb -x "$package" .. || exit 1; done
    ) >"$1/log" 2>&1 || { tail -n 3 "$1/log" >&2; return 1; }
    rm -rf "$1/lists" "$1/cache"
}

download() { # OPTIONS..
    for name in $packages; do printf 'librust-%s-dev\n' "$name"; done | xargs apt-get -o APT::Sandbox::User=root "$@" download
}

if [ "${1-}" = --fetch ]; then
    fetch "$(from_here "$2")" || exit 1
    exit 0
fi
cd "$(dirname "$0")/.."
work=$(mktemp -d)
trap 'rm -rf "$work"' EXIT
if [ -z "$crates" ]; then
    crates=$work/debian
    fetch "$crates" || { echo "serde.sh: no package of serde is to be had; A72_CRATES names a folder of crates"; exit 1; }
fi
[ ! -d "$crates/usr/share/cargo/registry" ] || crates=$crates/usr/share/cargo/registry
for crate in rust rust-serde; do
    mkdir -p "$work/bindings/$crate"
    for file in bindings/"$crate"/*; do
        case $file in */target | */Cargo.lock) ;; *) cp -R "$file" "$work/bindings/$crate/" ;; esac
    done
done
cd "$work/bindings/rust-serde"
from() { cargo "$@" --offline --config 'source.crates-io.replace-with="here"' --config "source.here.directory='$crates'"; }
{ from build --no-default-features && from test; } >"$work/log" 2>&1 || { cat "$work/log"; exit 1; }
tests=$(awk '/^test result/ { p += $4 } END { print p + 0 }' "$work/log")
[ "$tests" -gt 0 ] || { cat "$work/log"; echo "serde.sh: cargo tested nothing"; exit 1; }
if grep -q '^warning' "$work/log"; then cat "$work/log"; echo "serde.sh: a warning"; exit 1; fi
echo "$tests tests pass with serde $(sed -n '/^name = "serde"$/{n;s/version = "\(.*\)"/\1/p;}' Cargo.lock)"
