#!/bin/sh
# include/a72.h from C: bindings/c/example.c, embed.c and cluster.c write what their .out has, tests/readers.c reads what it set, tests/windows.c asks for pairs of
# windows, tests/flip.c for bits of RAM, and tests/cluster.c has four cores beside four single ones. All compile without a warning, as C++ too. Wants a C compiler (CC, or cc, gcc, clang, or the kit's where it finds the C library's headers) and target/staticlib/liba72abi.a
# (tools/build a72abi; A72_LIB names another folder). What lacks one of them is left out, and said to be.
set -eu
cd "$(dirname "$0")/.."
library=${A72_LIB:-target/staticlib}/liba72abi.a
work=$(mktemp -d)
trap 'rm -rf "$work"' EXIT
strict='-O2 -Wall -Wextra -pedantic -Werror -Iinclude'

# The first of these that can compile a program.
printf '#include <stdio.h>\nint main(void) { return 0; }\n' >"$work/none.c"
compiler() { # LANGUAGE COMMAND..
    language=$1
    shift
    for c; do
        if [ -n "$c" ] && "$c" -x "$language" -o "$work/none" "$work/none.c" 2>/dev/null; then
            echo "$c"
            return
        fi
    done
}
cc=$(compiler c "${CC-}" cc gcc clang)
[ -n "$cc" ] || { echo "left out: there is no C compiler (cc, gcc, clang, or one that CC names) that makes a program"; exit 0; }
cxx=$(compiler c++ "${CXX-}" c++ g++ clang++)

# shellcheck disable=SC2086
for name in bindings/c/example bindings/c/embed bindings/c/cluster tests/readers tests/windows tests/flip tests/cluster; do
    "$cc" -std=c99 $strict -c "$name.c" -o "$work/$(echo "$name" | tr / -).o"
    [ -z "$cxx" ] || "$cxx" -x c++ -std=c++11 $strict -fsyntax-only "$name.c"
done
[ -f "$library" ] || { echo "compiled; the run is left out: $library is missing, and tools/build a72abi makes it"; exit 0; }
for name in bindings-c-example bindings-c-embed bindings-c-cluster tests-readers tests-windows tests-flip tests-cluster; do
    "$cc" "$work/$name.o" "$library" -o "$work/$name"
done
for name in example embed cluster; do
    "$work/bindings-c-$name" >"$work/out"
    diff "bindings/c/$name.out" "$work/out"
done
# Installed, it is found by pkg-config, where that is here.
tools/install "$work/prefix" >/dev/null
if command -v pkg-config >/dev/null; then
    # shellcheck disable=SC2046
    "$cc" bindings/c/embed.c $(PKG_CONFIG_PATH="$work/prefix/lib/pkgconfig" pkg-config --cflags --libs a72) -o "$work/installed"
else
    "$cc" -I"$work/prefix/include" bindings/c/embed.c "$work/prefix/lib/liba72abi.a" -o "$work/installed"
fi
"$work/installed" >"$work/out"
diff bindings/c/embed.out "$work/out"
for name in readers windows flip cluster; do
    "$work/tests-$name" >"$work/$name.said" || { cat "$work/$name.said"; exit 1; }
done
echo "the examples compile${cxx:+, as C++ too,} and write what is expected, installed too; $(cat "$work/readers.said"), of windows $(cat "$work/windows.said"), of flips $(cat "$work/flip.said"), of four cores $(cat "$work/cluster.said")"
