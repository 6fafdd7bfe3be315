#!/bin/sh
# Prints the code and constants of the library on each processor at -O3, at -Os and small, and on x86-64 of what
# freestanding.c takes of it.
#
#   sizes.sh MODULE.ll FOLDER      MODULE.ll of module.sh; FOLDER has freestanding.o and libiface.a (c/build)
set -eu
here=$(cd "$(dirname "$0")" && pwd)
work=$(mktemp -d)
trap 'rm -rf "$work"' EXIT
sum() { # of the sections that begin with this: sum WHICH FILE
    size -A "$2" | awk -v which="$1" '$1 ~ "^\\." which { sum += $2 } END { print sum + 0 }'
}
for target in x86-64 aarch64 riscv64 thumbv7em riscv32imac; do
    for level in -O3 -Os small; do
        "$here/compile.sh" "$1" $target $level "$work/iface.o"
        echo "$target $level: code $(sum text "$work/iface.o"), constants $(sum rodata "$work/iface.o")"
        [ $target = x86-64 ] || continue
        cc -nostdlib -static -Wl,--gc-sections -o "$work/program" "$2/freestanding.o" "$work/iface.o" "$2/about.o"
        echo "    of it freestanding.c takes: code $(($(sum text "$work/program") - $(sum text "$2/freestanding.o")))"
    done
done
