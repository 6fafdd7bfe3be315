#!/bin/sh
# Makes the library for a processor whose pointers have 32 bits, as one archive: the module, the three functions for its memory, arena.c
# and about.c.
#
#   archive.sh MODULE.ll TARGET LEVEL OUT.a      as for compile.sh; COMMIT, where it is set, is what iface_build() tells of the sources
set -eu
here=$(cd "$(dirname "$0")" && pwd)
archiver=$(dirname "$("${RT:-rt}" doc)")/toolchain/bin/llvm-ar
work=$(mktemp -d)
trap 'rm -rf "$work"' EXIT
"$here/header.sh" "$work/iface.h"
cp "$here/../arena.h" "$work/"
"$here/compile.sh" "$1" "$2" "$3" "$work/iface_c.o"
cp "$here/heap32.same.ll" "$work/"
: >"$work/marks.h"
case $2 in
thumb*) # it passes neither floating-point numbers nor enumerations, so it fits programs of any way to pass these
    echo 'module asm ".eabi_attribute 28, 3"' >>"$work/heap32.same.ll"
    echo '__asm__(".eabi_attribute 28, 3"); __asm__(".eabi_attribute 26, 0");' >"$work/marks.h"
    ;;
esac
"$here/compile.sh" "$work/heap32.same.ll" "$2" "$3" "$work/heap32.o"
for file in arena about; do
    cp "$here/../$file.c" "$work/"
    "$here/compile.sh" "$work/$file.c" "$2" "$3" "$work/$file.o" -std=c11 -ffreestanding -include "$work/marks.h" -I"$here/include" ${COMMIT:+"-DIFACE_COMMIT=\"$COMMIT\""}
done
mkdir -p "$(dirname "$4")"
rm -f "$4"
"$archiver" rcsD "$4" "$work/iface_c.o" "$work/heap32.o" "$work/arena.o" "$work/about.o"
