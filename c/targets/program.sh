#!/bin/sh
# Builds replay.c for a processor, without a C library, by the kit's clang and linker alone, for qemu's user mode.
#
#   program.sh MODULE.ll TARGET LEVEL OUT       MODULE.ll of module.sh; TARGET as for retarget.py; LEVEL: -O3, -Os .. or small
#   program.sh LIBRARY.a TARGET LEVEL OUT       the same over the library of archive.sh
set -eu
here=$(cd "$(dirname "$0")" && pwd)
linker=$(dirname "$("${RT:-rt}" doc)")/toolchain/bin/ld.lld
library=$1 target=$2 level=$3 out=$4
work=$(mktemp -d)
trap 'rm -rf "$work"' EXIT

files="runtime alone replay"
cp "$here/../iface.h" "$here/../arena.h" "$here/../arena.c" "$here/runtime.c" "$here/alone.c" "$here/replay.c" "$work/"
case $target in
thumb* | riscv32*) "$here/header.sh" "$work/iface.h" ;;
esac
case $library in
*.ll)
    files="$files arena"
    "$here/compile.sh" "$library" "$target" "$level" "$work/iface.o"
    case $target in
    thumb* | riscv32*) "$here/compile.sh" "$here/heap32.same.ll" "$target" "$level" "$work/heap.o" ;;
    esac
    library=
    ;;
esac
for file in $files; do
    "$here/compile.sh" "$work/$file.c" "$target" "$level" "$work/$file.o" -ffreestanding -fno-builtin -std=c11 -I"$here/include"
done
# shellcheck disable=SC2086
"$linker" --gc-sections -static -e _start -o "$out" "$work"/*.o $library
