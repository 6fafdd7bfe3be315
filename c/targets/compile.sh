#!/bin/sh
# Compiles the module for a processor, by the kit's clang with what the kit's own build gives it.
#
#   compile.sh MODULE.ll TARGET LEVEL OUT.o [FLAG..]      TARGET as for retarget.py; LEVEL: -O3, -Os .., or small, which is -Os
#                                                         without the inlining that the sources ask for
#   compile.sh FILE.c TARGET LEVEL OUT.o [FLAG..]         a file of C, or of LLVM's language with the name *.same.ll, as it is
set -eu
here=$(cd "$(dirname "$0")" && pwd)
clang=$(dirname "$("${RT:-rt}" doc)")/toolchain/bin/clang
file=$1 target=$2 level=$3 out=$4
shift 4
how=
[ "$level" != small ] || how=small level=-Os
case $target in
x86-64) processor="--target=x86_64-unknown-linux-gnu -march=x86-64-v2" ;;
aarch64) processor="--target=aarch64-unknown-linux-gnu -march=armv8-a" ;;
riscv64) processor="--target=riscv64-unknown-linux-gnu -march=rv64gc -mabi=lp64d" ;;
thumbv7m) processor="--target=thumbv7m-none-eabi -mcpu=cortex-m3 -mfloat-abi=soft" ;;
thumbv7em) processor="--target=thumbv7em-none-eabi -mcpu=cortex-m4 -mfloat-abi=soft" ;;
riscv32imac) processor="--target=riscv32-none-elf -march=rv32imac -mabi=ilp32" ;;
*) echo "compile.sh: $target?" >&2 && exit 2 ;;
esac
case $file in
*.c | *.same.ll) ;;
*)
    # shellcheck disable=SC2086
    "$here/retarget.py" "$file" "$out.ll" "$target" $how
    file=$out.ll
    ;;
esac
# shellcheck disable=SC2086
"$clang" $processor "$level" -ffunction-sections -fdata-sections -mllvm -no-trap-after-noreturn -mllvm -trap-unreachable \
    -mllvm -disable-machine-licm -mllvm -disable-postra-machine-licm -mllvm -sink-common-insts=false \
    -Wno-override-module -Wno-unused-command-line-argument "$@" -c "$file" -o "$out"
rm -f "$out.ll"
