#!/bin/sh
# Builds a program for a board, over the library for its processor.
#
#   build.sh BOARD FILE.c LIBRARY.a OUT      BOARD: a folder of here, or mps2-an386, which is
#                                            mps2-an385 with a Cortex-M4; FILE.c as hello.c. Its status is 3 where there is no compiler
#
# By BOARD_CC; where that isn't set, in a checkout by the kit's clang and linker, and else by arm-none-eabi-gcc or riscv64-unknown-elf-gcc.
# INCLUDE has iface.h for 32 bits and arena.h: where it isn't set, those of the checkout or of the release. STACK is how many octets the
# stack has, 32,768 if it isn't set; NAME is the name whose address is asked for.
set -eu
here=$(cd "$(dirname "$0")" && pwd)
board=$1 file=$2 library=$3 out=$4
work=$(mktemp -d)
trap 'rm -rf "$work"' EXIT
case $board in
mps2-an385) target=thumbv7m compiler=arm-none-eabi-gcc processor="-mcpu=cortex-m3 -mthumb" ;;
mps2-an386) target=thumbv7em compiler=arm-none-eabi-gcc processor="-mcpu=cortex-m4 -mthumb" ;;
virt-riscv32) target=riscv32imac compiler=riscv64-unknown-elf-gcc processor="-march=rv32imac_zicsr -mabi=ilp32" ;;
*) echo "build.sh: $board?" >&2 && exit 2 ;;
esac
files=$here/$board
[ "$board" != mps2-an386 ] || files=$here/mps2-an385
targets=$here/../targets
[ -d "$targets" ] || BOARD_CC=${BOARD_CC:-$compiler}
if [ -n "${BOARD_CC:-}" ] && ! command -v "$BOARD_CC" >/dev/null; then
    echo "build.sh: $board: no $BOARD_CC" >&2
    exit 3
fi
if [ -z "${INCLUDE:-}" ] && [ ! -d "$targets" ]; then
    INCLUDE=$here/../include
elif [ -z "${INCLUDE:-}" ]; then
    INCLUDE=$work/include
    mkdir "$INCLUDE"
    "$targets/header.sh" "$INCLUDE/iface.h"
    cp "$here/../arena.h" "$INCLUDE/"
fi
alone=$here/alone.c
[ -f "$alone" ] || alone=$targets/alone.c
for source in "$file" "$alone" "$files"/*.c; do
    object=$work/$(basename "$source" .c).o
    if [ -n "${BOARD_CC:-}" ]; then
        # shellcheck disable=SC2086
        "$BOARD_CC" $processor -Os -std=c11 -Wall -Wextra -ffreestanding -fno-builtin -ffunction-sections -fdata-sections -I"$INCLUDE" -I"$here" \
            ${NAME:+"-DNAME=\"$NAME\""} -c "$source" -o "$object"
    else
        "$targets/compile.sh" "$source" "$target" -Os "$object" -std=c11 -Wall -Wextra -ffreestanding -fno-builtin \
            -I"$INCLUDE" -I"$targets/include" -I"$here" ${NAME:+"-DNAME=\"$NAME\""}
    fi
done
if [ -n "${BOARD_CC:-}" ]; then
    # shellcheck disable=SC2086
    "$BOARD_CC" $processor -nostdlib -static -Wl,--gc-sections -Wl,-z,noexecstack ${STACK:+"-Wl,--defsym=stack_size=$STACK"} -T "$files/board.ld" -o "$out" "$work"/*.o "$library"
else
    "$(dirname "$("${RT:-rt}" doc)")/toolchain/bin/ld.lld" --gc-sections -static ${STACK:+"--defsym=stack_size=$STACK"} -T "$files/board.ld" -o "$out" "$work"/*.o "$library"
fi
