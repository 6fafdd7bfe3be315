#!/bin/sh
# Prints the code and constants of lwIP that echo.c takes, linked as the library's smallest program is. Its own aren't counted.
#
#   size.sh SOURCE      the unpacked source of lwIP 2.1.3, as of `apt-get source lwip` on Debian 12
set -eu
here=$(cd "$(dirname "$0")" && pwd)
work=$(mktemp -d)
trap 'rm -rf "$work"' EXIT
sum() { # of the sections that begin with this: sum WHICH FILE
    size -A "$2" | awk -v which="$1" '$1 ~ "^\\." which { sum += $2 } END { print sum + 0 }'
}
for families in both IPv4; do
    for level in -O2 -Os; do
        set -- "$1" "$level" -ffreestanding -fno-stack-protector -ffunction-sections -fdata-sections
        [ $families = both ] || set -- "$@" -DLWIP_IPV6=0
        source=$1
        shift
        ${CC:-cc} "$@" -I"$here" -I"$source/src/include" -c "$here/echo.c" -o "$work/echo.o"
        ${CC:-cc} "$@" -I"$here" -I"$source/src/include" -nostdlib -static -Wl,--gc-sections -Wl,-e,start \
            -Wl,--unresolved-symbols=ignore-all "$work/echo.o" "$source"/src/core/*.c "$source"/src/core/ipv4/*.c \
            "$source"/src/core/ipv6/*.c "$source/src/netif/ethernet.c" -o "$work/echo"
        code=$(($(sum text "$work/echo") - $(sum text "$work/echo.o")))
        echo "$families $level: code $code, constants $(($(sum rodata "$work/echo") - $(sum rodata "$work/echo.o")))"
        set -- "$source"
    done
done
