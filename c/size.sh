#!/bin/sh
# Prints how many octets of code and of constants there are: of the whole library, and of what the smallest program
# takes of it that echoes UDP and answers ping. That is examples/freestanding.c, whose own code isn't counted. And how many
# octets of code each service adds to a program that makes all calls but those of services.
#
# boards/figures.sh tells of whole programs what they take, memory and stack too.
#
#   size.sh FOLDER      of the built library and program; CC names the compiler, which links
set -eu
here=$(dirname "$0")
work=$(mktemp -d)
trap 'rm -rf "$work"' EXIT
sum() { # of the sections that begin with one of these: sum WHICH FILE
    size -A "$2" | awk -v which="$1" '$1 ~ "^\\.(" which ")" { sum += $2 } END { print sum + 0 }'
}

echo "library-code $(sum text "$1/libiface_c.a")"
echo "library-constants $(sum rodata "$1/libiface_c.a")"
echo "library-data $(sum 'data|bss' "$1/libiface_c.a")"

echo "minimal-code $(($(sum text "$1/freestanding") - $(sum text "$1/freestanding.o")))"
echo "minimal-constants $(($(sum rodata "$1/freestanding") - $(sum rodata "$1/freestanding.o")))"

# The calls that iface.h declares. A function of its own is none of the library's.
grep -v '^static inline ' "$here/iface.h" | grep -o '\biface_[a-z_]*(' | tr -d '(' | sort -u >"$work/calls"
grep -v -e '^iface_dhcp_' -e '^iface_dns_' -e '^iface_stream' "$work/calls" >"$work/others"
code_with() { # of a program with all calls but those of services, and with the ones that begin so: code_with FOLDER WORD
    grep "^$2" "$work/calls" | sort -u - "$work/others" | sed 's/^/-Wl,-u,/' |
        xargs "${CC:-cc}" -nostdlib -static -Wl,--gc-sections -o "$work/linked" "$1/freestanding.o" "$1/libiface.a"
    sum text "$work/linked"
}
without=$(code_with "$1" iface_version)
echo "dhcp-code $(($(code_with "$1" iface_dhcp_) - without))"
echo "dns-code $(($(code_with "$1" iface_dns_) - without))"
echo "streams-code $(($(code_with "$1" iface_stream) - without))"
