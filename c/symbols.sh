#!/bin/sh
# Compares what the library wants from the program, and what it gives, with what C.md and iface.h say; and that a program which
# calls no service contains nothing of DHCP, DNS and connections of TCP.
#
#   symbols.sh LIBRARY PROGRAM      libiface.a, and freestanding, linked by --gc-sections; NM names the tool
set -eu
here=$(dirname "$0")
work=$(mktemp -d)
trap 'rm -rf "$work"' EXIT

# A symbol that a member of the library wants and none has. The heap's own wishes are those of heap.c.
"${NM:-nm}" -g "$1" | awk '/^[^ ]*:$/ { is_heap = $1 == "heap.o:" } !is_heap && NF == 2 && $1 == "U" { print $2 }' |
    sort -u >"$work/wanted"
"${NM:-nm}" -g "$1" | awk 'NF == 3 && $2 ~ /[TDBRVW]/ { print $3 }' | sort -u >"$work/given"
grep -v '^rattle_' "$work/given" >"$work/given_for_c"
comm -23 "$work/wanted" "$work/given_for_c" >"$work/needed"
printf '%s\n' memcpy memmove memset rattle_alloc rattle_dealloc rattle_realloc >"$work/told"
# What the header declares. A function of its own is none of the library's.
grep -v '^static inline ' "$here/iface.h" | grep -o '\biface_[a-z_]*(' | tr -d '(' | sort -u >"$work/declared"

differ() {
    diff "$1" "$2" >"$work/difference" && return
    echo "symbols.sh: $3" >&2
    cat "$work/difference" >&2
    exit 1
}
differ "$work/told" "$work/needed" "what the library needs (<: as C.md says, >: as it is)"
differ "$work/declared" "$work/given_for_c" "what it gives (<: as iface.h says, >: as it is)"
# Functions by the names of their crates, and calls.
"${NM:-nm}" "$2" | awk 'NF == 3 { print $3 }' |
    grep -E '^(iface_(dhcp|dns|stream)|dhcp_|dns_|tcp_(connection|host|machine|packets|sockets|streams))' >"$work/of_services" || true
differ /dev/null "$work/of_services" "$2 contains (>)"
echo "symbols: it needs $(tr '\n' ' ' <"$work/needed")and gives the $(wc -l <"$work/declared") functions of iface.h"
