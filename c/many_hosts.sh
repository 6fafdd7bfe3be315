#!/bin/sh
# Compares what many_hosts prints with what follows from its arguments.
#
#   many_hosts.sh COMMAND..      how it is run, without arguments
#
# If WITH names a program, it has to print the same.
set -eu
work=$(mktemp -d)
trap 'rm -rf "$work"' EXIT

refuse() {
    echo "many_hosts.sh: with the arguments $1: $2" >&2
    exit 1
}

# ARGUMENTS TOTALS COMMAND..: the last row has these totals, if any are given. Each datagram that came has its lines,
# and as many as the totals say.
try() {
    arguments=$1 totals=$2
    shift 2
    "$@" $arguments >"$work/out" || refuse "$arguments" 'it failed'
    set -- $(tail -n 1 "$work/out")
    [ -z "$totals" ] || [ "$*" = "all $totals" ] || refuse "$arguments" "the totals are $*, and not $totals"
    grep ' gets datagram ' "$work/out" | cut -d ' ' -f 3- >"$work/came" || :
    [ "$(wc -l <"$work/came")" = $(($3 + $5)) ] || refuse "$arguments" 'a line is missing, or too many'
    [ "$(sort -u "$work/came" | wc -l)" = "$3" ] || refuse "$arguments" 'it counts others than came'
    [ $(($3 + $4)) = "$2" ] || refuse "$arguments" 'what is lost is wrong'
    cp "$work/out" "$work/of $arguments"
}

# Each host sends ten datagrams: sent, delivered, lost, repeated. On a link that loses nothing each one comes once, in
# whatever order; where each frame comes twice, so does each datagram; where no frame comes, none does.
try '20 1 0 0' '200 200 0 0' "$@"
try '20 1 0 1000' '200 200 0 200' "$@"
try '20 1 1000 0' '200 0 200 0' "$@"
try '150 1 0 0' '1500 1500 0 0' "$@"
# On a link that loses some, the same seed prints the same, and another one something else.
for arguments in '20 1 100 50' '20 2 100 50' '2 3 400 200'; do
    try "$arguments" '' "$@"
    cp "$work/out" "$work/once"
    if [ -n "${WITH:-}" ]; then try "$arguments" '' "$WITH"; else try "$arguments" '' "$@"; fi
    cmp "$work/once" "$work/out" || refuse "$arguments" 'it prints something else the second time'
done
! cmp -s "$work/of 20 1 100 50" "$work/of 20 2 100 50" || refuse 'of two seeds' 'it prints the same'
echo "many_hosts: of 20 hosts on a link that loses and repeats some, $(tail -n 1 "$work/of 20 1 100 50" | tr -s ' ')"
