#!/bin/bash
# Prints what programs take: octets of code, constants, memory of their own, the library's memory at its peak, and stack at its deepest;
# on x86-64 and on the board mps2-an385. Each runs on a TAP device in a network namespace of its own, with peers that use it. The
# last two are what they took there. The device's buffers for frames aren't counted, nor is what the C library of Linux takes.
#
#   figures.sh BUILD              c/build, with libiface.a and firmware/libiface-thumbv7m.a
#   figures.sh --check PAGE FILE   compares what it printed, in FILE, with the table of a page: each may be three in a hundred less or more
#
# It needs root or user namespaces, /dev/net/tun, unshare, ip, ping, python3, nm, size and qemu-system-arm: without, its status is 3.
set -eu
if [ "$1" = --check ]; then
    tr -d ',' <"$2" | sed -n 's/^| `\([a-z]*\)\.c`[^|]* | \([0-9]*\);[^|]* | \([0-9]*\) | \([0-9]*\) | \([0-9]*\) | \([0-9]*\);.*/\1 \2 \3 \4 \5 \6/p' |
        awk 'function differs(told, counted) { return counted > told * 1.03 || counted < told * 0.97 }
            NR == FNR { if ($2 == "thumbv7m") found[$1] = ($3 + $4) " " $5 " " $6 " " $7; next }
            { rows++; split(found[$1], f, " "); sum = f[2] + f[3] + f[4]
              if (differs($2, f[1]) || differs($3, f[2]) || differs($4, f[3]) || differs($5, f[4]) || differs($6, sum)) {
                  print "WRONG: " $1 ": " f[1] ", " f[2] ", " f[3] ", " f[4] ", " sum; bad = 1 } }
            END { if (rows != 4) print "WRONG: " rows + 0 " rows"; exit bad || rows != 4 }' "$3" -
    exit
fi
build=$(realpath "$1")
here=$(dirname "$(realpath "$0")")
programs=${PROGRAMS:-ping udp client server hello}
work=$(mktemp -d)
running=
finish() {
    for process in $running; do kill "$process" 2>/dev/null || true; done
    wait
    rm -rf "$work"
}
trap finish EXIT

lacks() {
    echo "boards/figures.sh: $1: nothing was counted" >&2
    exit 3
}

library=$build/libiface.a
[ -f "$library" ] || library=$build/libiface_unproved.a
if [ -z "${IS_INSIDE:-}" ]; then
    for tool in unshare ip ping python3 nm size qemu-system-arm; do
        command -v "$tool" >/dev/null || lacks "no $tool"
    done
    inside="unshare -n"
    [ "$(id -u)" = 0 ] || inside="unshare -Urn"
    $inside ip tuntap add dev tap0 mode tap 2>/dev/null || lacks "no root or user namespaces, or no /dev/net/tun"
    IS_INSIDE=1 exec $inside -- "$0" "$build"
fi

ip link set lo up
ip tuntap add dev tap0 mode tap
ip addr add 192.168.69.100/24 dev tap0
ip link set tap0 up
mkdir "$work/pages"
seq 2000 >"$work/pages/index.html"
python3 "$here/../small_peer.py" tap0 192.168.69.100 --dhcp 192.168.69.50 192.168.69.59 --names --pages 80 "$work/pages" >"$work/server" 2>&1 &
running=$!

line() {
    local found
    for _ in $(seq 300); do
        found=$(tr -d '\r' <"$work/said" | sed -n "s|^$1\$|\\1|p" | head -1)
        [ -z "$found" ] || { echo "$found"; return; }
        sleep 0.1
    done
    echo "figures.sh: $program: within half a minute there was no line '$1'" >&2
    cat "$work/said" "$work/server" >&2
    exit 1
}

fetch() { # ADDRESS: the page that the program serves
    exec 3<>"/dev/tcp/$1/80" && printf 'GET / HTTP/1.0\r\n\r\n' >&3 && timeout 20 cat <&3 | grep -q '<h1>' && exec 3>&-
}

# Peers use the program: pings, some in fragments, one to a closed port, and what it is there for.
use() {
    local own peers=
    own=$(line 'address: \(192.168.69.*\)')
    ping -q -c 20 -i 0.01 -W 2 "$own" >"$work/answers"
    ping -q -c 2 -s 3000 -i 0.1 -W 2 "$own" >>"$work/answers"
    python3 -c "import socket
s = socket.socket(socket.AF_INET, socket.SOCK_DGRAM)
s.settimeout(5)
s.sendto(b'nobody', ('$own', 9))
for i in range(20 if '$program' == 'udp' else 0):
    s.sendto(bytes(25 * i), ('$own', 7))
    assert len(s.recv(2000)) == 25 * i"
    case $program in
    client) line 'octets of the answer: \(.*\)' >/dev/null ;;
    hello) line 'www.small.example: \(192.*\)' >/dev/null ;;&
    server | hello)
        for _ in 1 2 3 4; do
            fetch "$own" &
            peers="$peers $!"
        done
        for peer in $peers; do wait "$peer"; done
        ;;
    esac
    sleep 2
}

sum() { # of the sections whose names begin so: sum WHICH FILE
    size -A "$2" | awk -v which="$1" '$1 ~ "^\\." which { sum += $2 } END { print sum + 0 }'
}

frames() { # the buffers of the device, and the memory that is given to the library
    nm -S -t d "$1" | awk '$4 ~ /^(came|to_send|memory)$/ { sum += $2 } END { print sum + 0 }'
}

row() { # PROGRAM PLACE FILE COMMAND..
    local place=$2 file=$3
    program=$1
    shift 3
    : >"$work/said"
    "$@" >"$work/said" 2>&1 &
    machine=$!
    running="$running $machine"
    use
    kill "$machine" || { cat "$work/said" >&2 && exit 1; }
    wait "$machine" || true
    echo "$program $place $(sum text "$file") $(sum rodata "$file") $(($(sum 'data|bss' "$file") - $(frames "$file")))" \
        "$(sed -n 's/^memory and stack: //p' "$work/said" | tr -d '\r' | tail -1)"
}

echo "program processor code constants static heap stack"
for program in $programs; do
    "${CC:-cc}" -Os -std=c11 -ffunction-sections -fdata-sections -Wl,--gc-sections -I"$here/.." -I"$here" -DNAME='"www.small.example"' \
        -o "$work/$program.x86" "$here/$program.c" "$here/linux/board.c" "$here/../arena.c" "$library"
    row "$program" x86-64 "$work/$program.x86" "$work/$program.x86"
    NAME=www.small.example "$here/build.sh" mps2-an385 "$here/$program.c" "$build/firmware/libiface-thumbv7m.a" "$work/$program.elf"
    row "$program" thumbv7m "$work/$program.elf" "$here/qemu.sh" mps2-an385 "$work/$program.elf" tap,ifname=tap0,script=no,downscript=no
done
