#!/bin/bash
# Runs hello.c on each board, under qemu. Its page is fetched from the host through qemu's own network, which needs no rights. Then, on a TAP
# device in a network namespace of its own, it leases an address, answers pings, learns the address of a name, and serves its page to four
# peers at once. It ends by itself after at most five minutes.
#
#   try.sh FOLDER      with libiface-thumbv7m.a, libiface-thumbv7em.a and libiface-riscv32imac.a
#
# What it lacks it names, and skips: qemu-system-arm, qemu-system-riscv32 (Debian: qemu-system-misc); for the second part ip, ping,
# python3, /dev/net/tun, and root or user namespaces. dnsmasq is the server, where it is installed, else small_peer.py.
set -eu
folder=$(realpath "$1")
here=$(dirname "$(realpath "$0")")
declare -A libraries=([mps2-an385]=thumbv7m [mps2-an386]=thumbv7em [virt-riscv32]=riscv32imac)
declare -A emulators=([mps2-an385]=qemu-system-arm [mps2-an386]=qemu-system-arm [virt-riscv32]=qemu-system-riscv32)
work=$(mktemp -d)
chmod 755 "$work"
running=
finish() {
    for process in $running; do kill "$process" 2>/dev/null || true; done
    wait
    rm -rf "$work"
}
trap finish EXIT

refuse() {
    echo "boards/try.sh: $board: $1" >&2
    cat "$work/said" >&2
    exit 1
}

: >"$work/said"

start() { # NETWORK: runs the board's program
    : >"$work/said"
    "$here/qemu.sh" "$board" "$PROGRAMS/$board" "$1" >"$work/said" 2>&1 &
    machine=$!
    running="$running $machine"
}

stop() {
    kill "$machine"
    wait "$machine" || true
}

# A line that the board prints within half a minute, and of that what is in the parentheses of the pattern.
line() {
    local found
    for _ in $(seq 300); do
        found=$(tr -d '\r' <"$work/said" | sed -n "s|^$1\$|\\1|p" | head -1)
        [ -z "$found" ] || { echo "$found"; return; }
        sleep 0.1
    done
    refuse "within half a minute there was no line '$1'"
}

fetch() { # ADDRESS PORT: the page that the board serves
    local page=
    exec 3<>"/dev/tcp/$1/$2" && printf 'GET / HTTP/1.0\r\n\r\n' >&3 && page=$(timeout 20 cat <&3) && exec 3>&-
    grep -q '<h1>Hello, connections!</h1>' <<<"$page"
}

through_user_network() {
    local port=$((20000 + $$ % 20000))
    start "user,hostfwd=tcp:127.0.0.1:$port-:80"
    line 'address: \(10.0.2.15\)' >/dev/null
    fetch 127.0.0.1 $port && fetch 127.0.0.1 $port || refuse "its page wasn't served"
    stop
    echo "$board: leases 10.0.2.15, and its page is fetched through qemu's network"
}

on_tap() {
    local own peers=
    start tap,ifname=tap0,script=no,downscript=no
    own=$(line 'address: \(192.168.69.5[0-9]\)')
    [ "$(line 'www.small.example: \(.*\)')" = 192.168.69.100 ] || refuse 'it learnt another address of the name'
    ping -q -c 20 -i 0.02 -W 2 "$own" >"$work/ping" || refuse 'it answers no ping'
    ping -q -c 2 -s 3000 -i 0.1 -W 2 "$own" >>"$work/ping" || refuse 'it answers no ping in fragments'
    for _ in 1 2 3 4; do
        fetch "$own" 80 &
        peers="$peers $!"
    done
    for peer in $peers; do wait "$peer" || refuse "its page wasn't served to each of four peers"; done
    sleep 1
    stop
    echo "$board: leases $own, answers $(sed -n 's/.* \([0-9]*\) received.*/\1/p' "$work/ping" | tr '\n' ' ')pings, learns a name's address," \
        "serves four peers; $(grep '^memory and stack' "$work/said" | tail -1)"
}

if [ -z "${IS_INSIDE:-}" ]; then
    export PROGRAMS=$work
    boards=
    for board in "${!libraries[@]}"; do
        if ! command -v "${emulators[$board]}" >/dev/null; then
            echo "boards/try.sh: no ${emulators[$board]}: $board was not tried" >&2
            continue
        fi
        NAME=www.small.example "$here/build.sh" "$board" "$here/hello.c" "$folder/libiface-${libraries[$board]}.a" "$PROGRAMS/$board" || {
            [ $? = 3 ] || refuse "it isn't built"
            continue
        }
        through_user_network
        boards="$boards $board"
    done
    [ -n "$boards" ] || exit 0
    for tool in unshare ip ping python3; do
        command -v "$tool" >/dev/null || { echo "boards/try.sh: no $tool: nothing was tried on a TAP device" >&2 && exit 0; }
    done
    inside="unshare -n"
    [ "$(id -u)" = 0 ] || inside="unshare -Urn"
    if ! $inside ip tuntap add dev tap0 mode tap 2>/dev/null; then
        echo "boards/try.sh: no root or user namespaces, or no /dev/net/tun: nothing was tried on a TAP device" >&2
        exit 0
    fi
    IS_INSIDE=$boards timeout 300 $inside -- "$0" "$folder"
    exit
fi

ip link set lo up
ip tuntap add dev tap0 mode tap
ip addr add 192.168.69.100/24 dev tap0
ip link set tap0 up
if command -v dnsmasq >/dev/null; then
    dnsmasq -k -C /dev/null --user=root --group=root -i tap0 --bind-dynamic --no-resolv --no-hosts --dhcp-range=192.168.69.50,192.168.69.59,120s \
        --dhcp-authoritative --no-ping "--dhcp-leasefile=$work/leases" --host-record=www.small.example,192.168.69.100 \
        --local=/small.example/ --pid-file= --log-facility=- >"$work/server" 2>&1 &
else
    peer=$here/small_peer.py
    [ -f "$peer" ] || peer=$here/../small_peer.py
    python3 "$peer" tap0 192.168.69.100 --dhcp 192.168.69.50 192.168.69.59 --names >"$work/server" 2>&1 &
fi
running=$!
for board in $IS_INSIDE; do on_tap; done
