#!/bin/bash
# Runs the example that asks for names, and a server of its own in Python, in a network namespace of their own; and the same against
# dnsmasq, where that is installed. It changes nothing outside that namespace, and ends by itself after at most two minutes.
#
#   lookup.sh PROGRAM      the built lookup
#
# It needs: root (for the namespace and the device), unshare (util-linux), ip (iproute2), python3, /dev/net/tun; for the second part
# dnsmasq (Debian's dnsmasq-base).
set -eu
program=$(realpath "$1")

need() {
    echo "lookup.sh: this needs $1" >&2
    exit 2
}

if [ -z "${IS_INSIDE:-}" ]; then
    [ "$(uname)" = Linux ] || need "Linux"
    [ "$(id -u)" = 0 ] || need "root, for a network namespace and a TAP device"
    [ -c /dev/net/tun ] || need "/dev/net/tun (modprobe tun)"
    for tool in unshare ip python3; do
        command -v "$tool" >/dev/null || need "$tool"
    done
    exec env IS_INSIDE=1 timeout 120 unshare -n -- "$0" "$program"
fi

here=$(dirname "$(realpath "$0")")
work=$(mktemp -d)
servers=
finish() {
    for server in $servers; do kill "$server" 2>/dev/null || true; done
    wait
    rm -rf "$work"
}
trap finish EXIT

ip link set lo up
ip tuntap add dev tap0 mode tap
ip addr add 192.168.69.100/24 dev tap0
ip -6 addr add fd69::100/64 dev tap0 nodad
ip link set tap0 up

status=0
# What is printed has to be these words, and the status this.
asks() {
    local wanted=$1 ends=$2 told code=0
    shift 2
    echo "== lookup $*"
    told=$(timeout 60 "$program" tap0 "$@" 2>&1) || code=$?
    echo "$told"
    [ "$(tr '\n' ' ' <<<"$told")" = "$wanted " ] && [ "$code" = "$ends" ] && return
    echo "lookup.sh: not '$wanted' and $ends, but $code" >&2
    status=1
}

for address in 192.168.69.100 fd69::100; do
    python3 "$here/name_server.py" "$address" >"$work/asked.$address" &
    servers="$servers $!"
done
sleep 1
own=192.168.69.1/24
server=192.168.69.100
asks '192.0.2.1 192.0.2.2' 0 $own $server www.example.com
asks '192.0.2.1 192.0.2.2' 0 $own $server WWW.Example.COM.
asks '2001:db8::1' 0 $own $server www.example.com AAAA
asks '192.0.2.1 192.0.2.2' 0 fd69::1/64 fd69::100 alias.example.com
asks '192.0.2.3' 0 $own $server slow.example.com
asks '192.0.2.4' 0 $own $server forged.example.com
asks 'none.example.com: no such name' 1 $own $server none.example.com
asks 'long.example.com: the answer is too long' 1 $own $server long.example.com
asks 'broken.example.com: the servers failed' 1 $own $server broken.example.com
asks 'text.example.com: no address' 1 $own $server text.example.com
asks '192.0.2.1 192.0.2.2' 0 $own 192.168.69.77,$server www.example.com # the first one isn't there
asks 'silent.example.com: no server answered' 1 $own $server silent.example.com
asks 'a..b: the text is no name' 1 $own $server a..b
cat "$work/asked.$server"
# The silent name was asked for at once, after two seconds and after five, from one port.
[ "$(grep -c silent "$work/asked.$server")" = 3 ] && [ "$(grep silent "$work/asked.$server" | sort -u | wc -l)" = 1 ] || status=1
# Ports differ.
[ "$(sed -n 's/from port \([0-9]*\):.*/\1/p' "$work/asked.$server" | sort -u | wc -l)" -ge 8 ] || status=1

if command -v dnsmasq >/dev/null; then
    finish_servers=$servers
    for one in $finish_servers; do kill "$one"; done
    servers=
    sleep 1
    dnsmasq -k -C /dev/null -R -h -i tap0 --bind-interfaces --address=/www.example.com/192.0.2.1 \
        --host-record=host.example.com,192.0.2.7,2001:db8::7 --cname=alias.example.com,host.example.com --local=/example.com/ \
        --pid-file= --log-facility=- >"$work/dnsmasq" 2>&1 &
    servers=$!
    sleep 1
    asks '192.0.2.1' 0 $own $server www.example.com
    asks '192.0.2.7' 0 $own $server alias.example.com
    asks '2001:db8::7' 0 fd69::1/64 fd69::100 alias.example.com AAAA
    asks 'none.example.com: no such name' 1 $own $server none.example.com
else
    echo "no dnsmasq: its part of lookup.sh was not run" >&2
fi
exit $status
