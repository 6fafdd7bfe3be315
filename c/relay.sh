#!/bin/bash
# Measures what relay.c carries by itself: between Linux and Linux, and as lines to a program that sends each frame back.
# It changes nothing outside network namespaces of its own.
#
# It needs: root, unshare and nsenter (util-linux), ip (iproute2), iperf3, python3, /dev/net/tun, a C compiler.
set -eu
here=$(dirname "$(realpath "$0")")
if [ -z "${IS_INSIDE:-}" ]; then
    for tool in unshare nsenter ip iperf3 python3; do
        command -v "$tool" >/dev/null || { echo "relay.sh: this needs $tool" >&2 && exit 2; }
    done
    make -s -C "$here" UNPROVED= TARGET= build/relay
    exec env IS_INSIDE=1 timeout 120 unshare -n -- "$0"
fi

scratch=$(mktemp -d)
other='' server='' relay=''
trap 'kill $relay $server $other 2>/dev/null || true; rm -rf "$scratch"' EXIT
unshare -n sleep 120 &
other=$!
while [ "$(readlink "/proc/$other/ns/net")" = "$(readlink /proc/$$/ns/net)" ]; do sleep 0.1; done
there() {
    nsenter --net="/proc/$other/ns/net" "$@"
}
start() { # with options
    "$here/build/relay" "$@" >"$scratch/told" &
    relay=$!
    sleep 1
}
stop() {
    kill $relay
    wait $relay || true
    cat "$scratch/told"
}

ip link set lo up
ip tuntap add dev tap0 mode tap
ip addr add 192.168.69.100/24 dev tap0
ip link set tap0 up
there ip tuntap add dev tap1 mode tap
there ip addr add 192.168.69.7/24 dev tap1
there ip link set tap1 up
nsenter --net="/proc/$other/ns/net" iperf3 -s >/dev/null 2>&1 &
server=$!

echo "== from Linux to Linux, five seconds"
start -n "/proc/$other/ns/net" -d tap1 tap0
iperf3 -c 192.168.69.7 -t 5 | grep receiver
stop
for octets in 1472 22; do
    echo "== as lines to cat and back, frames of $((octets + 42)) octets, five seconds"
    start -p tap0 cat
    ip neigh replace 192.168.69.9 lladdr 02:00:00:00:00:09 dev tap0
    python3 - "$octets" <<'END'
import socket, sys, time
s, end = socket.socket(socket.AF_INET, socket.SOCK_DGRAM), time.time() + 5
s.connect(("192.168.69.9", 9))
while time.time() < end:
    s.send(bytes(int(sys.argv[1])))
END
    stop
done
