#!/bin/bash
# Tries a host of TCP against that of Linux, on a TAP device behind relay.c: the cases of tcp_peer.py. It changes nothing
# outside network namespaces of its own, and ends by itself.
#
#   tcp.sh [OPTION..] lines PROGRAM [WORD..]      a program with frames as lines of hex, as relay.c has them
#   tcp.sh [OPTION..] frames PROGRAM [WORD..]     a program with frames at descriptor 3: build/tcp_echo @3 3600
#   tcp.sh [OPTION..] linux                       Linux's own TCP in a second namespace: whether the cases are right
#   tcp.sh [OPTION..] wrong                       the same behind relays that do something wrong: each has to be seen
#
# The program sends back at port 7 what comes, and ends a connection once the peer has ended it and has got everything.
# Options:
#   -a ADDRESSES   its addresses: 192.168.69.7,fd69::7 if not told; one of them suffices
#   -h SERVICES    what it has besides: http (a page at port 80, then it closes), iperf3 (at port 5201)
#   -c CASES       these alone, by their names; '-c list' prints all
#   -m MEGABYTES   that go each way where much is sent: 100 if not told
#   -z SECONDS     that the window stays closed: 60 if not told
#   -r SEED        of the relay
#
# It needs: root (for the namespaces and the devices), unshare and nsenter (util-linux), ip (iproute2), ping (iputils),
# python3, /dev/net/tun, a C compiler; for a case each curl, iperf3, nc (netcat-openbsd), and says so where one is missing.
set -eu
here=$(dirname "$(realpath "$0")")

need() {
    echo "tcp.sh: this needs $1" >&2
    exit 2
}

if [ -z "${IS_INSIDE:-}" ]; then
    [ "$(uname)" = Linux ] || need "Linux"
    [ "$(id -u)" = 0 ] || need "root, for network namespaces and TAP devices"
    [ -c /dev/net/tun ] || need "/dev/net/tun (modprobe tun)"
    for tool in unshare nsenter ip ping python3; do
        command -v "$tool" >/dev/null || need "$tool"
    done
    make -s -C "$here" UNPROVED= TARGET= build/relay
    exec env IS_INSIDE=1 unshare -n -- "$0" "$@"
fi

ip link set lo up
ip tuntap add dev tap0 mode tap
ip addr add 192.168.69.100/24 dev tap0
ip -6 addr add fd69::100/64 dev tap0 nodad
ip link set tap0 up

# Whoever stands in for a program is in a second namespace, at tap1.
case " $* " in
*' linux '* | *' wrong '*)
    unshare -n sleep 36000 &
    other=$!
    server=
    trap 'kill $server $other 2>/dev/null || true' EXIT
    while [ "$(readlink "/proc/$other/ns/net")" = "$(readlink /proc/$$/ns/net)" ]; do sleep 0.1; done
    there() {
        nsenter --net="/proc/$other/ns/net" "$@"
    }
    there ip link set lo up
    there ip tuntap add dev tap1 mode tap
    there ip link set tap1 address 02:00:00:00:00:07
    there ip addr add 192.168.69.7/24 dev tap1
    there ip -6 addr add fd69::7/64 dev tap1 nodad
    there ip link set tap1 up
    nsenter --net="/proc/$other/ns/net" python3 "$here/tcp_peer.py" serve &
    server=$!
    until there bash -c ': >/dev/tcp/::1/80' 2>/dev/null; do sleep 0.1; done
    OTHER=/proc/$other/ns/net python3 "$here/tcp_peer.py" "$@"
    ;;
*)
    exec python3 "$here/tcp_peer.py" "$@"
    ;;
esac
