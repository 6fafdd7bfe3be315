#!/bin/bash
# Runs the gateway between two network namespaces, and tries it: pings of both families, hop limits as traceroute has them,
# packets too long for the second link, networks and hosts that aren't there, what must not be forwarded, UDP and TCP. It
# changes nothing outside these namespaces, and ends by itself after at most two minutes.
#
#   gateway.sh PROGRAM [WORD..]     of Linux: the gateway, and what runs it, as `valgrind gateway`
#
# It needs: root (for the namespaces and the devices), unshare and nsenter (util-linux), ip (iproute2), ping (iputils),
# python3, /dev/net/tun.
set -eu
here=$(dirname "$(realpath "$0")")

need() {
    echo "gateway.sh: this needs $1" >&2
    exit 2
}

if [ -z "${IS_INSIDE:-}" ]; then
    [ "$(uname)" = Linux ] || need "Linux"
    [ "$(id -u)" = 0 ] || need "root, for network namespaces and TAP devices"
    [ -c /dev/net/tun ] || need "/dev/net/tun (modprobe tun)"
    for tool in unshare nsenter ip ping python3; do
        command -v "$tool" >/dev/null || need "$tool"
    done
    exec env IS_INSIDE=1 timeout 120 unshare -n -- "$0" "$@"
fi

scratch=$(mktemp -d)
gateway='' other='' server=''
trap 'kill $gateway $server $other 2>/dev/null || true; rm -rf "$scratch"' EXIT
status=0
try() {
    echo "== $*"
    "$@" || { echo "gateway.sh: it failed" && status=1; }
}
# A command prints a word; it may fail, as a ping that is answered by an error does.
prints() {
    local word=$1 output
    shift
    output=$("$@" 2>&1) || true
    echo "$output"
    grep -q -e "$word" <<<"$output"
}
there() {
    nsenter --net="/proc/$other/ns/net" "$@"
}

# This namespace is at 10.1.0.2 and fd01::2 on tap0; another one at 10.2.0.2 and fd02::2 on tap1, whose packets are shorter.
# The gateway opens both devices before the second one is given away.
ip link set lo up
for device in tap0 tap1; do
    ip tuntap add dev $device mode tap
    ip link set $device up
done
"$@" tap0 10.1.0.1/24,fd01::1/64 tap1 10.2.0.1/24,fd02::1/64 -m 1280 -r 10.3.0.0/16,10.2.0.2 >"$scratch/gateway" &
gateway=$!
unshare -n sleep 120 &
other=$!
for _ in $(seq 100); do
    sleep 0.1
    ip -o link show tap1 | grep -q LOWER_UP && [ "$(readlink "/proc/$other/ns/net")" != "$(readlink /proc/$$/ns/net)" ] && break
done
ip link set tap1 netns "$other"
ip addr add 10.1.0.2/24 dev tap0
ip addr add fd01::2/64 dev tap0 nodad
ip addr add fe80::2/64 dev tap0 nodad
there ip link set lo up
there ip addr add 10.2.0.2/24 dev tap1
there ip addr add 10.3.0.1/32 dev lo
there ip addr add fd02::2/64 dev tap1 nodad
there ip link set tap1 mtu 1280 up
for via in 10.1.0.1 fd01::1; do ip route add default via $via; done
for via in 10.2.0.1 fd02::1; do there ip route add default via $via; done
sleep 2 # until the kernel may use its link-local addresses

# Through the gateway, and to it, at its addresses of both links.
for to in 10.2.0.2 fd02::2 10.3.0.1 10.1.0.1 fd01::1 10.2.0.1 fd02::1; do
    try prints '3 received' ping -c 3 -i 0.2 $to
done
try prints '3 received' there ping -c 3 -i 0.2 10.1.0.1
try prints '3 received' there ping -c 3 -i 0.2 fd01::2
# In a flood ping waits for the last reply for just a fraction of a millisecond, so a few in 5000 may count as lost.
try prints ' 0\(\.0[0-9]*\)\?% packet loss' ping -f -q -c 5000 10.2.0.2
try prints ' 0\(\.0[0-9]*\)\?% packet loss' ping -f -q -c 5000 fd02::2
# The hop limit is lowered, and 1 isn't forwarded.
try prints 'ttl=63' ping -c 1 10.2.0.2
try prints 'ttl=63' ping -c 1 fd02::2
try prints 'From 10.1.0.1 .*Time to live exceeded' ping -c 1 -t 1 10.2.0.2
try prints 'From fd01::1 .*Time exceeded: Hop limit' ping -c 1 -t 1 fd02::2
try prints '1 received' ping -c 1 -t 2 10.2.0.2
try prints '1 received' ping -c 1 -t 2 fd02::2
# Too long for the second link: told, or in pieces if it may be cut.
try prints 'mtu = 1280' ping -c 1 -M do -s 1472 10.2.0.2
try prints 'mtu=1280' ping -c 1 -M do -s 1452 fd02::2
ip route flush cache
try prints '3 received' ping -c 3 -i 0.2 -M dont -s 1472 10.3.0.1
try prints '3 received' ping -c 3 -i 0.2 -s 4000 10.3.0.1
# Without a way, and a host that doesn't answer.
try prints 'Net Unreachable' ping -c 1 10.9.0.1
try prints 'No route' ping -c 1 fd09::1
try prints 'From 10.1.0.1 .*Host Unreachable' ping -c 1 -W 8 10.2.0.77
try prints 'From fd01::1 .*Address unreachable' ping -c 1 -W 8 fd02::77
# UDP and TCP, and packets of which each has to be forwarded as it is, kept, or told of.
nsenter --net="/proc/$other/ns/net" python3 "$here/gateway_peer.py" serve &
server=$!
sleep 0.5
try python3 "$here/gateway_peer.py" talk
there python3 "$here/gateway_peer.py" watch &
watch=$!
sleep 1
try python3 "$here/gateway_peer.py" forge
wait $watch || status=1
kill $gateway
wait $gateway || [ $? = 143 ] || status=1 # SIGTERM ends one without a handler
gateway=
cat "$scratch/gateway"
exit $status
