#!/bin/bash
# Runs ping, discover, server, client, httpclient, dns, multicast, slaac and dhcp_client on TAP devices, and trace on one of a pair of
# interfaces, in a network namespace of its own, against Linux's stack. It changes nothing outside that namespace, and ends by
# itself after at most three minutes.
#
#   tap.sh FOLDER     the folder of the built examples, of Linux
#
# It needs: root (for the namespace and the device), unshare (util-linux), ip (iproute2), ping (iputils), python3,
# /dev/net/tun; dhcp_client's server is dnsmasq, or c/small_peer.py where that isn't installed.
set -eu
folder=$(realpath "$1")
here=$(dirname "$(realpath "$0")")

need() {
    echo "tap.sh: this needs $1" >&2
    exit 2
}

if [ -z "${IS_INSIDE:-}" ]; then
    [ "$(uname)" = Linux ] || need "Linux"
    [ "$(id -u)" = 0 ] || need "root, for a network namespace and a TAP device"
    [ -c /dev/net/tun ] || need "/dev/net/tun (modprobe tun)"
    for tool in unshare ip ping python3; do
        command -v "$tool" >/dev/null || need "$tool"
    done
    exec env IS_INSIDE=1 timeout 180 unshare -n -- "$0" "$folder"
fi

scratch=$(mktemp -d)
running=
server=
trap 'kill $running $server 2>/dev/null || true; rm -rf "$scratch"' EXIT
ip link set lo up
ip tuntap add dev tap0 mode tap
ip addr add 192.168.69.100/24 dev tap0
ip -6 addr add fdaa::100/64 dev tap0 nodad
ip -6 addr add fe80::100/64 dev tap0 nodad
ip link set tap0 up
sleep 2 # until the kernel may use its link-local address

status=0
failed() {
    echo "failed: $*"
    status=1
}
try() {
    echo "== $*"
    "$@" || failed "$*"
}
# Starts an example, whose output is kept.
start() {
    "$folder/$1" tap0 "$2" >"$scratch/output" &
    running=$!
    sleep 1
}
# Waits for its end, and shows the output, in which each of the words has to be.
finish() {
    wait "$running" || failed "its exit status is $?"
    running=
    cat "$scratch/output"
    for word in "$@"; do
        grep -q "$word" "$scratch/output" || failed "no '$word'"
    done
}

try "$folder/ping" tap0 192.168.69.100 -c 4 -i 200
try "$folder/ping" tap0 fdaa::100 -c 4 -i 200
try "$folder/ping" tap0 fe80::100 -c 4 -i 200

discovers() {
    ! "$folder/discover" tap0 192.168.69.1/24 -n 2 192.168.69.100 192.168.69.77 >"$scratch/output"
    cat "$scratch/output"
    hardware=$(ip -o link show tap0 | sed 's/.*ether \([^ ]*\).*/\1/' | tr : -)
    grep -q "192.168.69.100 is at $hardware" "$scratch/output" && grep -q '192.168.69.77: no answer' "$scratch/output"
}
try discovers
try "$folder/discover" tap0 fe80::5/64 fe80::100

start server 8
try ping -c 3 -i 0.2 192.168.69.1
try ping -c 3 -i 0.2 fdaa::1
try ping -c 3 -i 0.2 -s 3000 192.168.69.1
try ping -f -q -c 5000 192.168.69.1
try python3 "$here/tap_peer.py" reversed
finish 'udp:6969 recv data: 4000 octets from 192.168.69.100'

ip neigh flush dev tap0
start server 15
try python3 "$here/tap_peer.py" streams
finish 'tcp:6969 send greeting' 'tcp:6970 connected' 'tcp:6970 disconnected'

# A peer in Python for a client of the crate.
asks() {
    ip neigh flush dev tap0
    python3 "$here/tap_peer.py" "$1" &
    running=$!
    sleep 1
    timeout 20 "${@:2}" >"$scratch/output" || failed "${*:2}"
}
asks lines "$folder/client" tap0 192.168.69.100 7000
finish 'connected' 'send data: "eerht' 'disconnected'
asks page "$folder/httpclient" tap0 192.168.69.100 http://192.168.69.100:8080/page
finish 'HTTP/1.1 200 OK' 'line 4999'

# A server of names in Python.
ip neigh flush dev tap0
python3 "$here/../c/name_server.py" 192.168.69.100 >"$scratch/asked" &
server=$!
sleep 1
timeout 20 "$folder/dns" tap0 alias.example.com 192.168.69.100 >"$scratch/output" || failed dns
cat "$scratch/output"
grep -q 'Query done: .*192.0.2.1' "$scratch/output" || failed "no address of the name"
kill "$server"
wait "$server" || true
server=

ip neigh flush dev tap0
start multicast 6
try python3 "$here/tap_peer.py" groups
finish 'to 224.0.0.37' 'MembershipQuery' 'ff15::25'
grep -q '224.0.0.38' "$scratch/output" && failed 'a datagram to a group that was not joined'

ip neigh flush dev tap0
start slaac 6
try python3 "$here/tap_peer.py" router
ip -6 addr add 2001:db8:77::100/64 dev tap0 nodad
try ping -c 3 -i 0.2 2001:db8:77::ff:fe00:1
finish '2001:db8:77::ff:fe00:1/64'

ip neigh flush dev tap0
if command -v dnsmasq >/dev/null; then
    dnsmasq -k -C /dev/null -p 0 -i tap0 --bind-interfaces --dhcp-range=192.168.69.50,192.168.69.59,120s --dhcp-authoritative --no-ping \
        --dhcp-option=option:dns-server,192.168.69.100,192.168.69.101 "--dhcp-leasefile=$scratch/leases" --pid-file= \
        --log-facility=- >"$scratch/server" 2>&1 &
else
    python3 "$here/../c/small_peer.py" tap0 192.168.69.100 --dhcp 192.168.69.50 192.168.69.59 >"$scratch/server" 2>&1 &
fi
server=$!
start dhcp_client 12
for _ in $(seq 90); do # a first message that comes before the link is there is sent again after 4 s
    grep -q '^IP address' "$scratch/output" && break
    sleep 0.1
done
try ping -c 3 -i 0.2 "$(sed -n 's|^IP address: *\(.*\)/24$|\1|p' "$scratch/output")"
finish 'DHCP config acquired' 'IP address: *192.168.69.5[0-9]/24' 'gateway: 192.168.69.100' 'DNS server 1: *192.168.69.101'
kill "$server"
wait "$server" || true
server=

ip link add peer0 type veth peer name raw0
ip addr add 192.168.70.100/24 dev peer0
ip link set peer0 up
ip link set raw0 up promisc on
"$folder/trace" raw0 192.168.70.1/24 "$scratch/frames.pcap" 4 >"$scratch/output" &
running=$!
sleep 1
try ping -c 3 -i 0.2 192.168.70.1
finish 'op=Reply' 'ICMPv4 echo reply id=[0-9]* seq=3 len=56'
# RFC 792: the six messages are in the file, each behind an Ethernet header of this type.
[ "$(grep -c 'ICMPv4 echo' "$scratch/output")" = 6 ] || failed 'not six echo messages'
[ "$(wc -c <"$scratch/frames.pcap")" -gt $((24 + 6 * (16 + 98))) ] || failed 'too short a file of frames'
exit $status
