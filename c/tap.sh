#!/bin/bash
# Runs the examples on a TAP device in a network namespace of its own, and talks to them by ping, by tap_peer and by Python's server
# of HTTP. It changes nothing outside that namespace, and ends by itself after at most four minutes.
#
#   tap.sh FOLDER      of the built programs, of Linux
#
# It needs: root (for the namespace and the device), unshare (util-linux), ip (iproute2), ping (iputils), python3, /dev/net/tun.
set -eu
folder=$(realpath "$1")

need() {
    echo "tap.sh: this needs $1" >&2
    exit 2
}

if [ -z "${IS_INSIDE:-}" ]; then
    [ "$(uname)" = Linux ] || need "Linux"
    [ "$(id -u)" = 0 ] || need "root, for a network namespace and a TAP device"
    [ -c /dev/net/tun ] || need "/dev/net/tun (modprobe tun)"
    for tool in unshare ip ping python3; do
        command -v "$tool" >/dev/null || need "$tool"
    done
    exec env IS_INSIDE=1 timeout 240 unshare -n -- "$0" "$folder"
fi

ip link set lo up
ip tuntap add dev tap0 mode tap
ip addr add 192.168.69.100/24 dev tap0
ip -6 addr add fd69::100/64 dev tap0 nodad
ip -6 addr add fe80::100/64 dev tap0 nodad
ip link set tap0 up

status=0
try() {
    echo "== $*"
    "$@" || status=1
}

running=
start() {
    "$@" &
    running=$!
}

stop() {
    kill "$running" 2>/dev/null || true
    wait "$running" || true
    running=
}
scratch=$(mktemp -d)
trap '[ -z "$running" ] || stop; rm -rf "$scratch"' EXIT

# Three pings at once, none of which may lose a reply.
three_at_a_time() {
    local told
    told=$(for _ in 1 2 3; do ping -q "$@" & done; wait)
    grep 'packet loss' <<<"$told"
    [ "$(grep -c ' 0% packet loss' <<<"$told")" = 3 ]
}

start "$folder/tap_host" tap0 170
sleep 2 # until the kernel may use its link-local address
try ping -c 3 -i 0.2 192.168.69.1
try ping -c 3 -i 0.2 fd69::1
try ping -c 3 -i 0.2 fe80::1%tap0
try ping -f -q -c 10000 192.168.69.1
try ping -f -q -c 10000 fd69::1
try ping -f -q -c 10000 -s 1472 192.168.69.1
try ping -c 3 -i 0.2 -s 3000 192.168.69.1
try three_at_a_time -c 20 -i 0.2 -s 3000 192.168.69.1
try "$folder/tap_peer" host
stop
echo "== neighbours"
ip neigh show dev tap0

# A service with addresses from a router, which is tap_peer: prefix 2001:db8:69::/64.
ip -6 addr add 2001:db8:69::100/64 dev tap0 nodad
start "$folder/slaac_echo" tap0 30
sleep 2 # until the kernel sends again; the service solicits every 4 s
try "$folder/tap_peer" router
stop

# TCP, over segments and over connections: the kernel's own connects, sends 100,000 octets at once, and gets them back; then it ends.
sends_back() {
    local sent got
    sent=$(head -c 75000 /dev/urandom | base64 -w 0)
    exec 3<>"/dev/tcp/$1/7" || return 1
    printf %s "$sent" >&3 &
    got=$(timeout 30 head -c 100000 <&3)
    exec 3>&-
    [ "$got" = "$sent" ]
}
for program in segment_echo tcp_echo; do
    start "$folder/$program" tap0 60
    try sends_back 192.168.69.7
    try sends_back 192.168.69.7
    try sends_back fd69::7
    stop
done

# A service tells where it listens, and has its page there.
start "$folder/http_hello" tap0 60 >"$scratch/said"
has_page() {
    local page
    exec 3<>"/dev/tcp/$1/80" || return 1
    printf 'GET / HTTP/1.0\r\n\r\n' >&3
    page=$(timeout 10 cat <&3)
    exec 3>&-
    grep -q '<h1>Hello, connections!</h1>' <<<"$page"
}
try has_page 192.168.69.7
try has_page fd69::7
try grep -x 'listening at port 80 of 192.168.69.7, fd69::7, fe80::7' "$scratch/said"
stop

# A program that connects by itself: pages of one octet and of a megabyte, one that isn't there, a port at which nobody listens, and
# a peer that isn't there.
printf x >"$scratch/octet"
head -c 1000000 /dev/urandom >"$scratch/megabyte"
fetches() {
    "$folder/fetch" tap0 "$1" "$2" >"$scratch/page" && cmp "$scratch/page" "$scratch/${2##*/}"
}
says() {
    local said
    ! said=$("$folder/fetch" tap0 "$2" "$3" 2>&1 >/dev/null) && grep -x "$1" <<<"$said"
}
python3 -m http.server 8000 --bind :: --directory "$scratch" >/dev/null 2>&1 &
running=$!
until (: >/dev/tcp/::1/8000) 2>/dev/null; do sleep 0.1; done
for ends in '192.168.69.4/24 192.168.69.100 192.168.69.77' 'fd69::4/64 [fd69::100] [fd69::77]'; do
    read -r own peer nobody <<<"$ends"
    try fetches "$own" "http://$peer:8000/octet"
    try fetches "$own" "http://$peer:8000/megabyte"
    try says 'HTTP/1.0 404' "$own" "http://$peer:8000/nothing"
    try says 'the peer refused the connection' "$own" "http://$peer:8001/"
    try says "the peer can't be reached" "$own" "http://$nobody:8000/"
done
try says '10.9.9.9: no route' 192.168.69.4/24 http://10.9.9.9:8000/
try says '2001:db8::9: no route' fd69::4/64 'http://[2001:db8::9]:8000/'
# The same through relay.c, which loses, reorders, repeats or delays frames.
fetches_through() {
    "$folder/relay" -r 7 -b "$1" -s tap0 sh -c "'$folder/fetch' @3 $2 '$3' >'$scratch/page'" 2>/dev/null
    cmp "$scratch/page" "$scratch/${3##*/}"
}
for bad in loss=1 reorder=10 repeat=5 delay=25; do
    try fetches_through "$bad" 192.168.69.4/24 http://192.168.69.100:8000/megabyte
    try fetches_through "$bad" fd69::4/64 'http://[fd69::100]:8000/megabyte'
done
stop

# A neighbour that answers, one that doesn't, a router that doesn't, and no way at all.
tells() {
    local text=$1 said
    shift
    ! said=$("$@" 2>&1) && grep -xF "$text" <<<"$said"
}
try "$folder/ping" tap0 192.168.69.4/24 192.168.69.100 -c 3 -i 0.2
try "$folder/ping" tap0 fe80::4/64 fe80::100 -c 3 -i 0.2
try "$folder/ping" tap0 192.168.69.4/24 192.168.69.100 -c 20 -i 0.02 -s 3000
try tells "192.168.69.77 doesn't answer" "$folder/ping" tap0 192.168.69.4/24 192.168.69.77 -c 1
try tells "fe80::77 doesn't answer" "$folder/ping" tap0 fe80::4/64 fe80::77 -c 1
try tells "10.9.9.9: the router 192.168.69.77 doesn't answer" "$folder/ping" tap0 192.168.69.4/24 10.9.9.9 -r 192.168.69.77 -c 1
try tells '10.9.9.9: no route' "$folder/ping" tap0 192.168.69.4/24 10.9.9.9 -c 1
try tells '2001:db8::9: no route' "$folder/ping" tap0 fe80::4/64 2001:db8::9 -c 1
try tells 'lo, as a TAP device of /dev/net/tun: Invalid argument' "$folder/ping" lo 192.168.69.4/24 192.168.69.100 -c 1

# Without an end: a signal ends it, and each request was answered.
until_stopped() {
    local pings
    "$folder/ping" tap0 192.168.69.4/24 192.168.69.100 -c 0 -i 0.2 >"$scratch/said" &
    pings=$!
    sleep 2.1
    kill -INT $pings
    wait $pings && grep 'until it is stopped' "$scratch/said" && grep ' 0% packet loss' "$scratch/said"
}
try until_stopped

# Who has an address, and who is on the link: two addresses of IPv4, and the kernel's link-local one.
prints() {
    local word=$1 output
    shift
    output=$("$@") || return 1
    echo "$output"
    grep -q "$word" <<<"$output"
}
hardware=$(ip -o link show tap0 | sed 's/.*ether \([^ ]*\).*/\1/')
ip addr add 192.168.69.200/24 dev tap0
try prints "192.168.69.100 is at $hardware" "$folder/arping" tap0 192.168.69.4/24 192.168.69.100 -c 2
try prints "fe80::100 is at $hardware" "$folder/arping" tap0 fe80::4/64 fe80::100 -c 2
try tells '192.168.69.77: no answer' "$folder/arping" tap0 192.168.69.4/24 192.168.69.77 -c 1
try tells '10.9.9.9: no route' "$folder/arping" tap0 192.168.69.4/24 10.9.9.9 -c 1
try prints '253 requests, 2 hosts' "$folder/sweep" tap0 192.168.69.4/24 -q 200 -W 1
try prints '3 requests, 1 hosts' "$folder/sweep" tap0 fe80::4/64 -W 1
exit $status
