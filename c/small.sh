#!/bin/bash
# Runs the example of a small service in a network namespace of its own, beside servers of DHCP, names and pages: over IPv4 by a lease,
# over IPv6 by a router, and with a name that isn't there. It changes nothing outside that namespace, and ends by itself after at
# most two minutes.
#
#   small.sh PROGRAM [SERVER]      the built small_service; the server of DHCP, names and prefixes is dnsmasq or small_peer.py: dnsmasq if
#                                  not told, where it is installed, else small_peer.py
#
# It needs: root (for the namespace and the device), unshare (util-linux), ip (iproute2), python3, /dev/net/tun.
set -eu
program=$(realpath "$1")
kind=${2:-$(command -v dnsmasq >/dev/null && echo dnsmasq || echo small_peer.py)}
here=$(dirname "$(realpath "$0")")

need() {
    echo "small.sh: this needs $1" >&2
    exit 2
}

if [ -z "${IS_INSIDE:-}" ]; then
    [ "$(uname)" = Linux ] || need "Linux"
    [ "$(id -u)" = 0 ] || need "root, for a network namespace and a TAP device"
    [ -c /dev/net/tun ] || need "/dev/net/tun (modprobe tun)"
    tools="unshare ip python3"
    [ "$kind" = small_peer.py ] || tools="$tools $kind"
    for tool in $tools; do
        command -v "$tool" >/dev/null || need "$tool"
    done
    exec env IS_INSIDE=1 timeout 120 unshare -n -- "$0" "$program" "$kind"
fi

work=$(mktemp -d)
chmod 755 "$work"
mkdir "$work/pages"
server=
pages=
host=
finish() {
    for process in $server $pages $host; do kill "$process" 2>/dev/null || true; done
    wait
    rm -rf "$work"
}
trap finish EXIT

ip link set lo up
ip tuntap add dev tap0 mode tap
ip addr add 192.168.69.100/24 dev tap0
ip -6 addr add 2001:db8:69::100/64 dev tap0 nodad
ip -6 addr add fe80::100/64 dev tap0 nodad
ip link set tap0 up
seq 100000 >"$work/pages/index.html"

case $kind in
dnsmasq)
    dnsmasq -k -C /dev/null -i tap0 --bind-dynamic --no-resolv --no-hosts --dhcp-range=192.168.69.50,192.168.69.59,120s --dhcp-authoritative \
        --no-ping "--dhcp-leasefile=$work/leases" --enable-ra --dhcp-range=2001:db8:69::,ra-only \
        --host-record=host.small.example,192.168.69.100,2001:db8:69::100 --cname=page.small.example,host.small.example \
        --cname=www.small.example,page.small.example --local=/small.example/ --pid-file= --log-facility=- >"$work/server" 2>&1 &
    ;;
*)
    python3 "$here/small_peer.py" tap0 192.168.69.100 --dhcp 192.168.69.50 192.168.69.59 --names 2001:db8:69::100 --router 2001:db8:69:: \
        >"$work/server" 2>&1 &
    ;;
esac
server=$!
python3 "$here/small_peer.py" tap0 192.168.69.100 --pages 8000 "$work/pages" >"$work/log" 2>&1 &
pages=$!
until (: >/dev/tcp/::1/8000) 2>/dev/null; do sleep 0.1; done

status=0
# A line of the host's that matches, within half a minute; and of that what is in the parentheses of the pattern.
line() {
    local i found
    for i in $(seq 300); do
        found=$(sed -n "s|^$1\$|\\1|p" "$work/host" | head -1)
        [ -z "$found" ] || { echo "$found"; return; }
        sleep 0.1
    done
    echo "small.sh: within half a minute there was no line '$1'" >&2
    cat "$work/host" "$work/server" >&2
    exit 1
}

asks() {
    local page
    exec 3<>"/dev/tcp/$1/80"
    printf 'GET / HTTP/1.0\r\n\r\n' >&3
    page=$(timeout 10 cat <&3)
    exec 3>&-
    grep -q '<h1>A small one.</h1>' <<<"$page"
}

# The whole way, with an address that matches and the peer's.
serves() {
    echo "== $kind: $*"
    "$program" tap0 60 http://www.small.example:8000/index.html "${@:3}" >"$work/host" 2>&1 &
    host=$!
    own=$(line "the host is \\($1\\)/.*")
    [ "$(line 'www.small.example is \(.*\)')" = "$2" ] || status=1
    line '\(100000\)' >/dev/null
    cmp <(grep -x '[0-9]*' "$work/host") "$work/pages/index.html" || status=1
    asks "$own" && asks "$own" || status=1
    kill "$host"
    wait "$host" || [ $? = 143 ] || status=1
    host=
    grep -v -x '[0-9]*' "$work/host"
}

serves '192.168.69.5[0-9]' 192.168.69.100
serves '2001:db8:69:[0-9a-f:]*' 2001:db8:69::100 2001:db8:69::100
echo "== $kind: a name that isn't there"
"$program" tap0 10 http://no.small.example/ >"$work/host" 2>&1 && status=1
grep "no.small.example: " "$work/host" || { cat "$work/host" && status=1; }
exit $status
