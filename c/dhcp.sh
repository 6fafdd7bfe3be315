#!/bin/bash
# Runs the example that leases its address, and its server, in a network namespace of their own: a lease that is got and renewed, a
# server that is gone and back, and one that refuses. It changes nothing outside that namespace, and ends by itself after at most
# a minute and a half.
#
#   dhcp.sh PROGRAM [SERVER]      the built dhcp_host; the server is dnsmasq, kea-dhcp4 or small_peer.py: dnsmasq if not told, where
#                                 it is installed, else small_peer.py
#
# It needs: root (for the namespace and the device), unshare (util-linux), ip (iproute2), ping (iputils), /dev/net/tun; python3 for
# small_peer.py, Debian's dnsmasq-base or kea-dhcp4-server for the others.
set -eu
program=$(realpath "$1")
kind=${2:-$(command -v dnsmasq >/dev/null && echo dnsmasq || echo small_peer.py)}
here=$(dirname "$(realpath "$0")")

need() {
    echo "dhcp.sh: this needs $1" >&2
    exit 2
}

if [ -z "${IS_INSIDE:-}" ]; then
    [ "$(uname)" = Linux ] || need "Linux"
    [ "$(id -u)" = 0 ] || need "root, for a network namespace and a TAP device"
    [ -c /dev/net/tun ] || need "/dev/net/tun (modprobe tun)"
    tools="unshare ip ping $kind"
    [ "$kind" != small_peer.py ] || tools="unshare ip ping python3"
    for tool in $tools; do
        command -v "$tool" >/dev/null || need "$tool"
    done
    exec env IS_INSIDE=1 timeout 90 unshare -n -- "$0" "$program" "$kind"
fi

work=$(mktemp -d)
chmod 755 "$work"
server=
host=
finish() {
    [ -z "$server" ] || kill "$server" 2>/dev/null || true
    [ -z "$host" ] || kill "$host" 2>/dev/null || true
    wait
    rm -rf "$work"
}
trap finish EXIT

ip link set lo up
ip tuntap add dev tap0 mode tap
ip addr add 192.168.69.100/24 dev tap0
ip link set tap0 up

# A server that leases two minutes, which are renewed after four seconds, and from the ninth on by any server: FIRST LAST LEASES. That of
# dnsmasq tells routes, whose default route counts in place of the router, and the longest packet.
names='192.168.69.100, 192.168.69.101'
by_dnsmasq() {
    exec dnsmasq -k -C /dev/null -p 0 -i tap0 --bind-interfaces "--dhcp-range=$1,$2,120s" --dhcp-authoritative --no-ping \
        --dhcp-option=option:T1,4 --dhcp-option=option:T2,9 "--dhcp-option=option:dns-server,${names// /}" \
        --dhcp-option=option:router,192.168.69.101 --dhcp-option=option:mtu,1400 \
        --dhcp-option=option:classless-static-route,10.17.0.0/16,192.168.69.101,0.0.0.0/0,192.168.69.100 \
        "--dhcp-leasefile=$work/$3" --pid-file= --log-facility=-
}

by_kea() {
    cat >"$work/kea.json" <<END
{"Dhcp4": {"interfaces-config": {"interfaces": ["tap0"]}, "authoritative": true, "valid-lifetime": 120, "renew-timer": 4,
 "rebind-timer": 9, "calculate-tee-times": false, "lease-database": {"type": "memfile", "name": "$work/$3.csv", "lfc-interval": 0},
 "option-data": [{"name": "domain-name-servers", "data": "$names"}, {"name": "routers", "data": "192.168.69.100"}],
 "subnet4": [{"id": 1, "subnet": "192.168.69.0/24", "pools": [{"pool": "$1 - $2"}]}],
 "loggers": [{"name": "kea-dhcp4", "severity": "INFO", "output_options": [{"output": "stdout"}]}]}}
END
    KEA_PIDFILE_DIR=$work KEA_LOCKFILE_DIR=none exec kea-dhcp4 -c "$work/kea.json"
}

by_peer() {
    exec python3 "$here/small_peer.py" tap0 192.168.69.100 --dhcp "$1" "$2" --leases "$work/$3"
}

serve() {
    case $kind in
    dnsmasq) by_dnsmasq "$@" ;;
    kea-dhcp4) by_kea "$@" ;;
    *) by_peer "$@" ;;
    esac >>"$work/server" 2>&1 &
    server=$!
}

leave() {
    kill "$server"
    wait "$server" || true
    server=
}

status=0
# So many lines of the host's that match, within so many seconds.
prints() {
    local i
    for i in $(seq 1 $(($3 * 10))); do
        [ "$(grep -c "$1" "$work/host" || true)" -ge "$2" ] && return
        sleep 0.1
    done
    echo "dhcp.sh: within $3 s there weren't $2 lines '$1'" >&2
    cat "$work/host" "$work/server" >&2
    exit 1
}

ours='^leased 192.168.69.5[0-9]/24 by 192.168.69.100, router 192.168.69.100, names 192.168.69.100, names 192.168.69.101,.* for 1[12][0-9] s'
serve 192.168.69.50 192.168.69.59 leases
"$program" tap0 80 >"$work/host" &
host=$!
echo "== a lease of $kind"
prints "$ours" 1 10
[ "$kind" != dnsmasq ] || prints 'packets of 1400' 1 1
address=$(sed -n 's|leased \(.*\)/24.*|\1|p' "$work/host" | head -1)
ping -q -c 3 -i 0.2 "$address" || status=1
echo "== renewed"
prints "$ours" 2 10
echo "== the server is gone, and back, when any server is asked"
leave
sleep 6
serve 192.168.69.50 192.168.69.59 leases
prints "$ours" 3 15
ping -q -c 3 -i 0.2 "$address" || status=1
[ "$(grep -c '^no lease' "$work/host" || true)" = 0 ] || status=1
if [ "$kind" = kea-dhcp4 ]; then
    echo "== kea-dhcp4 leaves unanswered who asks to renew what it doesn't know: that another server refuses wasn't tried"
    cat "$work/host"
    exit $status
fi
echo "== another server refuses, and leases another address"
leave
serve 192.168.69.150 192.168.69.159 others
prints '^no lease' 1 15
prints '^leased 192.168.69.15[0-9]/24' 1 20
! ping -q -c 1 -W 1 "$address" || status=1
ping -q -c 3 -i 0.2 "$(sed -n 's|leased \(192.168.69.15.\)/24.*|\1|p' "$work/host" | head -1)" || status=1
cat "$work/host"
exit $status
