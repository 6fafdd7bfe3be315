#!/bin/bash
# Measures how many octets a second a connection carries by the round trip and the loss of its path, and prints a table: from here and
# to here, and both ways at once, beside Linux's TCP and lwIP's. The other end is always Linux's. relay.c is the path, so no netem is
# needed. It changes nothing outside network namespaces of its own, and ends by itself.
#
#   path_speed.sh [OPTION..] FOLDER      of the built programs: build, or build/unproved
#
# Options:
#   -l SOURCE      the unpacked source of lwIP 2.1.3, as of `apt-get source lwip` on Debian 12; without it there are no rows of lwIP
#   -n RUNS        of which the median counts, each with a seed of its own for the path: 9 if not told
#   -t SECONDS     that a run takes, from the handshake on: 10 if not told
#   -m ROOM        octets that are under way at most, at every end: 1,000,000 if not told
#   -d DELAYS      round trips in milliseconds: 20,100 if not told
#   -p LOSSES      in percent, of all frames, each way: 0,0.1,1,5 if not told
#   -w ROWS        these alone, by their names: '-w list' prints all
#   -o FILE        where each run is told, in a line; '-i FILE' prints the table of such files once more, and runs nothing
#
# With nine runs and all rows it takes two and a half hours. Nothing else ought to run meanwhile: where the relay comes late, the round
# trip grows. It needs: root (for the namespaces and the devices), unshare and nsenter (util-linux), ip (iproute2), ping (iputils),
# python3, /dev/net/tun, a C compiler; Reno and CUBIC in the kernel, which its tcp_available_congestion_control tells.
set -eu
here=$(dirname "$(realpath "$0")")

need() {
    echo "path_speed.sh: this needs $1" >&2
    exit 2
}

case " $* " in
*' list '* | *' -i '*) exec python3 "$here/path_speed.py" "$@" ;;
esac
if [ -z "${IS_INSIDE:-}" ]; then
    [ "$(uname)" = Linux ] || need "Linux"
    [ "$(id -u)" = 0 ] || need "root, for network namespaces and TAP devices"
    [ -c /dev/net/tun ] || need "/dev/net/tun (modprobe tun)"
    for tool in unshare nsenter ip ping python3; do
        command -v "$tool" >/dev/null || need "$tool"
    done
    make -s -C "$here" UNPROVED= TARGET= build/relay
    exec env IS_INSIDE=1 unshare -n -- "$0" "$@"
fi

# Whoever stands in for a program is in a second namespace, at tap1. Of one connection the kernel remembers nothing for the next.
unshare -n sleep 36000 &
other=$!
trap 'kill $other 2>/dev/null || true' EXIT
while [ "$(readlink "/proc/$other/ns/net")" = "$(readlink /proc/$$/ns/net)" ]; do sleep 0.1; done
set_up() { # set_up DEVICE ADDRESS
    echo 1 >/proc/sys/net/ipv6/conf/default/disable_ipv6
    echo 1 >/proc/sys/net/ipv4/tcp_no_metrics_save
    ip tuntap add dev "$1" mode tap
    ip addr add "$2/24" dev "$1"
    ip link set "$1" up
}
set_up tap0 192.168.69.100
export -f set_up
nsenter --net="/proc/$other/ns/net" bash -c 'set_up tap1 192.168.69.7'
OTHER=/proc/$other/ns/net python3 "$here/path_speed.py" "$@"
