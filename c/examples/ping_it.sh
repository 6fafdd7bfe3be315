#!/bin/sh
# Starts a program that is a host at 192.168.69.1 and fe80::1 on a TAP device of Linux, and pings it. The device is in a
# network namespace of its own, so nothing else is changed, and all ends within seconds.
#
#   sudo ping_it.sh PROGRAM [WORD..]      PROGRAM gets `tap0 8` and the words: tap_host of C, server of Rust
#
# It needs root, unshare (util-linux), ip (iproute2), ping (iputils) and /dev/net/tun.
set -eu
if [ -z "${IS_INSIDE:-}" ]; then
    [ "$(id -u)" = 0 ] || { echo 'ping_it.sh: it needs root, for a network namespace and a TAP device' >&2 && exit 2; }
    for tool in unshare ip ping; do
        command -v $tool >/dev/null || { echo "ping_it.sh: there is no $tool" >&2 && exit 2; }
    done
    exec env IS_INSIDE=1 timeout 30 unshare -n -- "$0" "$(realpath "$1")" "$@"
fi
program=$1
shift 2
ip tuntap add dev tap0 mode tap
ip addr add 192.168.69.100/24 dev tap0
ip -6 addr add fe80::100/64 dev tap0 nodad
ip link set tap0 up
"$program" tap0 8 "$@" &
host=$!
sleep 2 # until the kernel may use its link-local address
trap 'kill $host 2>/dev/null || true' EXIT
ping -c 3 -i 0.3 192.168.69.1
ping -c 3 -i 0.3 fe80::1%tap0
