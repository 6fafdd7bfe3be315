#!/bin/sh
# Prints the instructions of TCP's work, by tcp_bench.c under callgrind: what the functions of a host take between the call and
# the return, without the program that calls them and the peer. Each is the difference of two runs, divided by the rounds.
#
#   tcp.sh own                    this library's, as `make -C c` built it
#   tcp.sh SOURCE                 lwIP's: the unpacked source of lwIP 2.1.3, as of `apt-get source lwip` on Debian 12
#   tcp.sh SOURCE build FOLDER    just builds into a folder: tcp_bench; tcp_echo, which is a stand-in for ../tcp.sh; path_lwip, one
#                                 for ../path_speed.sh, with ROOM octets each way, 1,000,000 if not told; tcp_script, which prints
#                                 the frames and calls of tcp_bench
#
# It needs a C compiler and valgrind.
set -eu
here=$(cd "$(dirname "$0")" && pwd)
source=$1
work=${3:-$(mktemp -d)}
[ $# = 3 ] || trap 'rm -rf "$work"' EXIT

build() { # build PROGRAM FLAG.. -- FILE..
    program=$1
    shift
    ${CC:-cc} -O3 -g -march=x86-64-v2 -w -DLWIP_TCP=1 -I"$here" -I"$source/src/include" "$@" "$source"/src/core/*.c \
        "$source"/src/core/ipv4/*.c "$source"/src/core/ipv6/*.c "$source/src/netif/ethernet.c" -o "$work/$program"
}
if [ "$source" = own ]; then
    ${CC:-cc} -O3 -g -march=x86-64-v2 "$here/tcp_bench.c" "$here/tcp_iface.c" "$here/../build/libiface.a" -o "$work/tcp_bench"
else
    build tcp_bench -DLWIP_IPV6=0 "$here/tcp_bench.c" "$here/tcp_lwip.c"
    ${CC:-cc} -O2 "$here/tcp_bench.c" "$here/tcp_script.c" -o "$work/tcp_script"
    build tcp_echo -DLWIP_IPV6=1 -DTCP_WND=65535 "$here/tcp_echo.c"
    build path_lwip -DLWIP_IPV6=0 -DTCP_WND="${ROOM:-1000000}" -DTCP_SND_BUF="${ROOM:-1000000}" "$here/path_lwip.c"
fi
[ $# = 1 ] || exit 0

count() {
    valgrind --tool=callgrind --callgrind-out-file=/dev/null --collect-atstart=no --toggle-collect='host_*' \
        --toggle-collect=bench_sent "$work/tcp_bench" "$@" 2>&1 | sed -n 's/.*Collected : //p'
}
for run in receive send echo echo:100 echo:10000 connect connect:100 connect:10000 poll poll:100 poll:10000 \
    tick tick:100 tick:10000; do
    IFS=: read -r what connections <<END
$run
END
    rounds=${ROUNDS:-1000}
    first=$(count "$what" $((2 * rounds)) "${connections:-1}")
    echo "$run $(((first - $(count "$what" "$rounds" "${connections:-1}")) / rounds))"
done
