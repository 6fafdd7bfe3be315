#!/bin/bash
# Counts the instructions of PERFORMANCE.md by valgrind's callgrind: the difference of two runs, divided by the rounds
# between them.
#
# usage: count.sh rattle   the frames of `crates/iface_bench`, after `rt run -- send 3 < stdin` there
#        count.sh c        the calls of `c/build/bench`, after `make -C c`
# RUNS has others than all, as RUNS=receive:arp.
set -euo pipefail
cd "$(dirname "$0")/.."

# What is done, by what input, with how many sockets, by which family of addresses.
frames=(receive:arp receive:echo-56 receive:echo-1400 deliver:deliver-64 deliver:deliver-1400
    receive:unreachable-64 receive:reset send:send-1400 receive:nobody route:send-64 full:deliver-1400
    receive:echo-56:16 receive:echo-56:256 receive:echo-56:1024 deliver:deliver-64:16 deliver:deliver-64:256
    deliver:deliver-64:1024 send:send-1400:16 send:send-1400:256 send:send-1400:1024 packet:packet-56
    poll:nothing poll:nothing:16 poll:nothing:256 poll:nothing:1024
    at:nothing at:nothing:16 at:nothing:256 at:nothing:1024
    fragments:fragments-64 pieces:pieces-56 pieces:pieces-3992 cut:cut-3000 link:link-4000
    receive:solicit-6:1:6 receive:echo-6-56:1:6 receive:echo-6-1400:1:6 deliver:deliver-6-64:1:6
    deliver:deliver-6-1400:1:6 receive:unreachable-6-64:1:6)
# What is done, with how many sockets.
calls=(arp echo deliver back send poll_at poll_at:64 poll_at:1024 next:1 next:16 next:64 next:256 next:1024 waiting:1 waiting:16
    waiting:64 until:1 until:16 until:64)

# The instructions of a program with these arguments, whose input is a file.
count() {
    local input=$1
    shift
    valgrind --tool=callgrind --callgrind-out-file=/dev/null "$@" < "$input" 2>&1 | sed -n 's/.*Collected : //p'
}

# The instructions of one round: of a program, its input, and its arguments before and after the number of rounds.
one_round() {
    local program=$1 input=$2 before=$3
    shift 3
    echo $((($(count "$input" "$program" "$before" 2000 "$@") - $(count "$input" "$program" "$before" 1000 "$@")) / 1000))
}

case ${1:-} in
rattle)
    bench=crates/iface_bench
    for run in ${RUNS:-${frames[@]}}; do
        IFS=: read -r work input rest <<< "$run"
        # shellcheck disable=SC2086
        echo "$run $(one_round $bench/out/iface_bench "$bench/data/$input" "$work" ${rest//:/ })"
    done ;;
c)
    for run in ${RUNS:-${calls[@]}}; do
        IFS=: read -r work sockets <<< "$run"
        # shellcheck disable=SC2086
        echo "$run $(one_round c/build/bench /dev/null "$work" $sockets)"
    done ;;
*)
    sed -n '2,8s/^# \{0,1\}//p' "$0"
    exit 2 ;;
esac
