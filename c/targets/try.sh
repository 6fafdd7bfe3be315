#!/bin/bash
# Builds replay.c for each processor from one module, runs it under qemu on the same frames, and compares what it prints.
#
#   try.sh MODULE.ll FOLDER [COUNT]      COUNT frames, 20000 if left out; it needs python3 and qemu-user. Libraries of archive.sh that
#                                        are in FOLDER are taken as they are
set -eu
here=$(cd "$(dirname "$0")" && pwd)
module=$1 folder=$2 count=${3:-20000}
mkdir -p "$folder"
"$here/frames.py" "$count" 1 >"$folder/frames"
status=0

try() { # TARGET COMMAND..
    local target=$1 library=$module
    shift
    if [ $# -gt 0 ] && ! command -v "$1" >/dev/null; then
        echo "$target: no $1 here"
        return
    fi
    [ ! -f "$folder/libiface-$target.a" ] || library=$folder/libiface-$target.a
    "$here/program.sh" "$library" "$target" small "$folder/$target" || return
    "$@" "$folder/$target" <"$folder/frames" >"$folder/$target.out" || { echo "$target: status $?" && return 1; }
    echo "$target: $(wc -l <"$folder/$target.out") lines, $(size -A "$folder/$target" | awk '/^\.text/ { print $2 }') octets of code"
}

jobs=
for how in x86-64 'aarch64 qemu-aarch64' 'riscv64 qemu-riscv64' 'thumbv7m qemu-arm' 'thumbv7em qemu-arm' 'riscv32imac qemu-riscv32'; do
    rm -f "$folder/${how%% *}.out"
    # shellcheck disable=SC2086
    try $how &
    jobs="$jobs $!"
done
for job in $jobs; do wait "$job" || status=1; done
for out in "$folder"/*.out; do cmp "$folder/x86-64.out" "$out" || status=1; done
exit $status
