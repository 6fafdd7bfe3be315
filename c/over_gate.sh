#!/bin/sh
# Builds crates/iface_c/out/libiface_c.a, or the program of another crate, over the libraries that `rt ci` or `rt lib` has
# just proved in this clone. It proves that crate itself once more, which takes a few minutes, and nothing below; `rt lib`
# after `rt ci`, which keeps no trust in what that left, would take hours. What it proved is kept in the crate's
# out/incremental, so that the next build of it takes seconds.
#
#   over_gate.sh [-o FILE] [--target TRIPLE --toolchain FOLDER] [--backend rattle]
#   over_gate.sh --program NAME     builds crates/NAME/out/NAME, for x86-64 Linux
#
# With a target the library is for that processor, over the same libraries, and its verdict names that target.
# toolchain.sh makes the folder. With the kit's other compiler the last line tells a bound on the stack: frame-bytes,
# stack-bytes.
#
# It needs the Rattle kit's `rt`, or what RT names. Where nothing was proved before, `rt lib` in crates/iface_c is the
# way.
set -eu
crates=$(cd "$(dirname "$0")/../crates" && pwd)
kit=$(dirname "$("${RT:-rt}" doc)")

name=iface_c out=$crates/iface_c/out/libiface_c.a toolchain=$kit/toolchain backend=llvm target=x86_64-unknown-linux-gnu
program=
while [ $# -gt 0 ]; do
    case $1 in
    -o) out=$(realpath -m "$2") ;;
    --target) target=$2 ;;
    --toolchain) toolchain=$(realpath "$2") ;;
    --backend) backend=$2 ;;
    --program) name=$2 program=$crates/$2/out/$2 out=$crates/$2/out/$2.o ;;
    *) echo "over_gate.sh: $1?" >&2 && exit 2 ;;
    esac
    shift 2
done

if [ -n "$program" ]; then
    set -- --crate-name "$name" src/main.rt --links "$name="
else
    set -- --crate-name "$name" src/lib.rt --crate-type staticlib --links "$name="
fi
set -- "$@" --extern "std=$kit/rlibs/std.rlib" -L "dependency=$kit/rlibs"
uses=$(sed -n "s/^$name\( staticlib\)*: *//p" "$crates/../crates.txt")
for used in $uses; do
    if [ ! -d "$crates/$used" ]; then # a library of the kit
        set -- "$@" --extern "$used=$kit/rlibs/$used.rlib"
        continue
    fi
    if [ ! -d "$crates/$used/out/rlib" ]; then
        echo "over_gate.sh: $used isn't proved here: \`rt lib\` in crates/$name comes first" >&2
        exit 1
    fi
    set -- "$@" --extern "$used=$crates/$used/out/rlib/$used.rlib"
done
for folder in "$crates"/*/out/rlib; do
    set -- "$@" -L "dependency=$folder"
done
set -- "$@" --antt-project "$kit/rattle/logic/antt-project.json" --logic-built "$kit/logic_built"
set -- "$@" --toolchain "$toolchain" --incremental out/incremental
mkdir -p "$(dirname "$out")" "$crates/$name/out"
cd "$crates/$name"
"$kit/bin/rattle" build "$@" --backend "$backend" --target "$target" --jobs "${JOBS:-$(nproc)}" -o "$out"
[ -z "$program" ] || "$kit/bin/rattle-link" --target "$target" --toolchain "$toolchain" -o "$program" "$out" \
    "$kit/c/libos_c.a" "$kit/c/liblibc_c.a"
