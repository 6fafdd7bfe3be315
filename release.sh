#!/bin/sh
# Makes a release in FOLDER, of the commit that is checked out: for each target an archive with the proved library, one for firmware, and
# the crate that carries the libraries, each with all pages. Then it tries each as one who has nothing else would.
#
#   release.sh FOLDER
#
# BUILD_LIBRARY, where it is set, is handed to `make -C c`, as ./over_gate.sh after `rt ci`; with `--program simulate` behind
# it, it builds `simulate`, in place of `rt run`. It needs the Rattle kit's `rt`, a C compiler, pkg-config and git; for
# aarch64 Debian's gcc-aarch64-linux-gnu, libc6-dev-arm64-cross and qemu-user; to try firmware gcc-arm-none-eabi and
# qemu-system-arm; for the crate cargo. What is skipped for want of these is said.
set -eu
cd "$(dirname "$0")"
mkdir -p "$1"
folder=$(cd "$1" && pwd)
work=$(mktemp -d)
trap 'rm -rf "$work" rust/lib' EXIT

refuse() {
    echo "release.sh: $1" >&2
    exit 1
}

[ -z "$(git status --porcelain)" ] || refuse 'a release is made of a commit, and files were changed since'
version=$(sed -n 's|.*"fumitorygate \([0-9.]*\).*|\1|p' c/about.c)
rm -rf "$folder"/fumitorygate-* "$folder/SHA256SUMS" rust/lib # (the crate would take that for what `make -C c` built)

own_target=
! command -v cargo >/dev/null || own_target=$(rustc -vV | sed -n 's/^host: //p')

# The octets of an archive depend on its files' alone.
pack() {
    tar -C "$work" --sort=name --owner=0 --group=0 --numeric-owner --mtime="@$(git log -1 --format=%ct)" -cf - "$1" |
        gzip -n >"$folder/$1.tar.gz"
}

# README.md's two first commands for C, in a folder that has the unpacked archive and nothing else. The second one needs root, a TAP
# device, and the tools that ping_it.sh names.
can_ping() {
    [ "$(id -u)" = 0 ] && [ -e /dev/net/tun ] && command -v unshare >/dev/null && command -v ip >/dev/null && command -v ping >/dev/null
}

first_commands() {
    (cd "$place" && sh -c "$(command_of 'cc -o tap_host')")
    if can_ping; then
        (cd "$place" && sh -c "$(command_of 'sudo examples/ping_it.sh ./tap_host' | sed 's/^sudo //')")
    else
        echo 'release: no root, no /dev/net/tun, or no unshare, ip or ping: ping_it.sh was not run'
    fi
    rm -f "$place/tap_host"
}

# WORDS: the command of README.md that begins so.
command_of() {
    found=$(sed -n "s|^    \($1.*\)|\1|p" README.md | sed 's/ *#.*//')
    [ -n "$found" ] || refuse "README.md has no command '$1'"
    echo "$found"
}

# Builds the example `discover` of the crate over the archive's library, where there is cargo.
discover() {
    FUMITORYGATE_LIB_DIR="$place/lib" cargo build -q --release --offline --manifest-path rust/Cargo.toml --example discover
    cp rust/target/release/examples/discover "$place/bin/"
}

# Builds `simulate`, and keeps it with what tells of its proof.
simulate() {
    built=crates/simulate/out/simulate
    rm -f "$built"
    if [ -n "${BUILD_LIBRARY-}" ]; then
        set -- "cd c && $BUILD_LIBRARY --program simulate"
    else
        set -- "cd crates/simulate && ${RT:-rt} run </dev/null"
    fi
    c/proof.sh make "$place/bin/simulate" "$built" sh -c "$1"
    rm "$place/bin/simulate.said"
}

# The unpacked `simulate` is the one that was proved, and prints of the examples what it has to.
try_simulate() {
    c/proof.sh check "$place/bin/simulate"
    # shellcheck disable=SC2046
    (cd crates/simulate/data && "$place/bin/simulate" $(cat ../args)) | cmp - crates/simulate/stdout
}

# TARGET BUILD COMPILER RUN MAKE'S VARIABLES..: builds, packs, unpacks elsewhere and tries the archive of a target.
archive() {
    target=$1 build=$2 compiler=$3 run=$4
    shift 4
    name=fumitorygate-$version-$target
    place=$work/$name
    case "$*" in
    *TARGET=*) ;; # it is built over the libraries that were proved for the first one
    *) set -- "$@" ${BUILD_LIBRARY:+"BUILD_LIBRARY=$BUILD_LIBRARY"} ;;
    esac
    make -C c "$build/libiface.a" "$@"
    make -C c install "$@" PREFIX="$place" PC_PREFIX='$${pcfiledir}/../..'
    cp "c/$build/libiface_c.a" "c/$build/libiface_c.a.proof" "$place/lib/"
    mkdir "$place/examples" "$place/bin"
    cp c/examples/*.[ch] c/examples/*.sh c/heap.c c/arena.[ch] c/small.sh c/small_peer.py "$place/examples/"
    python3 docs/carry.py archive "$place"
    cp LICENSE "$place/"
    for program in ping arping sweep http_hello gateway; do
        "$compiler" -O2 -o "$place/bin/$program" "c/examples/$program.c" -I"$place/include" "$place/lib/libiface.a"
    done
    [ "$target" != "$own_target" ] || discover
    [ "$build" != build ] || simulate
    pack "$name"
    rm -rf "$place"
    tar -C "$work" -xzf "$folder/$name.tar.gz"
    for library in libiface.a libiface_c.a; do c/proof.sh check "$place/lib/$library"; done
    python3 docs/carry.py --check "$place"
    [ "$build" != build ] || try_simulate
    [ "$build" != build ] || first_commands
    CC=$compiler c/cmake.sh "$place" "$run"
    # shellcheck disable=SC2046
    "$compiler" -o "$work/udp_echo" "$place/examples/udp_echo.c" \
        $(PKG_CONFIG_PATH="$place/lib/pkgconfig" pkg-config --cflags --libs iface)
    head -n 3 crates/udp_echo/stdout >"$work/echoed"
    $run "$work/udp_echo" <crates/udp_echo/stdin | cmp - "$work/echoed"
    ! command -v cargo >/dev/null ||
        FUMITORYGATE_LIB_DIR="$place/lib" TARGET="$target" rust/carry.sh rust/lib
    echo "release: $name.tar.gz, and a program over it prints what it has to"
}

# Packs the libraries for firmware, which no proof covers, with the programs for boards, and tries these as an unpacked archive has them.
firmware() {
    name=fumitorygate-$version-firmware-experimental
    place=$work/$name
    make -C c firmware ${BUILD_LIBRARY:+"BUILD_LIBRARY=$BUILD_LIBRARY"}
    mkdir -p "$place/lib"
    cp c/build/firmware/libiface-*.a "$place/lib/"
    cp -r c/build/firmware/include c/boards "$place/"
    cp c/targets/alone.c c/arena.c c/small_peer.py "$place/boards/"
    python3 docs/carry.py firmware "$place"
    cp LICENSE "$place/"
    pack "$name"
    rm -rf "$place"
    tar -C "$work" -xzf "$folder/$name.tar.gz"
    python3 docs/carry.py --check "$place"
    "$place/boards/try.sh" "$place/lib"
    echo "release: $name.tar.gz, for Cortex-M and riscv32, without a proof"
}

archive x86_64-unknown-linux-gnu build "${CC:-cc}" ''
firmware
if command -v aarch64-linux-gnu-gcc >/dev/null && command -v qemu-aarch64 >/dev/null; then
    archive aarch64-unknown-linux-gnu build/aarch64-linux-gnu aarch64-linux-gnu-gcc 'qemu-aarch64 -L /usr/aarch64-linux-gnu' \
        TARGET=aarch64-linux-gnu
else
    echo 'release: no aarch64-linux-gnu-gcc, or no qemu-aarch64: aarch64 is skipped'
fi
if command -v cargo >/dev/null; then
    rust/fresh.sh "$folder"
    echo "release: fumitorygate-$version.crate, for $(ls rust/lib | tr '\n' ' ')"
else
    echo 'release: no cargo: the crate is skipped'
fi
(cd "$folder" && sha256sum fumitorygate-* >SHA256SUMS && cat SHA256SUMS)
