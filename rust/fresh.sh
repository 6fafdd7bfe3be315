#!/bin/sh
# Makes a crate in a temporary folder, with the program and the dependency of README.md, and runs it: over this folder,
# and over this crate as it is packaged, unpacked elsewhere. The package is built, tested and documented there, where
# commands find cargo and a linker alone, and its pages' links have to lead somewhere. Without a library the package has to
# say what it lacks; over one that has other octets than were proved, or another header, it has to be refused.
#
#   fresh.sh [FOLDER]      leaves the crate in FOLDER, with the libraries that stand in lib
#
# With FUMITORYGATE_TRY=1 it is over the unproved library, of which no proof is told: that is for trying this script.
set -eu
cd "$(dirname "$0")"
here=$(pwd)
folder=$(mktemp -d)
trap 'rm -rf "$folder"' EXIT
cargo=${CARGO:-cargo}
target=${TARGET:-$(rustc -vV | sed -n 's/^host: //p')}
tries=${FUMITORYGATE_TRY:-}
unset FUMITORYGATE_TRY

refuse() {
    echo "fresh.sh: $1" >&2
    exit 1
}

# PATH [NAME FEATURES]: under another name, with features.
make_own() {
    mkdir -p "$folder/own/src"
    printf '%s\n' '[package]' 'name = "own"' 'version = "0.1.0"' 'edition = "2024"' '[dependencies]' \
        "${2:-fumitorygate} = { package = \"fumitorygate\", path = \"$1\", features = [${3:-}] }" >"$folder/own/Cargo.toml"
    # The first block of Rust.
    sed -n '/^```rust$/,/^```$/p' "$here/README.md" | sed '1d;/^```$/,$d' |
        sed "s/fumitorygate/${2:-fumitorygate}/" >"$folder/own/src/main.rs"
}

# PATH WHAT [NAME FEATURES]
try() {
    make_own "$1" "${3:-}" "${4:-}"
    printed=$(cd "$folder/own" && "$cargo" run -q --offline 2>"$folder/said") ||
        { cat "$folder/said" >&2 && refuse "over $2 it failed"; }
    [ "$printed" = '127.0.0.1:7: hello' ] || refuse "over $2 it printed '$printed'"
    [ -n "$tries" ] || ! grep UNPROVED "$folder/said" || refuse "over $2 no proof is known"
    echo "a crate of $(wc -l <"$folder/own/src/main.rs") lines, over $2: $printed"
}

# It has to fail with these words, and not in the linker.
fails() {
    make_own "$packaged"
    ! said=$(cd "$folder/own" && PKG_CONFIG_PATH='' PKG_CONFIG_LIBDIR="$folder" "$cargo" run -q --offline 2>&1) || refuse "$2: it was taken"
    case $said in
    *'linking with'*) refuse "$2: the linker failed: $said" ;;
    *"$1"*) echo "$2 is refused" ;;
    *) refuse "$2: it printed '$said'" ;;
    esac
}

# The crate, with the pages that its own lead to, which stand outside this folder.
package() {
    mkdir "$folder/staged"
    cp -r Cargo.toml build.rs build src examples tests "$folder/staged/"
    [ ! -d lib ] || cp -r lib "$folder/staged/"
    python3 ../docs/carry.py crate "$folder/staged"
    (cd "$folder/staged" && "$cargo" package -q --no-verify --allow-dirty --offline --target-dir "$folder/target")
    tar -C "$folder" -xzf "$folder"/target/package/fumitorygate-*.crate
    packaged=$(echo "$folder"/fumitorygate-*)
    python3 ../docs/carry.py --check "$packaged"
}

# WORDS: runs cargo in the package, where commands find it, the compiler and a linker, and nothing else.
alone() {
    mkdir -p "$folder/alone"
    for name in cargo rustc rustdoc cc ld; do ln -sf "$(command -v "$name")" "$folder/alone/"; done
    (cd "$packaged" && env -i HOME="$HOME" PATH="$folder/alone" RUSTUP_HOME="${RUSTUP_HOME:-$HOME/.rustup}" cargo "$@" \
        --offline --target-dir "$folder/target" >"$folder/said" 2>&1) || { cat "$folder/said" >&2 && refuse "cargo $*: it failed"; }
    echo "the package alone: cargo $*"
}

if [ -n "$tries" ]; then
    make -s -C ../c unproved UNPROVED=1 build/unproved/libiface_c_unproved.a >/dev/null
    mkdir "$folder/unproved"
    for name in libiface libiface_c; do cp "../c/build/unproved/${name}_unproved.a" "$folder/unproved/$name.a"; done
    export FUMITORYGATE_LIB_DIR="$folder/unproved"
fi
try "$here" 'this folder'
package
if [ -n "$tries" ]; then
    mkdir -p "$packaged/lib" && cp -r "$folder/unproved" "$packaged/lib/$target"
elif [ ! -d "$packaged/lib" ]; then
    ./carry.sh "$packaged/lib"
fi
unset FUMITORYGATE_LIB_DIR
try "$packaged" 'the package'
try "$packaged" "the package under smoltcp's name" smoltcp '"medium-ip", "proto-ipv4", "socket-udp"'
alone test -q --tests
alone build -q --examples
alone build -q --example server # README.md's command
alone run -q --example loopback
alone doc -q --no-deps

library=$packaged/lib/$target/libiface.a
cp "$library" "$folder/kept"
if [ -z "$tries" ]; then
    echo >>"$library"
    fails "isn't the library that was proved" 'a library with an octet more'
fi
mv "$packaged/lib" "$folder/lib"
fails 'this package carries no library for' 'a package without a library'
mv "$folder/lib" "$packaged/lib"
cp "$folder/kept" "$library"

# The same library under a crate whose header has the number 255.
own=$(sed -n 's/.*define IFACE_VERSION \(0x[0-9a-f]*\)u/\1/p' ../c/iface.h)
sed -i "s/\(pub const IFACE_VERSION: u32 =\) .*/\1 $((own | 255));/" "$packaged/src/sys.rs"
fails 'with header 255, and the library is version' 'a library of another header'
[ -z "${1:-}" ] || cp "$folder"/target/package/fumitorygate-*.crate "$1/"
