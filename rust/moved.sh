#!/bin/sh
# Builds smoltcp's examples, as they are in examples, in a crate whose sources name smoltcp, and which has this one in its
# place by one line of its Cargo.toml. One of them is run.
set -eu
cd "$(dirname "$0")"
here=$(pwd)
folder=$(mktemp -d)
trap 'rm -rf "$folder"' EXIT
mkdir -p "$folder/src/bin"
printf '%s\n' '[package]' 'name = "moved"' 'version = "0.1.0"' 'edition = "2024"' '[dependencies]' \
    "smoltcp = { package = \"fumitorygate\", path = \"$here\" }" >"$folder/Cargo.toml"
for name in benchmark client dhcp_client dns httpclient loopback multicast ping server; do
    sed 's/\bfumitorygate\b/smoltcp/g' "examples/$name.rs" >"$folder/src/bin/$name.rs"
done
# What is in smoltcp's examples and not in these: middleware, each medium, and calls by the way.
cp moved/calls.rs "$folder/src/bin/calls.rs"
cd "$folder"
"${CARGO:-cargo}" build -q --offline
target/debug/loopback | grep -qx 'got Ok("0123456789abcdef")'
target/debug/calls >/dev/null
echo "smoltcp's examples are built with one line: $(ls src/bin | tr '\n' ' ')"
