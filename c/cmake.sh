#!/bin/sh
# Builds a program by CMake over an installed library, and compares what it prints.
#
#   cmake.sh PREFIX [RUN]      the folder with lib/cmake/iface; what runs the program, as 'qemu-aarch64 -L /usr/aarch64-linux-gnu'
#
# CC names the compiler. Without cmake it says so, and does nothing.
set -eu
here=$(cd "$(dirname "$0")" && pwd)
prefix=$(cd "$1" && pwd)
if ! command -v cmake >/dev/null; then
    echo 'cmake.sh: no cmake: lib/cmake/iface was not tried' >&2
    exit 0
fi
work=$(mktemp -d)
trap 'rm -rf "$work"' EXIT
cat >"$work/CMakeLists.txt" <<END
cmake_minimum_required(VERSION 3.13)
project(prog C)
find_package(iface 0.14 REQUIRED)
add_executable(prog "$here/examples/first.c")
target_link_libraries(prog iface::iface)
END
cmake -S "$work" -B "$work/build" -DCMAKE_PREFIX_PATH="$prefix" -DCMAKE_C_COMPILER="${CC:-cc}" >"$work/said" 2>&1 &&
    cmake --build "$work/build" >>"$work/said" 2>&1 || { cat "$work/said" >&2 && exit 1; }
printed=$(${2-} "$work/build/prog")
[ "$printed" = 'from 10.0.0.1: hello' ] || { echo "cmake.sh: it printed '$printed'" >&2 && exit 1; }
echo "a program by CMake over $prefix: $printed"
