#!/bin/sh
# Writes iface.h for a processor whose pointers have 32 bits: its `size_t` is `iface_size`, of 64 bits as the module has it.
#
#   header.sh OUT.h
set -eu
here=$(cd "$(dirname "$0")" && pwd)
sed -e 's/\bsize_t\b/iface_size/g' -e '/^#include <stdint.h>$/a\
\
/* The library is compiled for pointers of 32 bits, and its lengths have 64 bits all the same. */\
typedef uint64_t iface_size;' "$here/../iface.h" >"$1"
