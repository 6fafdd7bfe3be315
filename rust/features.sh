#!/bin/sh
# Builds the crate, and tests/features.rs over it, with each list of feature_lists.txt.
set -eu
cd "$(dirname "$0")"
grep -v '^#' feature_lists.txt | while read -r list; do
    "${CARGO:-cargo}" clippy -q --no-default-features --features "$list" --lib --test features -- -D warnings ||
        { echo "features.sh: with $list it isn't built" >&2 && exit 1; }
    echo "built with $list"
done
