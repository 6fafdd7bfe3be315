#!/bin/bash
# Counts the instructions of a round of each work of examples/cost.rs, by each way of calling the library, beside
# c/build/bench.
#
# It needs valgrind; for the column of C `make -C c`.
set -eu
cd "$(dirname "$0")"
${CARGO:-cargo} build -q --release --no-default-features --features std --example cost
count() { valgrind --tool=callgrind --callgrind-out-file=/dev/null "$@" 2>&1 | sed -n 's/.*Collected : //p'; }
round() { echo $((($(count "$@" 2000) - $(count "$@" 1000)) / 1000)); }
echo "work C raw host iface"
for work in deliver back send poll_at; do
    c=-
    [ ! -x ../c/build/bench ] || c=$(round ../c/build/bench $work)
    echo $work $c "$(round target/release/examples/cost raw $work)" "$(round target/release/examples/cost host $work)" \
        "$(round target/release/examples/cost iface $work)"
done
