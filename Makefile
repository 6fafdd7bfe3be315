# What is made at the top. `make -C c` and `make -C rust` have more.
#
#   make try        the library and the examples in C without a proof, in minutes
#   make release    archives of what is proved, and the crate that carries it, in out/release: release.sh has how
#   make check      the gate, as .ci/run
#
# After `rt ci`, whose libraries a later `rt lib` doesn't take, `make release BUILD_LIBRARY=./over_gate.sh`.

.PHONY: try release check

try:
	$(MAKE) -C c try

release:
	./release.sh out/release

check:
	sh .ci/run
