# The layout's benchmark: the engine's reader against a plain C decoder of the same layout, in one run, a table for each
# C compiler that is there. From the repository's root: make bench-layout [COMPILERS=cc]. No part of the gate.
BENCH_LAYOUT := target/bench/layout
COMPILERS ?= $(notdir $(shell command -v gcc) $(shell command -v clang))

.PHONY: bench-layout
bench-layout: target/staticlib/libbench_wire.a ## the engine's reader beside a plain C decoder of the same layout
	@mkdir -p $(BENCH_LAYOUT)
	@echo "$$(nproc) cores, $$(sed -n 's/^model name.*: //p' /proc/cpuinfo | head -n 1)"
	@for cc in $(COMPILERS); do \
	    $$cc -std=c11 -Wall -Wextra -O2 bench/layout/bench.c bench/layout/plain.c target/staticlib/libbench_wire.a \
	        -o $(BENCH_LAYOUT)/bench-$$cc || exit 1; \
	    echo; echo "plain C by $$($$cc --version | head -n 1), -O2"; echo; \
	    $(BENCH_LAYOUT)/bench-$$cc oracle/stored/decode/*.in || exit 1; \
	done
