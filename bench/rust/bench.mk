# The engine beside its peers: the layout beside plain C, then all calls beside the unchanged Rust, which one program links
# and times in turns on the same input. From the repository's root: make bench [PARTS="layout search append adopt map
# node"]. It needs cargo and the published files (make oracle); no part of the gate.
BENCH_RUST := target/bench/rust
BENCH_LIBS := bench_log host
# A search in plain C stands beside the Rust's, and FAISS's exact index where Debian's libfaiss-dev is installed.
FAISS := $(wildcard /usr/include/faiss/IndexFlat.h)
BENCH_PEERS := plain.o $(if $(FAISS),faiss.o)
BENCH_FAISS := $(if $(FAISS),$(foreach l,faiss lapack blas stdc++ gomp,-C link-arg=-l$(l)))

$(BENCH_RUST)/plain.o: bench/rust/plain.c | need-cc
	@mkdir -p $(@D)
	@$(CC) -std=c11 -Wall -Wextra -O2 -ffp-contract=off -c $< -o $@

$(BENCH_RUST)/faiss.o: bench/rust/faiss.cpp | need-cxx
	@mkdir -p $(@D)
	@$(CXX) -std=c++17 -Wall -Wextra -O2 -fopenmp -c $< -o $@

.PHONY: bench
bench: oracle-ready $(BENCH_LIBS:%=target/staticlib/lib%.a) $(BENCH_PEERS:%=$(BENCH_RUST)/%) ## the engine beside plain C and the unchanged Rust on the same input, as ratios from one run
	@case " $(PARTS) " in "  " | *" layout "*) $(MAKE) --no-print-directory bench-layout;; esac
	@mkdir -p $(BENCH_RUST)
	@touch bench/rust/src/main.rs # cargo does not see that a library changed
	@cd bench/rust && CARGO_TARGET_DIR=$(CURDIR)/$(BENCH_RUST) RUSTFLAGS="-C link-arg=-Wl,--allow-multiple-definition \
	    $(BENCH_PEERS:%=-C link-arg=$(CURDIR)/$(BENCH_RUST)/%) $(BENCH_FAISS) \
	    -L $(CURDIR)/target/staticlib $(BENCH_LIBS:%=-l static=%)" cargo build --release --offline --quiet $(if $(FAISS),--features faiss)
	@echo "$$(nproc) cores, $$(sed -n 's/^model name.*: //p' /proc/cpuinfo | head -n 1)"
	@$(BENCH_RUST)/release/beside $(PARTS)
