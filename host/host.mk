# Hosts of the engine's C entry points. These targets need the Rattle toolchain and a C compiler (CC); `bindings` needs
# cargo too. `make conformance` and `make differential` find replay where this puts it.
HOST_BUILD := target/host
HOST_LIBRARY := target/staticlib/libhost.a
HOST_CFLAGS := -std=c11 -Wall -Wextra -O2 -Iinclude
CALLS ?= 1000000
FUZZ_FLAGS ?= -O1 -g -pthread -fsanitize=address,undefined -fno-sanitize-recover=undefined

RUNS ?= 200
STEPS ?= 2000

.PHONY: host-library replay dome minimal stuck replace position collection fuzz bindings simulate simulate-wrong picture

host-library: $(HOST_LIBRARY) ## the engine as a static library (target/staticlib/libhost.a)

replay: need-cc $(HOST_LIBRARY) ## calls in, answers out, by a host in C (target/host/replay)
	@mkdir -p $(HOST_BUILD)
	@$(CC) $(HOST_CFLAGS) host/*.c $(HOST_LIBRARY) -o $(HOST_BUILD)/replay

dome: need-cc $(HOST_LIBRARY)
	@mkdir -p $(HOST_BUILD)
	@$(CC) $(HOST_CFLAGS) examples/dome.c $(HOST_LIBRARY) -o $(HOST_BUILD)/dome

position: $(HOST_LIBRARY) ## a position in hours and degrees typed in, written, found and read back (examples/position.c)
	@mkdir -p $(HOST_BUILD)
	@$(CC) $(HOST_CFLAGS) examples/position.c $(HOST_LIBRARY) -o $(HOST_BUILD)/position
	@$(HOST_BUILD)/position

collection: need-cc $(HOST_LIBRARY) ## a collection of four shards searched as a whole (examples/collection.c)
	@mkdir -p $(HOST_BUILD)
	@$(CC) $(HOST_CFLAGS) examples/collection.c $(HOST_LIBRARY) -o $(HOST_BUILD)/collection
	@$(HOST_BUILD)/collection

picture: dome ## the dome's run as a space-time diagram (docs/dome.svg)
	@[ -w docs ] || { echo "make: docs/ cannot be written" >&2; exit 1; }
	@$(HOST_BUILD)/dome docs/dome.svg >$(HOST_BUILD)/dome.txt
	@echo "docs/dome.svg is the dome's run, drawn from its own events"

minimal: ## one node, one write, one search (examples/minimal.c)
stuck: ## two ways in which a shard stops, and what helps (examples/stuck.c)
replace: ## a node is replaced (examples/replace.c)
minimal stuck replace: need-cc $(HOST_LIBRARY)
	@mkdir -p $(HOST_BUILD)
	@$(CC) $(HOST_CFLAGS) examples/$@.c $(HOST_LIBRARY) -o $(HOST_BUILD)/$@
	@$(HOST_BUILD)/$@

fuzz: number-CALLS number-SEED need-cc $(HOST_LIBRARY) ## every entry point on CALLS random and mutated buffers of every length, in a sanitizer build
	@mkdir -p $(HOST_BUILD)
	@$(CC) $(HOST_CFLAGS) $(FUZZ_FLAGS) host/fuzz/*.c $(HOST_LIBRARY) -o $(HOST_BUILD)/fuzz
	@ASAN_OPTIONS=handle_segv=0:detect_leaks=0 $(HOST_BUILD)/fuzz $(CALLS) $(SEED)

# The brute force of the searches must round each operation by itself.
$(HOST_BUILD)/simulate: host/simulate/*.c host/simulate/*.h include/*.h $(HOST_LIBRARY)
	@mkdir -p $(HOST_BUILD)
	@$(CC) $(HOST_CFLAGS) -D_POSIX_C_SOURCE=200809L -ffp-contract=off host/simulate/*.c $(HOST_LIBRARY) -lm -o $@

simulate: number-RUNS number-STEPS number-SEED need-cc $(HOST_BUILD)/simulate ## RUNS random clusters of STEPS events from SEED, every acknowledged write looked for after each
	@$(HOST_BUILD)/simulate $(RUNS) $(STEPS) $(SEED) $(WRONG)

simulate-wrong: need-cc $(HOST_BUILD)/simulate ## hosts that break a rule of a run, each of which simulate must catch
	@for wrong in outcome-twice earlier-images earlier-map; do echo "== a host that is wrong: $$wrong"; \
	    if $(HOST_BUILD)/simulate 20000 1000 1 $$wrong; then echo "simulate: $$wrong was not caught" >&2; exit 1; fi; done
	@echo "all three were caught"

bindings: need-cargo $(HOST_LIBRARY) ## the Rust wrapper over the entry points, and its test
	@cd bindings/rust && CATALOGUE_LIBRARY=$(CURDIR)/target/staticlib CARGO_TARGET_DIR=$(CURDIR)/target/bindings cargo test --offline --quiet
