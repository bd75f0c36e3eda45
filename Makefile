# The catalogue engine. `make run` shows it at work and needs the Rattle toolchain and a C compiler; `make test` is the
# gate and needs the Rattle toolchain alone. `make help` lists the rest.
.PHONY: run test help programs
.NOTPARALLEL: # two checks at once would write the same target/

run: dome ## a dome of three nodes in one process, told step by step (examples/dome.c)
	@target/host/dome

test: ## every proof, every edit of crates/*/must-fail, every program against its stored answers
	bash .ci/run

help: ## what can be made
	@sed -n 's/^\([a-z-]*\):[^#]*## \(.*\)/\1\t\2/p' $(MAKEFILE_LIST) | expand -t 18

# ---- what the targets below link and run. Nothing is built that is not proved, so the first time takes a while.
ENGINE_SOURCES := crates.txt $(shell find crates \( -name must-fail -o -name wrong -o -name out \) -prune -o -type f -print) $(shell command -v rt)

# One crate as a static library. What it stands on is proved first, as many crates at once as there are processors.
target/staticlib/lib%.a: $(ENGINE_SOURCES) | need-rt need-target
	@make/prove.sh $(@D)/$*.log --library $*

# The engine's programs, and where the targets below find them.
PROGRAMS := applymap loadsheet test_decode test_join test_log test_losses test_map test_order test_place test_position test_root test_search test_shard_of
export ENGINE_APPLYMAP ?= target/bin/applymap
export ENGINE_DECODE ?= target/bin/test_decode
export ENGINE_HISTORY ?= target/bin/test_log
export ENGINE_JOIN ?= target/bin/test_join
export ENGINE_LOADSHEET ?= target/bin/loadsheet
export ENGINE_ORDER ?= target/bin/test_order
export ENGINE_LOSSES ?= target/bin/test_losses
export ENGINE_PLACEMENT ?= target/bin/test_place
export ENGINE_POSITIONS ?= target/bin/test_position
export ENGINE_REPLAY ?= target/host/replay
export ENGINE_ROOTS ?= target/bin/test_root
export ENGINE_SEARCH ?= target/bin/test_search
export ENGINE_SHARDOF ?= target/bin/test_shard_of
export ENGINE_STREAMS ?= target/bin/test_map

programs: need-rt need-target ## the engine's programs, proved, built and run on their stored input (target/bin)
	@make/prove.sh target/programs.log $(PROGRAMS)

# Wrong programs beyond those of the gate, sizes that hosts are told, unused dependencies.
include tools/gate.mk

# What an operator asks of a file of requests.
include crates/loadsheet/loadsheet.mk

# Hosts in C and Rust over the entry points.
include host/host.mk

# What a target needs, said in words before it starts; compilers over the headers and examples; the engine as a part to
# install.
include make/needs.mk
include make/lint.mk
include make/install.mk

# The Rust this engine is a port of, as an oracle: needs cargo and the source files, never the gate.
include oracle/oracle.mk

# The engine beside plain C and beside the Rust, timed.
include bench/join/bench.mk
include bench/layout/bench.mk
include bench/rust/bench.mk
