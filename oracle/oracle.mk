# The Rust as oracle. These targets need cargo and the published source files (ORACLE_SOURCE says where they are) and
# say so where either is missing; `make test` needs neither, the stored lists are enough. docs/ORACLE.md has more.
ORACLE_ROOT := $(patsubst %/,%,$(dir $(patsubst %/,%,$(dir $(abspath $(lastword $(MAKEFILE_LIST)))))))
ORACLE_SOURCE ?= $(ORACLE_ROOT)/../shared/docs/src
ORACLE_BUILD := $(ORACLE_ROOT)/target/oracle
ORACLE_BIN := $(ORACLE_BUILD)/cargo/release
ORACLE_CARGO := CARGO_TARGET_DIR=$(ORACLE_BUILD)/cargo cargo
SECONDS ?= 60
SEED ?= $(shell date +%s)

.PHONY: oracle oracle-ready oracle-test oracle-coverage oracle-mutants stored stored-positions stored-check differential conformance

oracle: oracle-ready ## the published Rust with the edits of oracle/edits, behind applymap, search, replay and decode (target/oracle)
	@cd $(ORACLE_ROOT)/oracle && $(ORACLE_CARGO) build --release --offline --quiet

oracle-ready:
	@command -v cargo >/dev/null || { echo "oracle: cargo is missing (Rust 1.88 or later)" >&2; exit 1; }
	@$(ORACLE_ROOT)/oracle/prepare.sh $(ORACLE_SOURCE) $(ORACLE_BUILD)/published $(ORACLE_BUILD)/sources

oracle-test: oracle-ready ## the oracle's own tests, each finding of docs/DIFFERENCES.md among them
	@cd $(ORACLE_ROOT)/oracle && $(ORACLE_CARGO) test --release --offline --quiet -p wire -p floats -p front -p generate --lib --tests

stored: oracle ## makes the stored lists again, byte for byte, with the table of what they cover
	@$(ORACLE_BIN)/store $(ORACLE_ROOT)/oracle/stored
	@$(ORACLE_BIN)/coverage 2000 $(ORACLE_ROOT)/oracle/stored/COVERAGE.md

stored-positions: ## makes the stored list of positions again, which has no Rust to ask (Python 3)
	@cd $(ORACLE_ROOT)/oracle && python3 positions.py lines >stored/positions/all.in && \
	    python3 positions.py answers <stored/positions/all.in >stored/positions/all.out && \
	    cp stored/positions/all.in ../crates/test_position/stdin && cp stored/positions/all.out ../crates/test_position/stdout

stored-check: oracle ## the stored lists are what the oracle answers today
	@$(ORACLE_BIN)/store --check $(ORACLE_ROOT)/oracle/stored

oracle-coverage: oracle ## fails if an answer is in no stored list
	@$(ORACLE_BIN)/coverage 200 $(ORACLE_BUILD)/coverage.md

oracle-mutants: oracle ## every deliberate mistake of oracle/mutants is told apart by the stored lists
	@$(ORACLE_BIN)/mutants $(ORACLE_ROOT) $(MUTANTS)

differential: number-SECONDS number-SEED oracle programs replay ## fresh random streams through the engine and the oracle for SECONDS, from SEED
	@cd $(ORACLE_ROOT) && $(ORACLE_BIN)/differential $(SECONDS) $(SEED)

conformance: programs replay ## the engine's programs on the stored lists; needs no Rust
	@$(ORACLE_ROOT)/oracle/conformance.sh $(ORACLE_ROOT) $(LISTS)
