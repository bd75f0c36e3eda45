# The join's benchmark: catalogue_join beside a plain merge and a sort of all hits in C, in one run. From the repository's root: make bench-join. No
# part of the gate.
.PHONY: bench-join
bench-join: need-cc $(HOST_LIBRARY) ## 16 answers of 1,024 hits joined, beside a plain merge and a sort of all hits in C
	@mkdir -p target/bench/join
	@$(CC) -std=c11 -D_POSIX_C_SOURCE=200809L -Wall -Wextra -O2 -Iinclude bench/join/bench.c $(HOST_LIBRARY) -o target/bench/join/bench
	@echo "$$(nproc) cores, $$(sed -n 's/^model name.*: //p' /proc/cpuinfo | head -n 1)"
	@target/bench/join/bench
