# Around the gate: wrong programs beyond those that it tries, sizes that hosts are told, the lines of crates.txt.
# These targets need the Rattle toolchain (but for sizes) and Python 3; the gate needs Bash and the toolchain alone.
.PHONY: wrong sizes depends

wrong: ## every wrong program of crates/*/wrong is refused, begun with what the last checks kept ([CRATE=name], [WRONG=--must-fail])
	@tools/wrong $(WRONG) $(CRATE)

sizes: ## the places and sizes that the headers for hosts tell are those that the engine works with; needs no toolchain
	@tools/sizes

depends: ## which entries of crates.txt name a crate that nothing uses
	@tools/depends
