# The load sheet (paper 02, 2.4): which projector holds how much, of the map that a file of requests leads to.
.PHONY: loadsheet

loadsheet: target/bin/loadsheet ## the load sheet of FILE, requests that follow one another as applymap reads them
	@test -n "$(FILE)" || { echo "loadsheet: FILE=.. names a file of requests" >&2; exit 1; }
	@target/bin/loadsheet <$(FILE)

target/bin/loadsheet: $(ENGINE_SOURCES) | need-rt need-target
	@make/prove.sh target/loadsheet.log loadsheet >&2
