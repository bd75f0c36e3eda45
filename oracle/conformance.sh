#!/bin/sh
# Runs the engine's programs on the stored inputs and holds their output against the stored answers. It needs neither
# Rust nor the source files. Where a program is, ENGINE_NAME says (ENGINE_REPLAY and so on), else target/host/NAME. A
# program that is not there, or a list that is not, is a failure. Shard numbers are asked of the entry point too.
#   conformance.sh ROOT [LIST ..]       a list is PROGRAM/NAME; all by default
set -u
root=$1
shift
cd "$root" || exit 1
for list in "$@"; do
    [ -f "oracle/stored/$list.in" ] || { echo "conformance: there is no stored list $list" >&2; exit 1; }
done
printed=target/conformance.out
mkdir -p target
passed=0 failed=0
ENGINE_SHARDOF_C="${ENGINE_REPLAY:-target/host/replay} --shard-of"
for program in applymap decode history join loadsheet losses order placement positions replay roots search shardof shardof_c streams; do
    variable=ENGINE_$(echo "$program" | tr '[:lower:]' '[:upper:]')
    eval "command=\${$variable:-target/host/$program}"
    program=${program%_c}
    same=0 tried=0
    for input in oracle/stored/"$program"/*.in; do
        list=$program/$(basename "$input" .in)
        case " $* " in *" $list "* | "  ") ;; *) continue ;; esac
        tried=$((tried + 1))
        if ! $command < "$input" > "$printed"; then
            echo "failed: $command on $list (set $variable if the program is elsewhere)"
        elif cmp -s "$printed" "${input%.in}.out"; then
            same=$((same + 1))
        else
            echo "differs: $list"
            diff "${input%.in}.out" "$printed" | head -4
        fi
    done
    [ "$tried" -eq 0 ] || echo "$program: $same of $tried lists answered as stored"
    passed=$((passed + same)) failed=$((failed + tried - same))
done
rm -f "$printed"
echo "conformance: $passed lists answered as stored, $failed not"
[ "$passed" -gt 0 ] && [ "$failed" -eq 0 ]
