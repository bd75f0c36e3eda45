#!/bin/sh
# Proves crates, and what they stand on, and says how far it is.
#   prove.sh LOG CRATE..                these crates; the programs among them are run on their stored input, and put into target/bin
#   prove.sh LOG --library CRATE        target/staticlib/libCRATE.a, of CRATE, or of CRATE_c where that is the static library over it
# All that `rt` says goes to LOG. On a terminal one line is written over and over; else there is a line each minute.
set -u
log=$(realpath -m "$1")
shift
library=''
if [ "$1" = --library ]; then
    library=$2
    if grep -q "^${library}_c staticlib *:" crates.txt; then
        set -- "${library}_c"
    else
        set -- "$library"
    fi
fi
named=$*

# What is to be proved, a line for each crate: how many crates are below it in the longest chain, and its name.
below() {
    awk -v wanted="$named" '
        function depth(n,    a, k, m, d, most) {
            if (n in known) return known[n]
            most = 0
            m = split(deps[n], a, " ")
            for (k = 1; k <= m; k++) if (a[k] in deps) { d = depth(a[k]) + 1; if (d > most) most = d }
            known[n] = most
            return most
        }
        { sub(/#.*/, "") }
        /:/ { i = index($0, ":"); split(substr($0, 1, i - 1), head, " "); deps[head[1]] = substr($0, i + 1) }
        END { m = split(wanted, w, " "); for (k = 1; k <= m; k++) if (w[k] in deps) depth(w[k]); for (n in known) print known[n], n }' crates.txt
}
count=$(below | wc -l)

# A crate that is proved, and all below it, has nothing more said of it.
progress() {
    proved=$(grep -c '^logic=proved functions=' "$log")
    printf '%s crates proved of the %s there are, %d minutes so far' "$proved" "$count" $((($(date +%s) - began) / 60))
}

# A program is run on its stored input, and must write its stored answer.
run() {
    here=crates/$1
    input=/dev/null
    [ -f "$here/stdin" ] && input=stdin
    # shellcheck disable=SC2046
    (cd "$here" && rt run $([ -f args ] && echo -- && cat args) <"$input" >"out/$1.written") || return 1
    if [ -f "$here/stdout" ]; then cmp "$here/stdout" "$here/out/$1.written" || return 1; fi
    mkdir -p target/bin && cp "$here/out/$1" target/bin/
}

# What is below first, as many crates at once as there are processors: `rt` proves one at a time.
prove() {
    below | sort -n | cut -d' ' -f1 | uniq | while read -r level; do
        below | sed -n "s/^$level //p" | while read -r name; do case " $named " in *" $name "*) ;; *) echo "$name" ;; esac; done |
            xargs -r -P "${RT_JOBS:-$(nproc)}" -I{} sh -c 'cd crates/{} && rt lib' || exit 1
    done || return 1
    for name in $named; do
        if [ -f "crates/$name/src/main.rt" ]; then
            run "$name" || return 1
        else
            (cd "crates/$name" && rt lib) || return 1
        fi
    done
    [ -z "$library" ] || { mkdir -p target/staticlib && cp "crates/$named/out/lib$named.a" "target/staticlib/lib$library.a"; }
}

mkdir -p "$(dirname "$log")" || exit 1
echo "proving ${library:-$named} and what it stands on, $count crates: from nothing perhaps an hour and a half on four cores"
began=$(date +%s)
: >"$log"
prove >"$log" 2>&1 &
prover=$!
trap 'kill "$prover" 2>/dev/null; exit 130' INT TERM
told=0
while kill -0 "$prover" 2>/dev/null; do
    if [ -t 1 ]; then
        printf '\r%s ' "$(progress)"
    elif [ $(($(date +%s) - began)) -ge $((told + 60)) ]; then
        told=$(($(date +%s) - began))
        progress
        echo
    fi
    sleep 1
done
wait "$prover"
status=$?
[ -t 1 ] && printf '\r\033[K'
if [ "$status" -ne 0 ]; then
    tail -n 20 "$log" >&2
    echo "${library:-$named}: not proved or not built; all that was said is in $log" >&2
    exit 1
fi
echo "$count crates stand proved, after $(($(date +%s) - began)) seconds"
