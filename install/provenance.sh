#!/bin/sh
# Which commit and which toolchain proved the libraries that are named.
# It goes into the tarball, so it begins with how to use that.
set -eu
commit=$(git rev-parse HEAD 2>/dev/null || echo unknown)
state=$(git status --porcelain 2>/dev/null | grep -q . && echo ', with changes that are not committed' || true)
cat <<'END'
The catalogue engine, for x86-64 Linux with glibc

    cc -Iinclude examples/minimal.c lib/libcatalogue.a
    PKG_CONFIG_PATH=lib/pkgconfig pkg-config --cflags --libs catalogue
    cmake -DCMAKE_PREFIX_PATH=<this folder> ..      find_package(catalogue), catalogue::catalogue or catalogue::static

include/ and lib/ may be copied below any prefix: nothing in them names its place. docs/HOST.md is the page to work from.

END
echo "commit     $commit$state"
echo "toolchain  $(rt version)"
echo "proved     every function in the library, against the contracts of that commit (\`rt lib\` builds nothing else)"
for file in "$@"; do
    echo "sha256     $(sha256sum "$file" | cut -d' ' -f1)  $(basename "$file")"
done
