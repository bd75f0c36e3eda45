#!/bin/sh
# Installs the engine into a scratch folder, builds programs there by pkg-config and by CMake, in C and in C++, with the
# shared and with the static library, runs them, looks at what the libraries export, and uninstalls. Called by make.
set -eu
scratch=$(mktemp -d)
trap 'rm -rf "$scratch"' EXIT
fail() { echo "install-test: $*" >&2; exit 1; }

grep -q "^## $VERSION" CHANGELOG.md || fail "CHANGELOG.md has no section for $VERSION"
$MAKE install DESTDIR= PREFIX="$scratch/at"
mv "$scratch/at" "$scratch/moved" # nothing installed may depend on where it was put
tree=$scratch/moved

echo "-- pkg-config"
export PKG_CONFIG_PATH="$tree/lib/pkgconfig"
[ "$(pkg-config --modversion catalogue)" = "$VERSION" ] || fail "pkg-config tells another version"
flags=$(pkg-config --cflags catalogue) libs=$(pkg-config --libs catalogue)
# shellcheck disable=SC2086
{
    $CC -std=c99 -Wall -Wextra -Wpedantic -Werror $flags install/test/use.c $libs -o "$scratch/c"
    $CXX -std=c++11 -Wall -Wextra -Wpedantic -Werror $flags install/test/use.cpp $libs -o "$scratch/cpp"
    $CC -std=c99 $flags install/test/use.c "$tree/lib/libcatalogue.a" -o "$scratch/c-static"
    $CXX -std=c++11 $flags install/test/use.cpp "$tree/lib/libcatalogue.a" -o "$scratch/cpp-static"
    $CC -std=c99 $flags "$tree/share/doc/catalogue/examples/minimal.c" $libs -o "$scratch/minimal"
}
for program in c cpp c-static cpp-static minimal; do
    LD_LIBRARY_PATH=$tree/lib "$scratch/$program" || fail "the program built by pkg-config ($program) fails"
done

echo "-- CMake"
cmake -S install/test -B "$scratch/build" -DCMAKE_PREFIX_PATH="$tree" -DCATALOGUE_SERIES="${VERSION%.*}" -DCMAKE_C_COMPILER="$CC" -DCMAKE_CXX_COMPILER="$CXX" >"$scratch/log" 2>&1 &&
    cmake --build "$scratch/build" >>"$scratch/log" 2>&1 || { cat "$scratch/log"; fail "CMake does not build the programs"; }
for program in shared_c shared_cpp static_c static_cpp; do
    "$scratch/build/$program" || fail "the program built by CMake ($program) fails"
done

echo "-- symbols"
# What the libraries define for others, and what the header declares, are one list.
sed -n 's/.*\(catalogue_[a-z0-9_]*\)(.*/\1/p' "$tree/include/catalogue.h" | grep -v '^catalogue_[iu][0-9]' | sort -u >"$scratch/declared"
for library in libcatalogue.so libcatalogue.a; do
    case $library in *.so) table=-D ;; *) table=-g ;; esac
    nm $table --defined-only "$tree/lib/$library" | awk 'NF == 3 { print $3 }' | sort >"$scratch/defined"
    diff "$scratch/declared" "$scratch/defined" || fail "$library does not export what catalogue.h declares"
    echo "$library exports the $(wc -l <"$scratch/defined") calls of catalogue.h and nothing else"
done
[ "$(readelf -d "$tree/lib/libcatalogue.so" | sed -n 's/.*soname: \[\(.*\)\]/\1/p')" = "$SONAME" ] || fail "the soname is not $SONAME"

echo "-- uninstall"
$MAKE uninstall DESTDIR= PREFIX="$tree"
left=$(find "$tree" ! -type d)
[ -z "$left" ] || fail "uninstall leaves $left"
echo "an installed tree is built on by pkg-config and by CMake, in C and C++, and is gone again"
