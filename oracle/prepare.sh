#!/bin/sh
# Checks the five published files and copies them to two folders of the build: as they are, and with the edits.
#   prepare.sh SOURCE PUBLISHED EDITED
# A file is rewritten only where it differs, so that an unchanged build stays built.
set -eu
here=$(cd "$(dirname "$0")" && pwd)
source=$1
published=$2
edited=$3

if [ ! -d "$source" ]; then
    echo "oracle: the source files are not at $source (set ORACLE_SOURCE)" >&2
    exit 1
fi
(cd "$source" && sha256sum --quiet --check "$here/sources.sha256") || {
    echo "oracle: the files at $source are not the published ones" >&2
    exit 1
}
fresh=$edited.new

# The files of a folder into another one, where they differ.
copy_changed() {
    while read -r _ file; do
        mkdir -p "$2/$(dirname "$file")"
        cmp --quiet "$1/$file" "$2/$file" || cp "$1/$file" "$2/$file"
    done < "$here/sources.sha256"
}

copy_changed "$source" "$published"
rm -rf "$fresh"
copy_changed "$source" "$fresh"
for edit in "$here"/edits/*.patch; do
    [ -e "$edit" ] || continue
    patch --quiet -p1 -d "$fresh" < "$edit"
done
copy_changed "$fresh" "$edited"
rm -rf "$fresh"
