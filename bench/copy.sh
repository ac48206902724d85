#!/bin/sh
# Copies crates, and all of this repository that they stand on, with HANDLES and their lines of crates.txt, into FOLDER, where a small
# program may then be built beside them. It prints the names that such a program's own line in crates.txt has.
# usage: bench/copy.sh FOLDER CRATE..
set -eu
root=$(CDPATH= cd -- "$(dirname -- "$0")/.." && pwd)
folder=$1
shift
mkdir -p "$folder/crates"
cp "$root/HANDLES" "$folder/HANDLES"
: >"$folder/crates.txt"

line_of() {
    grep -E "^$1( [a-z_]+=[^ :]*)*:" "$root/crates.txt"
}

names=
left=$*
while [ -n "$left" ]; do
    more=
    for crate in $left; do
        case " $names " in *" $crate "*) continue ;; esac
        names="$names $crate"
        if [ -d "$root/crates/$crate/src" ]; then more="$more $(line_of "$crate" | sed 's/^[^:]*: *//')"; fi
    done
    left=$(echo $more)
done
names=$(echo "$names" | tr ' ' '\n' | grep . | sort)
for crate in $names; do
    [ -d "$root/crates/$crate/src" ] || continue
    mkdir "$folder/crates/$crate"
    for part in src specs proofs; do
        if [ -d "$root/crates/$crate/$part" ]; then cp -r "$root/crates/$crate/$part" "$folder/crates/$crate/$part"; fi
    done
    line_of "$crate" >>"$folder/crates.txt"
done
echo $names
