#!/bin/sh
# Copies the library into another repository, for a service in Rattle that is no crate of a clone of this one:
#
#   vendor.sh FOLDER    crates/dirgwako and the crates below it to FOLDER/crates, and their lines to FOLDER/crates.txt
#
# FOLDER is the top of that repository. What an earlier run has copied is replaced, and all else there stays.
set -eu
top=$(cd "$(dirname "$0")" && pwd)

fail() {
    echo "vendor.sh: $1" >&2
    exit 1
}

if [ $# != 1 ] || [ ! -d "$1" ]; then
    fail "usage: vendor.sh FOLDER, the top of a repository"
fi
to=$(cd "$1" && pwd)
[ "$to" != "$top" ] || fail "this is the top of the library's own repository"

# dirgwako, and all that it rests on in this repository.
names=$(awk -F: '
    /^[a-z]/ { split($1, head, " "); below[head[1]] = $2 }
    END {
        list[1] = "dirgwako"; seen["dirgwako"] = many = 1
        for (at = 1; at <= many; at++) {
            last = split(below[list[at]], each, " ")
            for (it = 1; it <= last; it++) if (each[it] in below && !(each[it] in seen)) { seen[each[it]] = 1; list[++many] = each[it] }
        }
        for (at = 1; at <= many; at++) print list[at]
    }' "$top/crates.txt")

[ -e "$to/HANDLES" ] || cp "$top/HANDLES" "$to/HANDLES"
[ -e "$to/crates.txt" ] || : > "$to/crates.txt"
for it in $names; do
    rm -rf "$to/crates/$it"
    mkdir -p "$to/crates/$it"
    for part in src specs proofs; do
        [ ! -d "$top/crates/$it/$part" ] || cp -R "$top/crates/$it/$part" "$to/crates/$it/"
    done
    { grep -v "^$it:" "$to/crates.txt" || :; grep "^$it:" "$top/crates.txt"; } > "$to/crates.txt.new"
    mv "$to/crates.txt.new" "$to/crates.txt"
done
