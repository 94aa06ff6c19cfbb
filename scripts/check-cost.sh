#!/usr/bin/env bash
# Prints the seconds that a check of each crate takes from nothing, over the built libraries below it, and at last those
# of the first bin/vortex of a checkout: scripts/check-cost.sh [CRATE..]. Meant for a quiet machine of four processors.
# Works on a copy, so that this checkout stays as it is.
top=$(cd "$(dirname "$0")/.." && pwd) || exit 1
kit=$(dirname "$(rt doc)") || exit 1
room=$(mktemp -d) || exit 1
trap 'rm -rf "$room"' EXIT

# rt begins with what checks of other copies on this machine kept. The library below it does not, and so stands for it here.
mkdir "$room/bin"
printf '#!/bin/sh\nexec python3 -B "%s/bin/rtlib.py" "$@"\n' "$kit" >"$room/bin/rt"
chmod +x "$room/bin/rt"
PATH=$room/bin:$PATH

copy() {
    mkdir "$1"
    tar -C "$top" --exclude=out --exclude=.git -cf - . | tar -C "$1" -xf -
}

timed() {
    local begin=$SECONDS
    if "$@" >"$room/output" 2>"$room/log"; then
        echo $((SECONDS - begin))
    else
        cat "$room/output" "$room/log" >&2
        echo failed
    fi
}

crates=$*
copy "$room/copy"
for crate in ${crates:-$(sed -e 's/#.*//' -e 's/:.*//' "$top/crates.txt")}; do
    cd "$room/copy/crates/$crate" || exit 1
    # A check of no function builds the libraries below.
    rt check --only "" >"$room/log" 2>&1 || { cat "$room/log" >&2; exit 1; }
    rm -rf out
    echo "$crate $(timed rt check)"
done
if [ -z "$crates" ]; then
    rm -rf "$room/copy"
    copy "$room/copy"
    echo "bin/vortex $(timed "$room/copy/bin/vortex" select . ge i64:2 <"$top/samples/no-arrays.vortex")"
fi
