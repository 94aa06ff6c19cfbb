#!/usr/bin/env bash
# What the prover does not look at. Says nothing where all is well.
cd "$(dirname "$0")/.." || exit 1

# Lines of src/ and specs/, imports aside, have at most so many columns; empty: they are not counted.
WIDTH=

failed=0
say() {
    echo "check-repository: $1"
    failed=1
}

[ "$(cat HANDLES)" = "Handles allowed: none." ] || say "HANDLES has another line"
for crate in $(sed -e 's/#.*//' -e 's/:.*//' crates.txt); do
    [ -d "crates/$crate/src" ] || say "crates.txt lists $crate, which has no src/"
    [ -f "crates/$crate/README.md" ] || say "crates/$crate has no README.md"
    grep -qF "](crates/$crate/README.md)" README.md || say "README.md does not lead to crates/$crate/README.md"
done
for file in README.md CONTRIBUTING.md docs/*.md crates/*/README.md; do
    # Each link to a file of the repository leads somewhere.
    for target in $(grep -oE '\]\([^)#:]+\)' "$file" | sed -e 's/^](//' -e 's/)$//'); do
        [ -e "$(dirname "$file")/$target" ] || say "$file leads to $target, which is not there"
    done
done
for file in crates/*/README.md; do
    # Each file of definitions that a crate's README names is there.
    for name in $(grep -oE '[A-Za-z]+\.antt' "$file" | sort -u); do
        find "$(dirname "$file")/specs" -name "$name" 2>/dev/null | grep -q . || say "$file names $name, which is not there"
    done
done
while read -r lines file; do
    [ "$file" = total ] || [ "$lines" -le 800 ] || say "$file has $lines lines, over 800"
done < <(find crates bench bin scripts docs README.md CONTRIBUTING.md -type f -not -path '*/out/*' \
    \( -name '*.rt' -o -name '*.antt' -o -name '*.md' -o -name '*.py' -o -name '*.rs' -o -name '*.sh' \) -print0 | xargs -0 wc -l)
if [ -n "$WIDTH" ]; then
    while IFS=: read -r file line _; do
        say "$file, line $line, has over $WIDTH columns"
    done < <(find crates/*/src crates/*/specs -type f \( -name '*.rt' -o -name '*.antt' \) -print0 |
        LC_ALL=C.UTF-8 xargs -0 grep -nE "^.{$((WIDTH + 1))}" | grep -vE '^[^:]*:[0-9]+: *(pub )?(ghost )?use ')
fi
if command -v python3 >/dev/null; then
    python3 -B scripts/tables.py || failed=1
    python3 -B scripts/unused-imports.py || failed=1
    folder=$(mktemp -d)
    python3 -B bench/streams.py samples "$folder"
    for sample in "$folder"/*; do
        cmp -s "$sample" "samples/$(basename "$sample")" || say "samples/$(basename "$sample") is not what bench/streams.py writes"
    done
    for sample in samples/*.vortex; do
        python3 -B bench/streams.py print <"$sample" >"$folder/rows" || say "bench/streams.py does not print $sample"
    done
    rm -rf "$folder"
fi
exit "$failed"
