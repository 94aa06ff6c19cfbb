#!/usr/bin/env bash
# Lets each allocation of the program fail in turn, over a stream with arrays: the status is 0 or 9, and after 9 nothing was written.
# Outside the gate, since each turn builds the program anew: scripts/fail-alloc.sh [STREAM]
top=$(cd "$(dirname "$0")/.." && pwd) || exit 1
input=$(realpath "${1:-$top/samples/several-arrays.vortex}") || exit 1
cd "$top/crates/vortex" || exit 1
folder=$(mktemp -d) || exit 1
trap 'rm -rf "$folder"' EXIT

# Past the last allocation none fails any more: so many whole runs in a row are taken for the end.
END=3

run() {
    rt try "$@" -- select . ge i64:2 <"$input" >"$folder/output" 2>"$folder/note"
}

fail() {
    cat "$folder/note"
    echo "fail-alloc: $1"
    exit 1
}

run || fail "with ample memory the status is $?"
mv "$folder/output" "$folder/whole"
[ -s "$folder/whole" ] || fail "with ample memory nothing was written"

refused=0
whole=0
for ((number = 1; whole < END; number++)); do
    run --fail-alloc "$number"
    status=$?
    case $status in
    0)
        cmp -s "$folder/output" "$folder/whole" || fail "allocation $number: status 0 and another output"
        whole=$((whole + 1))
        ;;
    9)
        [ ! -s "$folder/output" ] || fail "allocation $number: status 9, and $(wc -c <"$folder/output") bytes were written"
        refused=$((refused + 1))
        whole=0
        ;;
    *) fail "allocation $number: status $status" ;;
    esac
done
echo "fail-alloc: $refused allocations failed in turn, each with status 9 and nothing written"
