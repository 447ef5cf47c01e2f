#!/usr/bin/env bash
# Runs the program as a user would, in folders of its own: refusals, their order, and what stays in the folder.
# Usage: tests/program.sh PROGRAM CARD; its last line is 'N passed, M failed'.
set -u
program=$(realpath -e -- "${1:?usage: tests/program.sh PROGRAM CARD}") || exit 1
card=$(realpath -e -- "${2:?usage: tests/program.sh PROGRAM CARD}") || exit 1
scratch=$(mktemp -d) || exit 1
trap 'rm -rf "$scratch"' EXIT
passed=0
failed=0

# expect NAME LINE: the program, run in the folder at hand, prints that line and its newline, byte by byte, and no more.
expect() {
    (cd "$folder" && "$program") >"$scratch/said"
    if printf '%s\n' "$2" | cmp -s - "$scratch/said"; then
        passed=$((passed + 1))
    else
        echo "$1: expected '$2' and a newline, got:"
        od -An -c "$scratch/said"
        failed=$((failed + 1))
    fi
}

# holds NAME COMMAND..: the command succeeds.
holds() {
    local name=$1
    shift
    if "$@"; then
        passed=$((passed + 1))
    else
        echo "$name: does not hold"
        failed=$((failed + 1))
    fi
}

# fresh: a new folder with the card's files.
fresh() {
    folder=$(mktemp -d "$scratch/XXXXXX") || exit 1
    cp "$card/in.las" "$card/sheet.bin" "$folder" || exit 1
}

# an older out.las, to see that it stays or is replaced
echo older >"$scratch/older" || exit 1

fresh
expect "a card" "$(cat "$card/line")"
holds "its release" cmp "$folder/out.las" "$card/expected.las"
holds "no part is left" test ! -e "$folder/out.las.part"

fresh
rm "$folder/in.las"
expect "no in.las" "refused 51"
holds "no out.las" test ! -e "$folder/out.las"
head -c 32769 /dev/zero >"$folder/sheet.bin"
expect "no in.las, and a long sheet.bin" "refused 51"

fresh
rm "$folder/in.las" && mkdir "$folder/in.las"
expect "in.las is a folder" "refused 51"
rmdir "$folder/in.las" && ln -s in.las "$folder/in.las"
expect "in.las can't be opened: a link to itself" "refused 51"

fresh
head -c 32769 /dev/zero >"$folder/in.las"
expect "in.las of 32,769 bytes" "refused 50"
rm "$folder/sheet.bin"
expect "in.las of 32,769 bytes, and no sheet.bin" "refused 50"

fresh
head -c 32768 /dev/zero >"$folder/in.las"
expect "in.las of 32,768 bytes" "refused 2"
head -c 226 /dev/zero >"$folder/in.las"
expect "in.las of 226 bytes" "refused 1"
rm "$folder/sheet.bin"
expect "in.las of 226 bytes, and no sheet.bin" "refused 51"

fresh
head -c 32769 /dev/zero >"$folder/sheet.bin"
expect "sheet.bin of 32,769 bytes" "refused 50"
rm "$folder/sheet.bin" && mkdir "$folder/sheet.bin"
expect "sheet.bin is a folder" "refused 51"
rmdir "$folder/sheet.bin"
expect "no sheet.bin" "refused 51"

fresh
printf 'KT\001' >"$folder/sheet.bin"
cp "$scratch/older" "$folder/out.las"
expect "a wrong mark on the sheet" "refused 20"
holds "an older out.las survives a refusal" cmp "$folder/out.las" "$scratch/older"
cp "$card/sheet.bin" "$folder"
expect "a release over an older out.las" "$(cat "$card/line")"
holds "which it replaces" cmp "$folder/out.las" "$card/expected.las"

fresh
mkdir "$folder/out.las"
expect "an out.las that can't be replaced" "refused 51"
holds "it stays" test -d "$folder/out.las"
holds "no part is left of a failed write" test ! -e "$folder/out.las.part"

fresh
cp "$scratch/older" "$folder/out.las"
mkdir "$folder/out.las.part"
expect "an out.las.part that can't be written" "refused 51"
holds "an older out.las survives a failed write" cmp "$folder/out.las" "$scratch/older"

fresh
: >"$folder/sheet.bin"
expect "an empty sheet" "released 227 points 0 records 0"
holds "its release" cmp "$folder/out.las" "$card/expected-empty.las"

echo "$passed passed, $failed failed"
[ "$failed" -eq 0 ]
