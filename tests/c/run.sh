#!/usr/bin/env bash
# Tries the header and the static library as a C caller would: the header as C and as C++, and nine programs over the
# library.
# Usage: tests/c/run.sh LIBDIR, the folder with libcapi.a; its last line is 'N passed, M failed'.
set -u
library=${1:?usage: tests/c/run.sh LIBDIR}/libcapi.a
here=$(CDPATH= cd -- "$(dirname -- "$0")" && pwd) || exit 1
include=$here/../../include
scratch=$(mktemp -d) || exit 1
trap 'rm -rf "$scratch"' EXIT
strict=(-Wall -Wextra -Werror -pedantic)
passed=0
failed=0

# holds NAME COMMAND..: the command succeeds.
holds() {
    local name=$1
    shift
    if "$@"; then
        passed=$((passed + 1))
    else
        echo "$name: does not hold"
        failed=$((failed + 1))
    fi
}

# expect NAME LINE PROGRAM: the program prints that line and its newline, byte by byte, and no more, and succeeds.
expect() {
    local status
    "$3" >"$scratch/said"
    status=$?
    if [ "$status" -eq 0 ] && printf '%s\n' "$2" | cmp -s - "$scratch/said"; then
        passed=$((passed + 1))
    else
        echo "$1: expected '$2', a newline and status 0, got status $status and:"
        od -An -c "$scratch/said"
        failed=$((failed + 1))
    fi
}

# add PROGRAM: adds up the program's own last line, 'N passed, M failed'. One that has none, passes nothing, or fails
# without saying so, counts as one failure.
add() {
    local status p=0 f=0
    "$1" >"$scratch/said"
    status=$?
    if [[ $(tail -n 1 "$scratch/said") =~ ^([0-9]+)\ passed,\ ([0-9]+)\ failed$ ]]; then
        p=${BASH_REMATCH[1]} f=${BASH_REMATCH[2]}
    fi
    if [[ $f -eq 0 && ( $status -ne 0 || $p -eq 0 ) ]]; then f=1; fi
    passed=$((passed + p))
    failed=$((failed + f))
    if [[ $f -ne 0 ]]; then
        echo "$1: status $status, and it says:"
        cat "$scratch/said"
    fi
}

# needed: the names that the library needs from outside, a line each, in order.
needed() {
    nm -u "$library" | awk 'NF == 2 { print $2 }' | LC_ALL=C sort -u
}

holds "nothing but C's memcpy and memset is needed from outside" [ "$(needed)" = $'memcpy\nmemset' ]
holds "the header by itself as C" cc -std=c99 "${strict[@]}" -x c -fsyntax-only "$include/korbishaf.h"
holds "release.c" cc -std=c99 "${strict[@]}" -I"$include" "$here/release.c" "$library" -o "$scratch/release"
holds "interface.c" cc -std=c99 "${strict[@]}" -I"$include" "$here/interface.c" "$library" -o "$scratch/interface"
holds "mend.c" cc -std=c99 "${strict[@]}" -I"$include" "$here/mend.c" "$library" -o "$scratch/mend"
holds "texts.c" cc -std=c99 "${strict[@]}" -I"$include" "$here/texts.c" "$library" -o "$scratch/texts"
holds "flags.c" cc -std=c99 "${strict[@]}" -I"$include" "$here/flags.c" "$library" -o "$scratch/flags"
holds "class_test.c" cc -std=c99 "${strict[@]}" -I"$include" "$here/class_test.c" "$library" -o "$scratch/class_test"
holds "lists.c" cc -std=c99 "${strict[@]}" -I"$include" "$here/lists.c" "$library" -o "$scratch/lists"
holds "halving.c" cc -std=c99 "${strict[@]}" -I"$include" "$here/halving.c" "$library" -o "$scratch/halving"
holds "boxes.c" cc -std=c99 "${strict[@]}" -I"$include" "$here/boxes.c" "$library" -o "$scratch/boxes"
# the lines of the README, with what they take for granted around them: a card's scan and its sheet
{
    printf '%s\n' '#include "korbishaf.h"' '#include <stdio.h>' '#include <stdlib.h>' 'int main(void) {' \
        'static uint8_t file[4096], sheet[64];' \
        'FILE *scan = fopen(CARD "/in.las", "rb"), *keep = fopen(CARD "/sheet.bin", "rb");' \
        'if (!scan || !keep) return 1;' \
        'uint64_t file_length = fread(file, 1, sizeof file, scan);' \
        'uint64_t sheet_length = fread(sheet, 1, sizeof sheet, keep);'
    sed -n '/^```c$/,/^```$/p' "$here/../../README.md" | sed '/^```/d'
    printf '%s\n' 'printf("%d %d %d\n", (int)asked.number, (int)released.number, (int)released.length);' 'free(out); }'
} >"$scratch/readme.c"
holds "the lines of the README" cc -std=c99 "${strict[@]}" -I"$include" "-DCARD=\"$here/../../cards/yard\"" \
    "$scratch/readme.c" "$library" -o "$scratch/readme"
expect "a release by the lines of the README" "30 0 557" "$scratch/readme"
line="check 0 points 2 system a system asked 30 247 released 0 247 points 1 records 0 max X 4023000000000000"
expect "a release" "$line" "$scratch/release"
# cargo's machine has a C compiler, since it links by it; one for C++ may be missing
if command -v c++ >/dev/null; then
    holds "the header by itself as C++" c++ "${strict[@]}" -x c++ -fsyntax-only "$include/korbishaf.h"
    holds "release.c as C++" \
        c++ "${strict[@]}" -I"$include" -x c++ "$here/release.c" -x none "$library" -o "$scratch/release-c++"
    expect "a release from C++" "$line" "$scratch/release-c++"
fi
add "$scratch/interface"
add "$scratch/mend"
add "$scratch/texts"
add "$scratch/flags"
add "$scratch/class_test"
add "$scratch/lists"
add "$scratch/halving"
add "$scratch/boxes"

echo "$passed passed, $failed failed"
[ "$failed" -eq 0 ]
