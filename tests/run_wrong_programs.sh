#!/usr/bin/env bash
# Runs the most important wrong programs beside the true code, each on an input where it differs, and asks that each
# prints what it should: the true line, and another. Usage: tests/run_wrong_programs.sh [CASE..]
# Each case is a small program over the interface, tests/wrong/CASE.rt.in. Its first lines name a wrong program of the
# must-fail edits, '// NAME: what is wrong', with the end of its function's path, and what the program prints over
# the true code and over the wrong one, its lines joined by blanks. `rt try` runs it on the interpreter and compiled,
# with no proof: the wrong code has none.
# It is no part of the gate. As many cases are tried at once as there are processors; a case takes up to a minute of
# one. Its last line is 'N passed, M failed', a case each.
set -uo pipefail
cd "$(dirname "$0")/.." || exit 1
scratch=$(mktemp -d) || exit 1
trap 'rm -rf "$scratch"' EXIT
passed=0
failed=0

# head_of KEY CASE: what stands behind KEY in a case's first lines.
head_of() {
    sed -n "1,3s|^// $1: ||p" "tests/wrong/$2.rt.in"
}

# prints CASE LINE [NAME WHAT]: the case prints that line, over the true code or over the named wrong program.
prints() {
    local root=$scratch/$1
    rm -rf "$root" && mkdir -p "$root/crates/shown/src" && cp crates.txt "$root" &&
        find crates -name out -prune -o -type f -exec cp --parents -t "$root" {} + || return 1
    if [[ $# -eq 4 ]]; then tools/house apply "$3" "$4" "$root" || return 1; fi
    echo 'shown: capi publicpart' >>"$root/crates.txt"
    cat tests/wrong/prelude.rt.in "tests/wrong/$1.rt.in" >"$root/crates/shown/src/main.rt"
    if ! (cd "$root/crates/shown" && rt try) >"$root/printed" 2>"$root/said" </dev/null; then
        cat "$root/said"
        return 1
    fi
    tr ' ' '\n' <<<"$2" | diff - "$root/printed"
}

# try CASE: says what it comes to; succeeds where the case prints what it should.
try() {
    local named name what true_line wrong_line
    named=$(sed -n '1s|^// ||p' "tests/wrong/$1.rt.in")
    name=${named%%: *}
    what=${named#*: }
    true_line=$(head_of true "$1")
    wrong_line=$(head_of wrong "$1")
    if [[ -z $true_line || -z $wrong_line || $true_line == "$wrong_line" ]]; then
        echo "$1: names no two lines that differ"
        return 1
    elif ! prints "$1" "$true_line" || ! prints "$1" "$wrong_line" "$name" "$what"; then
        echo "$1: $name: $what: does not print what it should"
        return 1
    fi
    echo "$1: $name: $what: '$wrong_line', where the true code prints '$true_line'"
}

cases=("$@")
if [[ $# -eq 0 ]]; then
    for file in tests/wrong/*.rt.in; do
        case=$(basename "$file" .rt.in)
        [[ $case == prelude ]] || cases+=("$case")
    done
fi
most=$(nproc)
for case in "${cases[@]}"; do
    while [[ $(jobs -pr | wc -l) -ge $most ]]; do wait -n; done
    { try "$case" && : >"$scratch/$case.holds"; } >"$scratch/$case.said" 2>&1 &
done
wait
for case in "${cases[@]}"; do
    cat "$scratch/$case.said"
    if [[ -e $scratch/$case.holds ]]; then
        passed=$((passed + 1))
    else
        failed=$((failed + 1))
    fi
done
echo "$passed passed, $failed failed"
[[ $failed -eq 0 ]]
