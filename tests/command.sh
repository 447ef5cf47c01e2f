#!/usr/bin/env bash
# Runs ./las-release, the first command of README.md, as a user would: what it prints on both outputs, its status, what
# it writes and what it leaves behind; on cards, on wrong usage, on each refusal, through links and odd names, where it
# proves, where that fails, and where a signal ends it. Usage: tests/command.sh; its last line is 'N passed, M failed'.
# It proves in copies of the repository; in the repository itself only what is not proved yet.
set -uo pipefail
root=$(realpath -e -- "$(dirname -- "$0")/..") || exit 1
scratch=$(mktemp -d) || exit 1
trap 'rm -rf "$scratch"' EXIT
mkdir "$scratch/tmp" "$scratch/here" || exit 1
export TMPDIR=$scratch/tmp
cd "$scratch/here" || exit 1
command=$root/las-release
card=$root/cards/yard
line=$(cat "$card/line")
passed=0
failed=0

# holds NAME COMMAND..: the command succeeds.
holds() {
    local name=$1
    shift
    if "$@"; then
        passed=$((passed + 1))
    else
        echo "$name: does not hold: $*"
        failed=$((failed + 1))
    fi
}

# is_line LINE FILE: the file has the line and its newline, byte by byte, and no more; nothing where LINE is empty.
is_line() {
    printf '%s' "$1${1:+$'\n'}" | cmp -s - "$2"
}

# said NAME STATUS WANTED LINE WORDS: a run that ended with STATUS should have ended with WANTED, have printed LINE, and
# on standard error what the pattern WORDS says.
said() {
    # shellcheck disable=SC2053
    if [[ $2 -eq $3 && $(<"$scratch/err") == $5 ]] && is_line "$4" "$scratch/out"; then
        passed=$((passed + 1))
    else
        echo "$1: expected status $3, '$4' and on standard error '$5', got status $2 and:"
        od -An -c "$scratch/out"
        cat "$scratch/err"
        failed=$((failed + 1))
    fi
}

# gives NAME WANTED LINE WORDS ARGUMENT..: the command, run from the folder at hand, as said has it.
gives() {
    local name=$1 wanted=$2 line=$3 words=$4
    shift 4
    "$command" "$@" >"$scratch/out" 2>"$scratch/err"
    said "$name" "$?" "$wanted" "$line" "$words"
}

# fresh DIR: a new folder with the card's files.
fresh() {
    mkdir -- "$1" && cp -- "$card/in.las" "$card/sheet.bin" "$1/" || exit 1
}

# releases NAME DIR: the command releases the card in the folder, and says nothing else.
releases() {
    gives "$1" 0 "$line" '' "$2"
    holds "$1: its release" cmp -- "$2/out.las" "$card/expected.las"
}

# patch AT BYTES: a new folder 'bad', with these bytes, as printf has them, at AT in in.las.
patch() {
    rm -rf bad && fresh bad
    # shellcheck disable=SC2059
    printf "$2" | dd of=bad/in.las bs=1 seek="$1" conv=notrunc 2>/dev/null
}

# sheet BYTES: a new folder 'bad' with this sheet.
sheet() {
    rm -rf bad && fresh bad
    # shellcheck disable=SC2059
    printf "$1" >bad/sheet.bin
}

# refuses NUMBER WORDS: the command refuses the folder 'bad', says so in words, and leaves an older out.las as it was.
refuses() {
    echo older >bad/out.las
    gives "refusal $1" 1 "refused $1" "refused $1: $2" bad
    holds "refusal $1: an older out.las stays" is_line older bad/out.las
}

# await COMMAND..: waits until the command succeeds, at most ten seconds.
await() {
    local tries=100
    until "$@"; do
        [[ $((tries -= 1)) -gt 0 ]] || return 1
        sleep 0.1
    done
}

# find_group TEXT [DIR]: sets 'group' to the process group of a process that has the text among its words, and works in
# that folder where one is given.
find_group() {
    local process
    ps -A -o pid= -o pgid= -o args= >"$scratch/ps"
    while read -r process group; do
        [[ $# -gt 1 && $(readlink "/proc/$process/cwd") != "$2" ]] || return 0
    done < <(TEXT=$1 awk 'index($0, ENVIRON["TEXT"]) { print $1, $2 }' "$scratch/ps")
    return 1
}

# is_gone GROUP: no process of the group is left. One that has ended may stay in the list, as Z, until it is fetched.
is_gone() {
    ! ps -A -o pgid= -o stat= | grep -q "^ *$1 *[^ Z]"
}

# launch COMMAND..: starts it as a terminal does, in a group of its own; otherwise INT would be ignored.
launch() {
    set -m
    "$@" >"$scratch/out" 2>"$scratch/err" <&0 &
    set +m
    launched=$!
}

# ends_by SIGNAL NUMBER NAME WORDS TEXT [DIR]: the command that was launched has started a process with TEXT among its
# words, in that folder; the signal ends both, in some seconds, and nothing is left behind.
ends_by() {
    local began status
    holds "$3: it runs" await find_group "${@:5}"
    began=$SECONDS
    kill -s "$1" "$launched"
    wait "$launched" 2>/dev/null
    status=$?
    said "$3" "$status" $((128 + $2)) '' "$4"
    holds "$3: at once" test $((SECONDS - began)) -le 5
    holds "$3: what it started has ended" await is_gone "$group"
    holds "$3: nothing is left" is_empty "$TMPDIR"
}

is_empty() {
    [[ -z $(ls -A "$1") ]]
}

# copy_repository DIR: what ./las-release needs of it, and nothing that was proved.
copy_repository() {
    mkdir "$1" && cp -r "$root/las-release" "$root/README.md" "$root/crates.txt" "$1" &&
        mkdir "$1/tools" && cp "$root/tools/proving.sh" "$1/tools" &&
        (cd "$root" && find crates -name out -prune -o -type f -exec cp --parents -t "$1" {} +)
}

# needs CRATE..: these crates and those that crates.txt says of them, a line each.
needs() {
    local name
    for name; do
        { echo "$name"; sed -nE "s/^$name( [^:]*)?: *//p" "$root/crates.txt" | tr ' ' '\n'; } | grep .
    done | sort -u
}

# what there is, proved; and how many crates that are
(cd "$root/crates/las_release" && rt run </dev/null) >"$scratch/rt" 2>&1 || { cat "$scratch/rt"; exit 1; }
all='' needed=las_release
until [[ $needed == "$all" ]]; do
    all=$needed
    # shellcheck disable=SC2086
    needed=$(needs $all)
done
crates=$(wc -l <<<"$needed")
proving="proving, 2 to 5 minutes the first time: "

# cards, from any folder, by any name

for card in "$root"/cards/*/; do
    name=$(basename "$card")
    line=$(cat "$card/line")
    fresh "$name"
    releases "the card $name" "$name"
    holds "the card $name: no part is left" test ! -e "$name/out.las.part"
done
card=$root/cards/yard
line=$(cat "$card/line")
for name in 'a blank' - -n -- ./--help '*' $'a new line\n' $'\377'; do
    fresh "$name"
    releases "a folder '$name'" "$name"
done
fresh below
fresh full
mkdir elsewhere elsewhere/below
releases "a full path" "$PWD/full"
(cd elsewhere && "$command" ../below) >"$scratch/out" 2>"$scratch/err"
said "a folder above" $? 0 "$line" ''
CDPATH=$PWD/elsewhere gives "a folder that CDPATH has too" 0 "$line" '' below
holds "it is not taken" is_empty elsewhere/below
ln -s "$command" elsewhere/absolute
ln -s ../elsewhere/absolute 'elsewhere/a link'
fresh linked
command='elsewhere/a link' releases "a link to a link" linked

# wrong usage

: >file
fresh no_scan && rm no_scan/in.las
fresh no_sheet && rm no_sheet/sheet.bin
help=$'\nusage: ./las-release DIR *'
gives "no DIR" 2 '' "las-release: no DIR$help"
gives "two" 2 '' "las-release: more than one DIR$help" below full
gives "an empty name" 2 '' "las-release:  is no folder*$help" ''
gives "no such folder" 2 '' "las-release: nowhere is no folder*$help" nowhere
gives "a file" 2 '' "las-release: file is no folder*$help" file
gives "no in.las" 2 '' "las-release: in.las missing in no_scan$help" no_scan
gives "no sheet.bin" 2 '' "las-release: sheet.bin missing in no_sheet$help" no_sheet
gives "neither" 2 '' "las-release: in.las and sheet.bin missing in elsewhere$help" elsewhere
"$command" --help >"$scratch/help" 2>"$scratch/err"
holds "help" test $? -eq 0 -a ! -s "$scratch/err"
for status in 0 1 2 3 '128 + N'; do
    holds "help says what $status means" grep -q "^  $status  " "$scratch/help"
done

# every refusal, in words

rm -rf bad && fresh bad && : >bad/in.las
refuses 1 "the file has fewer than 227 bytes"
patch 0 X
refuses 2 'it does not begin with "LASF"'
patch 25 '\3'
refuses 3 "its version is not 1.2"
patch 94 '\0\0'
refuses 4 "its header size is below 227 or above the file's length"
patch 104 '\4'
refuses 5 "its point format is above 3"
patch 105 '\0\0'
refuses 6 "its record length is below the format's size"
patch 96 '\0\0'
refuses 7 "its points start before the header's end or behind the file's end"
patch 100 '\377'
refuses 8 "a record runs past the start of the points"
patch 107 '\377'
refuses 9 "the points run past the file's end"
patch 131 '\0\0\0\0\0\0\0\0'
refuses 10 "a scale is not from 2^-40 to 2^20, or an offset not from -2^40 to 2^40"
sheet 'KT\1'
refuses 20 "a line of the sheet does not begin with 4B 53"
sheet 'KS\4'
refuses 21 "a line's kind is not 1, 2 or 3"
sheet 'KS\1\2'
refuses 22 "a line is cut short"
sheet 'KS\3'
refuses 22 "a line is cut short"
sheet 'KS\1\3\2'
refuses 23 "a line's lowest class is above its highest, or a low value of a box above its high one"
sheet "KS\\3\\1$(printf '\\0%.0s' {1..23})"
refuses 23 "a line's lowest class is above its highest, or a low value of a box above its high one"
sheet "$(printf 'KS\\1\\2\\2%.0s' {1..65})"
refuses 24 "the sheet has more than 64 lines"
sheet '' && head -c 32769 /dev/zero >bad/in.las
refuses 50 "in.las or sheet.bin has more than 32,768 bytes"
sheet '' && rm bad/in.las && mkdir bad/in.las
refuses 51 "a file was not opened, read or written"
rmdir bad/in.las && ln -s nowhere bad/in.las
refuses 51 "a file was not opened, read or written"
"$command" bad >"$scratch/out" 2>&-
holds "a refusal that nobody reads" test $? -eq 1

# no rt to prove with

mkdir "$scratch/bin"
for tool in bash env realpath mktemp rm; do
    ln -s "$(type -P "$tool")" "$scratch/bin/$tool"
done
PATH=$scratch/bin "$command" below >"$scratch/out" 2>"$scratch/err"
said "no rt" $? 3 '' "las-release: the Rattle kit's rt is not on the PATH"

# a signal while the program waits for in.las, a pipe that nobody writes to

fresh pipe && rm pipe/in.las && mkfifo pipe/in.las && : >pipe/out.las.part
launch "$command" pipe
ends_by HUP 1 "HUP to the program" '' "$root/crates/las_release/out/las_release"
holds "HUP to the program: no part is left" test ! -e pipe/out.las.part

# a signal while it proves from nothing

copy=$scratch/nothing
copy_repository "$copy"
# rt would take what it has built of the same text in the repository
echo '// a copy' >>"$copy/crates/fields/src/lib.rt"
fresh signalled && : >signalled/out.las.part
launch "$copy/las-release" signalled
holds "from nothing: it says that it proves" await grep -q "^${proving}0 of $crates crates$" "$scratch/err"
ends_by TERM 15 "TERM to the prover" "${proving}0 of $crates crates" "--crate-name fields" "$copy/crates/fields"
holds "TERM to the prover: a file that is not the program's stays" test -e signalled/out.las.part
holds "TERM to the prover: nothing counts as proved" test -z "$(find "$copy/crates" -name '*stamp')"

# a program that is proved, and gone; in a repository with a blank in its name

copy="$scratch/a copy"
command=$copy/las-release
copy_repository "$copy"
# its libraries as they are, with notes of one time: nothing of them is proved again
for name in $needed; do
    [[ $name == las_release ]] || { mkdir "$copy/crates/$name/out" && cp -a {"$root","$copy"}/crates/"$name"/out/rlib; }
done
touch -r "$root/crates.txt" "$copy"/crates/*/out/rlib/stamp
fresh built
steps="$proving$((crates - 1)) of $crates crates"$'\n'"$proving$crates of $crates crates"
gives "it builds" 0 "$line" "$steps" built
holds "it builds: its release" cmp built/out.las "$card/expected.las"
holds "it builds: a line for each step, upwards" sort -uc -t: -k2n "$scratch/err"
holds "it builds: nothing is left" is_empty "$TMPDIR"
releases "what is built is current" built
program=$copy/crates/las_release/out/las_release
rm "$program"
gives "it builds again what is gone" 0 "$line" "$steps" built
echo damaged >"$program"
gives "it builds again what is damaged" 0 "$line" "$steps" built
chmod -x "$program"
gives "it builds again what may not be run" 0 "$line" "$steps" built
releases "what is built again is current" built
# a program that rt has built, in the place of which rt is made to write another
mkdir "$scratch/fake"
cat >"$scratch/fake/rt" <<'END_OF_FAKE'
#!/bin/sh
printf '#!/bin/sh\nexit 7\n' >out/las_release
END_OF_FAKE
chmod +x "$scratch/fake/rt"
PATH=$scratch/fake:$PATH gives "a program that says nothing" 3 '' \
    "las-release: the program printed neither*status 7" built
# one that fails where rt tries it, behind all that rt says of its proof
cat >"$scratch/fake/rt" <<'END_OF_FAKE'
#!/bin/sh
echo 'rt: chose --jobs 4 for las_release'
echo 'rt: running out/las_release; to give it other input, run that file yourself'
echo 'what it says'
exit 7
END_OF_FAKE
failure="it is proved and built, but the program failed where rt tried it; what was said then:"$'\n'"what it says"
PATH=$scratch/fake:$PATH gives "a program that fails where it is tried" 3 '' \
    "las-release: $failure"$'\n'"las-release: rt ended with status 7; *$copy/target/las-release.log" built

# a scan where the program is built, which it would release there

cp "$card/in.las" "$card/sheet.bin" "$copy/crates/las_release"
gives "a scan where it is built" 3 '' "las-release: $copy/crates/las_release/in.las has to be moved away: *" built
holds "a scan where it is built: it is not released" test ! -e "$copy/crates/las_release/out.las"
rm "$copy"/crates/las_release/{in.las,sheet.bin}

# a build that fails

fresh unbuilt
mv "$copy/crates/las_release/src/output.rt" "$scratch/output.rt"
echo 'fn (' >"$copy/crates/las_release/src/output.rt"
log=$copy/target/las-release.log
failure="las-release: proving or building failed*src/output.rt:*error*las-release: rt ended *$log"
gives "a damaged source" 3 '' "*$failure" unbuilt
holds "a damaged source: the log" grep -q 'src/output.rt:.*error' "$log"
holds "a damaged source: no out.las" test ! -e unbuilt/out.las
mv "$scratch/output.rt" "$copy/crates/las_release/src/output.rt"

# a signal where it proves again

launch "$command" built
ends_by INT 2 "INT to the prover" "*of $crates crates" "--crate-name las_release" "$copy/crates/las_release"

# the same by a key, on a terminal as 'script' makes one: there it is one line, written again and again

if type -P script >/dev/null; then
    mkfifo keys
    exec 9<>keys
    launch script -qefc "exec '$command' built" /dev/null <keys
    holds "a terminal: it proves" await find_group "--crate-name las_release" "$copy/crates/las_release"
    holds "a terminal: it says so" await grep -q "$((crates - 1)) of $crates crates" "$scratch/out"
    printf '\003' >&9
    wait "$launched"
    holds "a terminal: its status" test $? -eq 130
    holds "a terminal: one line" test "$(wc -l <"$scratch/out")" -eq 1
    holds "a terminal: what it started has ended" await is_gone "$group"
    holds "a terminal: nothing is left" is_empty "$TMPDIR"
fi

echo "$passed passed, $failed failed"
[[ $failed -eq 0 ]]
