#!/usr/bin/env bash
# Runs ./install as a user would: what it prints on both outputs, its status, what it writes, leaves alone and leaves
# behind; by any way to name a prefix, on wrong usage, where it can't write, where building fails, and where a signal
# ends it. Uses what it installs from outside the repository: the command, the library from C, static and shared, and
# the crate from Rust. Asks of the manual page that it has all commands and options of the command's own help.
# Usage: tests/install.sh; its last line is 'N passed, M failed'. It proves only what is not proved yet.
set -uo pipefail
root=$(realpath -e -- "$(dirname -- "$0")/..") || exit 1
scratch=$(mktemp -d) || exit 1
trap 'rm -rf "$scratch"' EXIT
mkdir "$scratch/tmp" "$scratch/here" "$scratch/fake" || exit 1
export TMPDIR=$scratch/tmp
unset DESTDIR KORBISHAF_LIB_DIR CARGO_TARGET_DIR PKG_CONFIG_PATH
cd "$scratch/here" || exit 1
here=$PWD
command=$root/install
card=$root/cards/yard
line=$(cat "$card/line")
passed=0
failed=0

# holds NAME COMMAND..: the command succeeds.
holds() {
    local name=$1
    shift
    if "$@"; then
        passed=$((passed + 1))
    else
        echo "$name: does not hold: $*"
        failed=$((failed + 1))
    fi
}

# prints NAME WANTED COMMAND..: the command succeeds and prints these lines and no more.
prints() {
    local name=$1 wanted=$2 status
    shift 2
    "$@" >"$scratch/printed"
    status=$?
    if [[ $status -eq 0 ]] && printf '%s' "$wanted${wanted:+$'\n'}" | cmp -s - "$scratch/printed"; then
        passed=$((passed + 1))
    else
        echo "$name: expected status 0 and '$wanted', got status $status and:"
        cat "$scratch/printed"
        failed=$((failed + 1))
    fi
}

# said NAME STATUS WANTED LINES WORDS: a run of ./install that ended with STATUS should have ended with WANTED, have
# printed LINES, and on standard error what the pattern WORDS says.
said() {
    # shellcheck disable=SC2053
    if [[ $2 -eq $3 && $(<"$scratch/err") == $5 && $(<"$scratch/out") == "$4" ]]; then
        passed=$((passed + 1))
    else
        echo "$1: expected status $3, '$4' and on standard error '$5', got status $2 and:"
        cat "$scratch/out" "$scratch/err"
        failed=$((failed + 1))
    fi
}

# gives NAME WANTED LINES WORDS ARGUMENT..: ./install, run from the folder at hand, as said has it.
gives() {
    local name=$1 wanted=$2 lines=$3 words=$4
    shift 4
    "$command" "$@" >"$scratch/out" 2>"$scratch/err"
    said "$name" "$?" "$wanted" "$lines" "$words"
}

# left_out WHAT: what this machine has no tool for.
left_out() {
    echo "left out, since it is missing here: $1"
}

# has TOOL..: all of them are there; says so where one is not.
has() {
    local tool
    for tool; do
        type -P "$tool" >/dev/null || { left_out "$tool"; return 1; }
    done
}

# files_in DIR: all that is in it but folders, a line each.
files_in() {
    (cd -- "$1" && find . ! -type d | sed 's|^\./||' | LC_ALL=C sort)
}

# state_of DIR: the same with all that a change would change.
state_of() {
    (cd -- "$1" && find . -printf '%p %i %m %s %T@ %l\n' | sort)
}

is_empty() {
    [[ -z $(ls -A "$1") ]]
}

# installed DIR: the lines that ./install prints for that prefix, in which the crate is one.
installed() {
    local file
    while read -r file; do printf '%s\n' "$1/$file"; done \
        < <(sed 's|^\(share/korbishaf/rust/korbishaf\)/.*|\1|' <<<"$wanted_files" | uniq)
}

# await COMMAND..: waits until the command succeeds, at most ten seconds.
await() {
    local tries=100
    until "$@"; do
        [[ $((tries -= 1)) -gt 0 ]] || return 1
        sleep 0.1
    done
}

# fake TOOL: a script of that name, to be found before the tool itself; what it does is on standard input.
fake() {
    { echo '#!/usr/bin/env bash'; cat; } >"$scratch/fake/$1" && chmod +x "$scratch/fake/$1"
}

# ends_by SIGNAL NUMBER NAME ARGUMENT..: ./install gets the signal when one of the fake tools has written its process to
# the file 'mark'; it ends at once, and nothing is left behind. The file 'sent' is there when the signal is.
ends_by() {
    local signal=$1 number=$2 name=$3 launched began
    shift 3
    rm -f mark sent
    # as a terminal starts it, in a group of its own; otherwise INT would be ignored
    set -m
    PATH=$scratch/fake:$PATH "$command" "$@" >"$scratch/out" 2>"$scratch/err" </dev/null &
    set +m
    launched=$!
    holds "$name: it runs" await test -s mark
    began=$SECONDS
    kill -s "$signal" "$launched"
    : >sent
    wait "$launched" 2>/dev/null
    said "$name" "$?" $((128 + number)) '' '*'
    holds "$name: at once" test $((SECONDS - began)) -le 5
    holds "$name: what it started has ended" await is_gone "$(<mark)"
    holds "$name: nothing is left" is_empty "$TMPDIR"
}

# is_gone PROCESS: one that has ended may stay in the list, as Z, until it is fetched.
is_gone() {
    [[ $(ps -o stat= -p "$1") == @(|Z*) ]]
}

# read_flags FILE: sets 'cflags' and 'libs' to the two fields of a file for pkg-config, as pkg-config would read them.
read_flags() {
    # shellcheck disable=SC2034
    local pcfiledir=${1%/*} prefix libdir includedir at
    read -ra cflags < <(sed -n 's/^Cflags: //p' "$1")
    read -ra libs < <(sed -n 's/^Libs: //p' "$1")
    # the variables, and where they stand in the fields, are as a shell has them
    eval "$(grep '^[a-z]*=' "$1")"
    for at in "${!cflags[@]}"; do eval "cflags[at]=${cflags[at]}"; done
    for at in "${!libs[@]}"; do eval "libs[at]=${libs[at]}"; done
}

# c_program NAME PREFIX: by 'cflags' and 'libs', a program outside the repository gives what it should with the static
# library and with the shared one.
c_program() {
    local strict=(-std=c99 -Wall -Wextra -Werror -pedantic)
    local line="check 0 points 2 system a system asked 30 247 released 0 247 points 1 records 0 max X 4023000000000000"
    rm -rf c && mkdir c && cp "$root/tests/c/release.c" c || exit 1
    holds "$1: static" cc "${strict[@]}" "${cflags[@]}" c/release.c -o c/static -Wl,-Bstatic "${libs[@]}" -Wl,-Bdynamic
    prints "$1: static, a release" "$line" c/static
    holds "$1: static, and not shared" test "$(grep -ac 'libkorbishaf\.so' c/static)" -eq 0
    holds "$1: shared" cc "${strict[@]}" "${cflags[@]}" c/release.c -o c/shared "${libs[@]}"
    prints "$1: shared, a release" "$line" env LD_LIBRARY_PATH="$2/lib" c/shared
    holds "$1: shared, by its soname" grep -aq 'libkorbishaf\.so\.1' c/shared
}

# rust_program NAME PATH: a crate outside the repository that depends on the crate at PATH releases the card's scan.
rust_program() {
    mkdir -p outside/src || exit 1
    cat >outside/Cargo.toml <<END_OF_MANIFEST
[package]
name = "outside"
version = "0.1.0"
edition = "2024"

[dependencies]
korbishaf = { path = "$2" }
END_OF_MANIFEST
    cat >outside/src/main.rs <<'END_OF_PROGRAM'
fn main() -> Result<(), Box<dyn std::error::Error>> {
    let file = std::fs::read(std::env::args_os().nth(1).ok_or("no file")?)?;
    let sheet = korbishaf::Sheet::from_text("class ground\nclass building\nrecord yard 7")?;
    let mut out = vec![0; file.len()];
    let released = korbishaf::release(&file, &sheet, &mut out)?;
    println!("released {} points {} records {}", released.length, released.points, released.records);
    Ok(())
}
END_OF_PROGRAM
    prints "$1" "$line" cargo run --quiet --offline --manifest-path outside/Cargo.toml -- "$card/in.las"
}

# part_of_page COMMAND: what the manual page says of it.
part_of_page() {
    awk -v wanted="$1" '/^\.S[HS] / { within = $1 == ".SS" && $2 == wanted } within' page
}

# options_in FILE: the long options that it has.
options_in() {
    grep -oE -e '--[a-z][a-z-]*' "$1" | sort -u
}

# is_in WORD FILE: as a word of its own.
is_in() {
    grep -qE -e "(^|[^[:alnum:]-])$1([^[:alnum:]-]|\$)" "$2"
}

# what should be there, below the prefix

wanted_files=$({
    printf '%s\n' bin/korbishaf include/korbishaf.h lib/libkorbishaf.a lib/libkorbishaf.so lib/libkorbishaf.so.1
    printf '%s\n' lib/pkgconfig/korbishaf.pc share/man/man1/korbishaf.1
    (cd "$root/rust/korbishaf" && find Cargo.toml build.rs src -type f) | sed 's|^|share/korbishaf/rust/korbishaf/|'
} | LC_ALL=C sort)

# a prefix that is relative and has a blank in its name

proving="proving, 3 to 8 minutes the first time: "
working="*building the command korbishaf"
KORBISHAF_LIB_DIR=/nowhere gives "a prefix" 0 "$(installed "$here/a prefix")" "$working" 'a prefix'
holds "a prefix: these files and no others" test "$(files_in 'a prefix')" = "$wanted_files"
holds "a prefix: nothing is left" is_empty "$TMPDIR"
holds "a prefix: the link" test "$(readlink 'a prefix/lib/libkorbishaf.so')" = libkorbishaf.so.1
prints "the command" "$line" 'a prefix/bin/korbishaf' release "$card/in.las" "$card/sheet.bin" out.las
holds "the command: its release" cmp out.las "$card/expected.las"
read_flags 'a prefix/lib/pkgconfig/korbishaf.pc'
c_program "C" 'a prefix'
rust_program "Rust" '../a prefix/share/korbishaf/rust/korbishaf'

# the names of the shared object are those of the header

if has nm; then
    declared=$(sed -n 's/^[a-z0-9_]* \(las_[a-z_]*\)(.*/\1/p' 'a prefix/include/korbishaf.h' | LC_ALL=C sort)
    holds "the header: its functions" test "$(wc -l <<<"$declared")" -eq 18
    exported=$(nm -D --defined-only 'a prefix/lib/libkorbishaf.so' | awk '{ print $3 }' | LC_ALL=C sort)
    holds "the shared object: its names" test "$exported" = "$declared"
fi

# a second time, by another way: nothing changes; and where something has changed, it is put right

before=$(state_of 'a prefix')
mkdir elsewhere && ln -s "$command" elsewhere/absolute && ln -s ../elsewhere/absolute 'elsewhere/a link'
command='elsewhere/a link' gives "a second time" 0 "$(installed "$here/a prefix")" "building the*" "$here/a prefix//"
holds "a second time: nothing changes" test "$(state_of 'a prefix')" = "$before"
echo other >'a prefix/bin/other'
echo older >'a prefix/include/korbishaf.h'
ln -sf other 'a prefix/bin/korbishaf'
chmod 600 'a prefix/lib/libkorbishaf.a'
echo older >'a prefix/share/korbishaf/rust/korbishaf/src/older.rs'
gives "a third time" 0 "$(installed "$here/a prefix")" "building the*" -- 'a prefix'
holds "a third time: the header" cmp "$root/include/korbishaf.h" 'a prefix/include/korbishaf.h'
holds "a third time: the command" test -f 'a prefix/bin/korbishaf' -a ! -L 'a prefix/bin/korbishaf'
holds "a third time: the library" test -n "$(find 'a prefix/lib/libkorbishaf.a' -perm 644)"
prints "a third time: another file stays" other cat 'a prefix/bin/other'
rm 'a prefix/bin/other'
holds "a third time: these files and no others" test "$(files_in 'a prefix')" = "$wanted_files"

# moved

mv 'a prefix' moved
prints "moved: the command" "$line" moved/bin/korbishaf release --force "$card/in.las" "$card/sheet.bin" out.las
read_flags moved/lib/pkgconfig/korbishaf.pc
c_program "moved: C" moved
version=$(sed -n 's/^Version: //p' moved/lib/pkgconfig/korbishaf.pc)
holds "the version" test "$(moved/bin/korbishaf --version | cut -d' ' -f2)" = "$version"
if has pkg-config; then
    export PKG_CONFIG_PATH=$here/moved/lib/pkgconfig
    read -ra cflags < <(pkg-config --cflags korbishaf)
    read -ra libs < <(pkg-config --libs korbishaf)
    c_program "moved: C by pkg-config" moved
    prints "pkg-config: the version" "$version" pkg-config --modversion korbishaf
fi
if has c++; then
    holds "moved: C++" c++ -Wall -Werror "${cflags[@]}" -x c++ c/release.c -x none -o c/plus \
        -Wl,-rpath,"$here/moved/lib" "${libs[@]}"
    holds "moved: a release from C++" cmp <(c/plus) <(c/static)
fi
mv moved/share/korbishaf/rust/korbishaf vendored
KORBISHAF_LIB_DIR=$here/moved/lib rust_program "Rust: a library that is named" ../vendored
mv vendored moved/share/korbishaf/rust/korbishaf

# the manual page

sed 's/\\-/-/g' moved/share/man/man1/korbishaf.1 >page
holds "the page: its version" grep -q "^\.TH KORBISHAF 1 .*\"korbishaf $version\"" page
moved/bin/korbishaf help >overview
commands=$(sed -n '/^Commands:$/,/^$/s/^  \([a-z]*\) .*/\1/p' overview)
holds "the page: there are commands" grep -q '^release$' <<<"$commands"
for name in $commands; do
    moved/bin/korbishaf help "$name" >of_command
    part_of_page "$name" >part
    holds "the page: $name" test -s part
    for option in $(options_in of_command); do
        holds "the page: $name $option" is_in "$option" part
    done
done
for option in $(options_in overview); do
    holds "the page: $option" is_in "$option" page
done
if has groff; then
    groff -man -Tutf8 -ww moved/share/man/man1/korbishaf.1 >rendered 2>warnings
    holds "the page: groff" test $? -eq 0 -a -s rendered -a ! -s warnings
fi
if [[ $(man --version 2>/dev/null) == man\ 2.* ]]; then
    MANWIDTH=80 man --warnings -l moved/share/man/man1/korbishaf.1 >rendered 2>warnings
    holds "the page: man" test $? -eq 0 -a -s rendered -a ! -s warnings
else
    left_out man
fi

# DESTDIR, and the prefix where none is given

stage='stage & 1%s'
DESTDIR=$here/$stage gives "DESTDIR" 0 "$(installed "$here/$stage/usr/local")" "$working"
holds "DESTDIR: these files and no others" test "$(files_in "$stage/usr/local")" = "$wanted_files"
DESTDIR=$stage gives "DESTDIR, relative" 0 "$(installed "$here/$stage/opt/k")" "$working" /opt/k
holds "DESTDIR, relative: these files and no others" test "$(files_in "$stage/opt/k")" = "$wanted_files"

# what was installed, removed

echo other >"$stage/opt/k/share/korbishaf/rust/other"
echo other >"$stage/opt/k/bin/other"
DESTDIR=$stage gives "removed" 0 "$(installed "$here/$stage/opt/k")" '' --uninstall /opt/k
holds "removed: others stay" test "$(files_in "$stage/opt/k")" = bin/other$'\n'share/korbishaf/rust/other
holds "removed: no empty folder" test ! -e "$stage/opt/k/share/korbishaf/rust/korbishaf"
gives "removed, behind the prefix" 0 "$(installed "$here/$stage/usr/local")" '' "$stage/usr/local" --uninstall
holds "removed, behind the prefix: all" test -z "$(files_in "$stage/usr/local")"
holds "removed, behind the prefix: its folder" test ! -e "$stage/usr/local/share/korbishaf"
gives "removed already" 0 '' '' --uninstall "$stage/usr/local"

# wrong usage

help=$'\nusage: ./install *'
gives "two" 2 '' "install: more than one PREFIX$help" one two
gives "an empty name" 2 '' "install: PREFIX is empty$help" ''
gives "an unknown option" 2 '' "install: unknown option '--prefix=one'$help" --prefix=one
gives "an unknown option behind" 2 '' "install: unknown option '-x'$help" one -x
DESTDIR=stage gives "DESTDIR and a relative prefix" 2 '' "install: PREFIX has to begin with '/'*$help" one
holds "wrong usage: nothing is written" test ! -e one -a ! -e two
for words in --help -h 'one --help'; do
    # shellcheck disable=SC2086
    "$command" $words >"$scratch/help" 2>"$scratch/err"
    holds "$words" test $? -eq 0 -a -s "$scratch/help" -a ! -s "$scratch/err"
done
for status in 0 2 3 '128 + N'; do
    holds "help says what $status means" grep -q "^  $status  " "$scratch/help"
done

# no place to write to, or nothing to build with: said before anything is built

mkdir bare barred bin && : >file && mkdir -p taken/bin/korbishaf
for tool in bash env realpath mktemp rm find sort cat chmod; do
    ln -s "$(type -P "$tool")" "bin/$tool"
done
PATH=$here/bin gives "a file" 3 '' "install: $here/file is no folder" file
PATH=$here/bin gives "below a file" 3 '' "install: $here/file is no folder" file/prefix
PATH=$here/bin gives "a folder" 3 '' "install: $here/taken/bin/korbishaf is a folder*" taken
if [[ $EUID -ne 0 ]]; then
    chmod 555 barred
    PATH=$here/bin gives "a barred folder" 3 '' "install: the folder $here/barred can't be written to" barred
else
    echo "left out, since root may write everywhere: a barred folder"
fi
PATH=$here/bin gives "no rt" 3 '' "install: the Rattle kit's rt is not on the PATH" bare
ln -s "$(type -P rt)" bin/rt
PATH=$here/bin gives "no cargo" 3 '' "install: cargo is not on the PATH" bare
gives "a place that only looks good" 3 '' "*install: */proc/korbishaf* written*" /proc/korbishaf
holds "no place: nothing is written" is_empty bare

# a build that fails

fake cargo <<<'echo no such crate; exit 101'
PATH=$scratch/fake:$PATH gives "a failed build" 3 '' \
    "*install: building failed*"$'\n'"no such crate"$'\n'"install: cargo ended with status 101" bare
holds "a failed build: nothing is written" is_empty bare
holds "a failed build: nothing is left" is_empty "$TMPDIR"

# a signal while it builds, and while it writes

fake cargo <<<"echo \$\$ >'$here/mark'; exec sleep 100"
ends_by INT 2 "INT to the build" bare
holds "INT to the build: nothing is written" is_empty bare
rm "$scratch/fake/cargo"
fake cp <<END_OF_FAKE
[[ \${!#} == */.korbishaf-*.part ]] || exec '$(type -P cp)' "\$@"
echo half >"\${!#}"
echo \$\$ >'$here/mark'
until [[ -e '$here/sent' ]]; do sleep 0.1; done
END_OF_FAKE
echo older >moved/include/korbishaf.h
for signal in 'TERM 15' 'HUP 1'; do
    # shellcheck disable=SC2086
    ends_by $signal "$signal to a file" moved
    holds "$signal to a file: these files and no others" test "$(files_in moved)" = "$wanted_files"
    prints "$signal to a file: it is as it was" older cat moved/include/korbishaf.h
done
rm "$scratch/fake/cp"

# when the library is proved again; in a copy of the repository, with tools that only note that they were called

copy="$scratch/a copy"
command=$copy/install
mkdir -p "$copy/rust" && cp -r "$root/install" "$root/tools" "$root/include" "$root/crates.txt" "$copy"
(cd "$root" && find crates -name out -prune -o -type f -exec cp --parents -t "$copy" {} +)
cp -r "$root/rust/korbishaf" "$root/rust/korbishaf-cli" "$copy/rust"
library=$copy/target/staticlib/libcapi.a
fake cargo <<END_OF_FAKE
mkdir -p '$copy/rust/target/release' && echo >'$copy/rust/target/release/korbishaf'
END_OF_FAKE
fake rt <<END_OF_FAKE
name=\${PWD##*/}
echo "\$name \$1" >>'$here/calls'
if [[ \$name == capi ]]; then
    mkdir -p ../{fields,points,sheet,scaling,lasfile,reader,geokeys,publicpart,tally,release,editor,capi}/out/rlib
    sleep 0.3
    # as by rt itself, a note has a checksum of what stands in the sources; one that is right stays
    for made in ../*/out/rlib; do
        sum=\$(find "\$made/../../src" -type f -exec cat {} + | sha256sum)
        [[ -e \$made/stamp && \$(<"\$made/stamp") == "\$sum" ]] || echo "\$sum" >"\$made/stamp"
        [[ ! -e '$here/old' ]] || touch -d '2 days ago' "\$made/stamp"
    done
    [[ ! -e '$here/unnoted' ]] || rm ../fields/out/rlib/stamp
else
    mkdir -p out && cp '$root/target/staticlib/libcapi.a' out/libcapi_c.a
    [[ ! -e '$here/changing' ]] || echo >>src/lib.rt
    [[ ! -e '$here/unproved' ]] || { cat '$here/unproved'; exit 1; }
    [[ -e '$here/slow' ]] || exit 0
    setsid '$scratch/fake/prover' \$\$ &
    until [[ -e \$TMPDIR/1 ]]; do sleep 0.1; done
    echo \$\$ >'$here/mark'
    exec sleep 100
fi
END_OF_FAKE
# a prover is in a group of its own, and writes for a second after rt, the process $1, has ended
fake prover <<'END_OF_FAKE'
until [[ -n ${end-} && $SECONDS -ge $end ]]; do
    [[ -n ${end-} ]] || kill -0 "$1" || end=$((SECONDS + 2))
    : >"$TMPDIR/$((number += 1))"
done 2>/dev/null
END_OF_FAKE

# proves NAME CALLS WORDS: ./install in the copy calls rt with these verbs, each behind the crate in whose folder.
proves() {
    rm -f calls
    PATH=$scratch/fake:$PATH gives "$1" 0 "$(installed "$here/faked")" "$3" faked
    holds "$1: what it proves" test "$(tr '\n' ' ' <calls)" = "$2 "
}

# proves_older NAME FILE: ./install proves the library again where the file has another line, though all that the
# library is made of, rt's notes too, is older: as it is where it comes from an older copy, with its times.
proves_older() {
    echo >>"$copy/$2"
    find "$copy/crates" "$copy/crates.txt" -exec touch -d '2 days ago' {} +
    : >old
    proves "$1" "capi lib capi_c lib" "$last"
    rm old
    holds "$1: all is older" test -z "$(find "$copy"/crates{.txt,/*/{src,out/rlib/stamp}} -newermt '1 day ago')"
}

# fails NAME SAID WORDS: where rt fails and says this, ./install says these words of it, and no library is made.
fails() {
    # shellcheck disable=SC2059
    printf "$2" >unproved
    rm -f "$library"
    PATH=$scratch/fake:$PATH gives "$1" 3 '' "${proving}12 of 13 crates
install: proving or building failed; what rt said of it:
$3
install: rt ended with status 1; all that it said is in $copy/target/install.log" faked
    holds "$1: no library" test ! -e "$library"
    holds "$1: the log" cmp unproved "$copy/target/install.log"
    rm unproved
}

# the notes of the twelve libraries are written one behind another, so that some steps may be said between the two
first="${proving}0 of 13 crates"$'\n'
last="${proving}12 of 13 crates"$'\n'"${proving}13 of 13 crates"$'\n'"building the*"
umask 077
proves "from nothing" "capi lib capi_c lib" "$first*$last"
holds "from nothing: a line for each step, upwards" sort -uc -t: -k2n <(grep "^$proving" "$scratch/err")
holds "from nothing: all may read" test -z "$(find faked ! -type l ! -perm -444)"
holds "from nothing: all may enter" test -z "$(find faked -type d ! -perm -555)"
proves "current" "capi lib" "building the*"
for name in capi_c capi; do
    echo >>"$copy/crates/$name/src/lib.rt"
    proves "a changed source of $name" "capi lib capi_c lib" "$last"
    proves "current again" "capi lib" "building the*"
done
echo >>"$copy/crates/fields/src/lib.rt"
proves "a crate below that was proved again" "capi lib capi_c lib" "$last"
proves_older "an older source of capi_c" crates/capi_c/src/lib.rt
proves_older "an older source of capi" crates/capi/src/lib.rt
proves_older "an older source of a crate below" crates/fields/src/lib.rt
proves_older "an older crates.txt" crates.txt
find "$copy/crates" "$copy/crates.txt" -exec touch {} +
proves "newer and the same" "capi lib" "building the*"
cp "$copy/crates/capi_c/src/lib.rt" before
rm "$library" && : >changing
proves "a source that changes meanwhile" "capi lib capi_c lib" "$last"
rm changing
cp before "$copy/crates/capi_c/src/lib.rt"
proves "a source that changed meanwhile and back" "capi lib capi_c lib" "$last"
: >unnoted
proves "a crate below that changes meanwhile" "capi lib capi_c lib" "*$last"
rm unnoted
proves "a crate below that changed meanwhile" "capi lib capi_c lib" "*$last"
proves "current once more" "capi lib" "building the*"
echo >>"$library"
proves "a damaged library" "capi lib capi_c lib" "$last"
rm "$library.sums"
proves "a library that nothing is known of" "capi lib capi_c lib" "$last"
rm "$library"
proves "no library" "capi lib capi_c lib" "$last"
fails "not proved" 'rt: chose --jobs 4 for capi_c\nfn capi_c::las_level: not proved; all else is\n  code\n' \
    "fn capi_c::las_level: not proved; all else is"
fails "killed" 'rt: chose --jobs 4 for capi_c\nKilled\n' "rt: chose --jobs 4 for capi_c"$'\n'"Killed"
fails "without a word" '' nothing
: >slow
ends_by TERM 15 "TERM to the prover" faked
holds "TERM to the prover: no library" test ! -e "$library"
rm slow

# tools/staticlib makes the library that ./install takes; from any folder, and through a link

# builds NAME DIR COMMAND: tools/staticlib, so called in that folder, builds the library in the copy, and ./install
# takes it as it is.
builds() {
    rm -f calls "$library"
    (cd "$2" && PATH=$scratch/fake:$PATH CDPATH=$here/other "$3") >"$scratch/out" 2>"$scratch/err"
    said "$1" "$?" 0 '' "${last%$'\n'*}"
    holds "$1: what it proves" test "$(tr '\n' ' ' <calls)" = "capi lib capi_c lib "
    holds "$1: not where CDPATH leads" is_empty other/crates/capi_c
    proves "$1: ./install takes it" "capi lib" "building the*"
}

mkdir -p other/tools other/crates/capi_c
ln -s "$copy/tools/staticlib" elsewhere/staticlib
builds "tools/staticlib" "$copy" tools/staticlib
builds "tools/staticlib, by a link" "$here" elsewhere/staticlib

echo "$passed passed, $failed failed"
[[ $failed -eq 0 ]]
