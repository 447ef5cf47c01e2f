# What ./las-release, ./install and tools/staticlib share: they say what goes wrong, prove by rt and say how far it is,
# and end with all that they have started. It is sourced, by a script that has set 'called', its own name in what it
# says, and 'takes', how long proving takes the first time, and that calls 'prepare' before all but 'stop'. All of it
# goes to standard error.
# shellcheck shell=bash

: "${called:?is set by the script that sources this}" "${takes:?is set by it too}"
root=   # the repository
own=    # a folder for what the started commands say, and for rt's temporary files
part=   # a file that is half made at the moment
shown=  # how many crates were last said to be proved
declare -A note   # of each crate that is watched: where rt notes that it is built
declare -A below  # of each: all crates that it needs, itself among them

# stop STATUS WORDS: says why, and ends with that status.
stop() {
    printf '%s: %s\n' "$called" "$2" >&2
    exit "$1"
}

# tidy: ends what still runs, with its process group, and removes what is half made. KILL, since what is started has
# nothing of its own to clean up. rt's provers are in a group of their own and end a moment after rt: as long as one
# still writes to the folder, it can't be removed.
tidy() {
    local group tries=50
    exec 2>/dev/null  # bash would say of each job that it was killed
    for group in $(jobs -pr); do kill -KILL -- "-$group"; done
    wait
    [[ -z $part ]] || rm -f -- "$part"
    [[ -z $own ]] || until rm -rf -- "$own" || [[ $((tries -= 1)) -eq 0 ]]; do sleep 0.1; done
}

# end_progress: what is said next begins a line of its own on a terminal.
end_progress() {
    [[ -z $shown || ! -t 2 ]] || echo >&2
    shown=
}

# die_of SIGNAL: as a command does that has no trap, so that a caller's loop ends as well.
die_of() {
    trap '' INT TERM HUP
    end_progress
    tidy
    trap - EXIT "$1"
    kill -s "$1" "$$"
}

# prepare FOLDER: FOLDER is the repository; from here on the script ends cleanly, and has a folder of its own.
prepare() {
    local signal
    root=$1
    trap tidy EXIT
    for signal in INT TERM HUP; do
        # shellcheck disable=SC2064
        trap "die_of $signal" "$signal"
    done
    own=$(mktemp -d) || stop 3 "no temporary folder"
}

# start COMMAND..: starts it in a process group of its own, so that all that it starts can be ended with it.
start() {
    set -m
    "$@" </dev/null &
    set +m
}

# find_rt: the script ends where there is no rt.
find_rt() {
    command -v rt >/dev/null || stop 3 "the Rattle kit's rt is not on the PATH"
}

# crates_needed NAME: the crates that rt proves for the crate NAME, its own among them.
crates_needed() {
    awk -F: -v wanted="$1" '
        function visit(name,    i, n, list) {
            if (!(name in needs) || seen[name]++) return
            print name
            n = split(needs[name], list, " ")
            for (i = 1; i <= n; i++) visit(list[i])
        }
        # a line may say more than the name before its colon, as "capi_c staticlib: capi"
        { sub(/#.*/, "") }
        NF > 1 { split($1, words, " "); needs[words[1]] = $2 }
        END { visit(wanted) }' "$root/crates.txt"
}

# note_of CRATE: the file in which rt notes that it has built a library or a program from the sources as they are, by
# checksums of these. It removes the note before it proves the crate, and writes a new one afterwards; or it takes a
# library of the same sources, with its note, from elsewhere on this machine. Of a static library it has none.
note_of() {
    if [[ -e $root/crates/$1/src/main.rt ]]; then
        echo "$root/crates/$1/out/$1.stamp"
    else
        echo "$root/crates/$1/out/rlib/stamp"
    fi
}

# watch CRATE..: sets 'note' and 'below' for these crates.
watch() {
    local name
    for name; do
        note[$name]=$(note_of "$name")
        below[$name]=$(crates_needed "$name")
    done
}

# is_proving CRATE..: one of these crates has no note.
is_proving() {
    local name
    for name; do
        [[ -e ${note[$name]} ]] || return 0
    done
    return 1
}

# proved CRATE..: how many of these crates are proved as they are, by their notes. One that is older than the note of a
# crate below is of what stood there before.
proved() {
    local name low number=0
    for name; do
        for low in ${below[$name]}; do
            [[ -e ${note[$low]} && ! ${note[$name]} -ot ${note[$low]} ]] || continue 2
        done
        number=$((number + 1))
    done
    echo "$number"
}

# progress DONE NUMBER: says how many of so many crates are proved, where that has grown.
progress() {
    local words="proving, $takes the first time: $1 of $2 crates"
    [[ $1 -gt ${shown:--1} ]] || return
    shown=$1
    if [[ -t 2 ]]; then printf '\r%s' "$words" >&2; else printf '%s\n' "$words" >&2; fi
}

# run_rt CRATE WORD..: rt works in a crate's folder. Its temporary files stand in the folder that is removed.
run_rt() {
    cd -- "$root/crates/$1" && TMPDIR=$own exec rt "${@:2}"
}

# rt_progress NUMBER CRATE..: how far rt is, of so many crates, from when one of these is being proved.
rt_progress() {
    local number=$1
    shift
    [[ -n $shown ]] || is_proving "$@" || return
    progress "$(proved "$@")" "$number"
}

# failures FILE: of what rt said, the lines that say what is not proved or went wrong, without those on how rt goes
# about it; or the end of it, if it has none. Where it ran a program, only what was said since then.
failures() {
    local said
    said=$(sed '0,/^rt: running /d' "$1")
    if [[ -z $said ]]; then
        said=$(grep -E '^(fn .*: (not proved|no proof|could not tell)|[^ ].*[Ee]rror|rattle: |rt: )' "$1" |
            grep -vE '^rt: (chose|running|waiting|compiling) |^rt: [^ ]*: (begins with|another copy) ')
        said=${said:-$(<"$1")}
    fi
    tail -n 12 <<<"${said:-nothing}"
}

# rt_proves NUMBER CRATE.. -- IN WORD..: runs rt with these words in the folder of the crate IN, and says how far it is
# as rt_progress does. Nothing is given to rt to read, and what a program prints that it runs goes to its log. The
# script ends where rt fails: what an earlier run has built may still be there then.
rt_proves() {
    local status words='' number=$1 log=$root/target/$called.log watched=()
    shift
    while [[ $1 != -- ]]; do
        watched+=("$1")
        shift
    done
    shift
    watch "${watched[@]}"
    start run_rt "$@" >"$own/rt" 2>&1
    while kill -0 "$!" 2>/dev/null; do
        rt_progress "$number" "${watched[@]}"
        sleep 0.2
    done
    wait "$!"
    status=$?
    rt_progress "$number" "${watched[@]}"
    if [[ $status -eq 0 ]]; then
        [[ -z $shown ]] || progress "${#watched[@]}" "$number"
        return
    fi
    end_progress
    if grep -q '^rt: running ' "$own/rt"; then
        echo "$called: it is proved and built, but the program failed where rt tried it; what was said then:" >&2
    else
        echo "$called: proving or building failed; what rt said of it:" >&2
    fi
    failures "$own/rt" >&2
    if mkdir -p -- "${log%/*}" && cp -- "$own/rt" "$log"; then words="; all that it said is in $log"; fi
    stop 3 "rt ended with status $status$words"
}
