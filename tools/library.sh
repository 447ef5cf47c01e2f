# What ./install and tools/staticlib share: the static library, which they prove and build where it is not current. It
# is sourced, as proving.sh is and in place of it, and 'prove_library' is called behind 'prepare' and 'find_rt'.
# shellcheck shell=bash

takes='3 to 8 minutes'
# shellcheck source=tools/proving.sh
. "${BASH_SOURCE[0]%/*}/proving.sh" || exit 3
library=target/staticlib/libcapi.a  # in the repository; beside it, in libcapi.a.sums, stands what it is made of

# made_of CRATE..: the checksums of what the library is made of, a line each: of crates.txt, of all files of capi_c, and
# of what rt has noted of these crates, which is a checksum of all that it read of them. It fails where a note is
# missing.
made_of() (
    notes=()
    cd -- "$root" || exit
    for name; do notes+=("$(note_of "$name")"); done
    find crates/capi_c -name out -prune -o ! -type d -print0 | LC_ALL=C sort -z |
        xargs -0 sha256sum -- crates.txt "${notes[@]#"$root/"}"
) 2>/dev/null

# is_current CRATE..: the library is the one that was built, of the same. It goes by what the files hold and not by
# their times: a copy of a file, or a library that rt takes from elsewhere with its note, may be as old as it was there.
is_current() {
    local now
    { now=$(made_of "$@" && sha256sum <"$root/$library") && [[ $(<"$root/$library.sums") == "$now" ]]; } 2>/dev/null
}

# place_library SUMS CRATE..: puts what rt has built into its place, whole or not at all, and notes what it is made of:
# SUMS, as before it was built, if that is so still. Otherwise there is no note, and it is built again the next time.
place_library() {
    local sums=$1
    shift
    part=$root/$library.${own##*/}.part
    if ! { mkdir -p -- "${part%/*}" && cp -- "$root/crates/capi_c/out/libcapi_c.a" "$part" &&
        sums+=$'\n'$(sha256sum <"$part") && mv -f -- "$part" "$root/$library"; }; then
        stop 3 "$root/$library was not written"
    fi
    part=
    rm -f -- "$root/$library.sums"
    [[ $(made_of "$@") == "${sums%$'\n'*}" ]] || return 0
    printf '%s\n' "$sums" >"$root/$library.sums" || stop 3 "$root/$library.sums was not written"
}

# prove_library: proves and builds it where it is not current, of capi_c, which exports what capi has. 'rt lib' proves
# capi_c itself each time; capi, and what is below it, only where the sources are others than it has noted.
prove_library() {
    local needed number sums
    mapfile -t needed < <(crates_needed capi_c)
    number=${#needed[@]}
    needed=("${needed[@]:1}")  # without the first, which is capi_c
    rt_proves "$number" "${needed[@]}" -- capi lib
    if ! is_current "${needed[@]}"; then
        sums=$(made_of "${needed[@]}")
        progress $((number - 1)) "$number"
        rt_proves "$number" -- capi_c lib
        progress "$number" "$number"
        place_library "$sums" "${needed[@]}"
    fi
    end_progress
}
