# shellcheck shell=sh disable=SC2154 # variables and functions of the script labsys, which reads this file where it has to build
# Builds the program, in the checkout or, where the user may not write there, in the user's cache folder.
kit=rattle-kit-13f
build=
room=

# Puts a file that can't be read, or written, at each standard descriptor that is closed, so that no other file takes its place.
fill_descriptors() {
    (: 3<&0) 2>/dev/null || exec 0>/dev/null
    (: 3>&1) 2>/dev/null || exec 1</dev/null
    (: 3>&2) || exec 2>/dev/null # its own message goes nowhere
}

# Removes the temporary files at a signal, stops the build, and ends by the signal.
stop() {
    if [ -n "$build" ]; then
        kill "$build" 2>/dev/null
        wait "$build"
        report "stopped; the next use goes on from what is proved so far"
    fi
    rm -rf "$room"
    trap - "$1"
    kill -s "$1" $$
}

# Whether the user may build in the checkout.
may_build() {
    for crate in "$top"/crates/*; do
        [ -w "$crate" ] && { [ ! -e "$crate/out" ] || [ -w "$crate/out" ]; } || return 1
    done
}

# Writes the folder of the cache for these sources, which has their checksum: other sources have another folder.
cache_folder() {
    sum=$(cd "$top" && find crates.txt crates/*/src crates/*/specs crates/*/proofs -type f -exec cksum {} + | LC_ALL=C sort | cksum | tr ' ' -)
    echo "${XDG_CACHE_HOME:-$HOME/.cache}/labsys/$sum"
}

# Copies what a build reads to the folder.
copy_sources() {
    room=$folder.$$
    mkdir -p "$room/crates" && cp "$top/crates.txt" "$top/HANDLES" "$room" || exit 70
    for crate in "$top"/crates/*; do
        copy=$room/crates/${crate##*/}
        mkdir "$copy" && cp -R "$crate/src" "$crate/specs" "$crate/proofs" "$copy" || exit 70
    done
    chmod -R u+w "$room" && mv "$room" "$folder" || exit 70
}

# Finds rt, and asks of which kit it is.
find_rt() {
    for rt in ${RATTLE_KIT:+"$RATTLE_KIT/bin/rt"} "$(command -v rt)"; do
        found=$("$rt" version 2>/dev/null)
        case $found in
        rattle-kit-*) return ;;
        esac
    done
    give_up "the program has to be built, and rt of $kit, which builds it, is neither in \$RATTLE_KIT/bin nor on PATH"
}

# Writes how many crates have a library that is proved.
count_proved() {
    for stamp in "$folder"/crates/*/out/rlib/stamp; do
        case $stamp in
        *_tests/out/*) ;;
        *) [ ! -e "$stamp" ] || echo "$stamp" ;;
        esac
    done | wc -l
}

# Writes one line anew each second while the build runs: its time and, where all that is proved still holds, the crates proved.
show_progress() {
    crates=$(grep -v -c -e '^#' -e '_tests:' "$folder/crates.txt")
    # shellcheck disable=SC2012 # the names of crates are words
    oldest=$(ls -t "$folder"/crates/*/out/rlib/stamp 2>/dev/null | tail -n 1)
    [ -n "$oldest" ] && [ -n "$(newer_source "$oldest")" ] && crates=
    begun=$(date +%s)
    while kill -0 "$build" 2>/dev/null; do
        seconds=$(($(date +%s) - begun))
        printf '\rlabsys: %d:%02d' $((seconds / 60)) $((seconds % 60)) >&2
        [ -z "$crates" ] || printf ', %d of %d crates are proved' "$(count_proved)" "$crates" >&2
        sleep 1
    done
    printf '\n' >&2
}

# Builds the program, and plays an example with it. The mark gets the time of the begin, so what changes during the build is newer.
build() {
    report "building the program, which proves each crate first"
    report "where nothing is proved yet, this takes about an hour on four processors; stopped, it goes on at the next use"
    report "it takes rt of $kit, from \$RATTLE_KIT/bin or PATH, and has found $rt of ${found%% *}"
    [ "$folder" = "$top" ] || report "the checkout can't be written, so the program is built in $folder"
    room=$(mktemp -d) || exit 70
    : >"$room/begun"
    (cd "$folder/crates/labsys" && exec "$rt" run -- play /dev/null <"$top/examples/read_by_capability.txt") >"$room/log" 2>&1 &
    build=$!
    [ ! -t 2 ] || show_progress
    if ! wait "$build"; then
        cat "$room/log" >&2
        rm -rf "$room"
        give_up "the build failed"
    fi
    mv "$room/begun" "$mark"
    rm -rf "$room"
}

fill_descriptors
for signal in HUP INT TERM; do
    # shellcheck disable=SC2064 # the name of this signal
    trap "stop $signal" "$signal"
done
may_build || use_folder "$(cache_folder)"
if is_old; then
    find_rt
    [ -d "$folder" ] || copy_sources
    build
    # a copy is built once
    [ "$folder" = "$top" ] || rm -rf "$folder"/crates/*/out/incremental "$folder"/crates/*/out/rlib
fi
trap - HUP INT TERM
