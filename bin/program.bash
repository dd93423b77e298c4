# What bin/aea, bin/prove, bin/install, bin/package and .ci/run share: of which sources a program is, how it is made, and where it
# is kept. Not run by itself; who reads it has set `self`, the path of a script of bin/.
#
# Programs stand in out/ at the top: `aea`, proved, and `trial`, compiled from the same sources with no proof. Beside each
# stand `NAME.sources`, the files and folders that it was made of, and `NAME.sum`, their sum; where none of them is newer than
# the latter, none has changed, and a call costs no more than to look at their times. The program that a green gate built is kept
# in the user's cache too, in a folder with the name of that sum, so that other clones of the same sources find it.

set -u
top=${self%/bin/*}
out=$top/out
kit=/opt/rattle/KIT-ID

# Says a line on standard error.
say() {
    echo "aea: $*" >&2
}

# The crates that the program stands on, itself among them, by crates.txt: their names, one after the other.
crates_of_program() {
    local -A below=()
    local -a left=(aea)
    local line name
    while IFS= read -r line; do
        [[ $line =~ ^([a-z_0-9]+):(.*)$ ]] && below[${BASH_REMATCH[1]}]=${BASH_REMATCH[2]}
    done <"$top/crates.txt"
    while [ ${#left[@]} -gt 0 ]; do
        name=${left[0]}
        left=("${left[@]:1}")
        if [ -n "${below[$name]+there}" ]; then
            echo "$name"
            # shellcheck disable=SC2206 # the names of crates have no blanks
            left+=(${below[$name]})
            unset "below[$name]"
        fi
    done
}

# The files and folders that the program is made of, for find.
sources_of_program() {
    local name part
    for name in $(crates_of_program); do
        for part in src specs proofs; do
            if [ -e "$top/crates/$name/$part" ]; then echo "$top/crates/$name/$part"; fi
        done
    done
    for name in "$top/crates.txt" "$top/HANDLES" "$kit"; do
        if [ -e "$name" ]; then echo "$name"; fi
    done
}

# The sum of all that the program is made of; nothing, and status 1, where something of it can't be read. The files are named and
# put in order by their paths from the top, so that clones in other places have the same sum.
sum_of_sources() (
    set -o pipefail
    cd "$top" || exit 1
    mapfile -t sources < <(sources_of_program)
    sum=$(find "${sources[@]#"$top/"}" -type f -print0 | LC_ALL=C sort -z | xargs -0 sha256sum | sha256sum) && echo "${sum%% *}"
)

# The SHA-256 of the file $1.
digest_of() {
    local digest
    digest=$(sha256sum <"$1") && echo "${digest%% *}"
}

# Makes a file of out/ whose time is now, and prints its path. Who called for it removes it; what was killed before goes after a day.
mark() {
    mkdir -p "$out" && find "$out" -maxdepth 1 -name 'now.??????' -mtime +0 -delete && mktemp "$out/now.XXXXXX"
}

# Whether a source is newer than the file $1, of the files and folders that follow, or one of them is gone.
has_newer() {
    [ -n "$(find "${@:2}" -newer "$1" -print -quit 2>&1)" ]
}

# Whether something was put beside one of the sources after the time of the file $1: then there may be a source more.
has_newer_beside() {
    [ -n "$(find "${@:2}" -maxdepth 0 -newer "$1" -print -quit 2>&1)" ]
}

# Whether the program $1 is there, and of these sources. Where one is newer than the sum beside the program, the sums decide.
is_current() {
    local -a sources
    local sum now
    [ -x "$out/$1" ] && [ -s "$out/$1.sum" ] && [ -f "$out/$1.sources" ] || return 1
    mapfile -t sources <"$out/$1.sources"
    has_newer "$out/$1.sum" "${sources[@]}" || has_newer_beside "$out/$1.sum" "${sources[@]%/*}" || return 0
    now=$(mark 2>/dev/null)
    sum=$(sum_of_sources) && [ "$sum" = "$(<"$out/$1.sum")" ] || sum=
    if [ -n "$now" ] && [ -n "$sum" ]; then
        sources_of_program >"$out/$1.sources"
        touch -c -r "$now" "$out/$1.sum"
    fi
    rm -f "$now"
    [ -n "$sum" ]
}

# Takes the lock that only one build at a time has; says so where another one has it.
take_turn() {
    if ! { mkdir -p "$out" && exec 9>"$out/build.lock"; } 2>/dev/null; then
        say "the program is not built, and $out can't be written"
        return 1
    fi
    if ! flock -n 9; then
        say "waiting for another build; its log is $out/$1.log"
        flock 9
    fi
}

# Gives a copy of the file $2, with the digest $3, the place of the program $1, and the sum $4 of the sources, which are unchanged
# since the time of the file $5. All is written beside its place first. Then the old sum goes first and the new one comes last, so
# that no stop leaves a program beside a sum that is not its own; a lock keeps two that do this at once apart. Copies that a stop
# left go.
place_program() (
    new=
    exec 8>"$out/place.lock" && flock -w 60 8 || exit 1
    rm -f "$out"/copy.??????
    trap '[ -z "$new" ] || rm -f "$new"' EXIT
    new=$(mktemp "$out/copy.XXXXXX") && cp "$2" "$new" && [ "$(digest_of "$new")" = "$3" ] && chmod 755 "$new" || exit 1
    sources_of_program >"$out/$1.sources.new" && echo "$4" >"$out/$1.sum.new" && touch -r "$5" "$out/$1.sum.new" || exit 1
    sync "$new" "$out/$1.sources.new" "$out/$1.sum.new" || exit 1
    rm -f "$out/$1.sum" && mv -f "$new" "$out/$1" && mv -f "$out/$1.sources.new" "$out/$1.sources" && mv -f "$out/$1.sum.new" "$out/$1.sum"
)

# Makes the program $1 by the function $2, which leaves it in out/new; its sum is that of the sources before and after.
make() {
    local before now status=1
    now=$(mark) || return 1
    if before=$(sum_of_sources); then
        make_since "$now" "$before" "$@"
        status=$?
    fi
    rm -f "$now" "$out/new"
    return "$status"
}

# Makes the program $3 by the function $4 of the sources with the sum $2, which are unchanged since the time of the file $1.
make_since() {
    rm -f "$out/new"
    if ! "$4" >"$out/$3.log" 2>&1 </dev/null || [ ! -x "$out/new" ]; then
        say "the program could not be built; see $out/$3.log"
        return 1
    fi
    if [ "$(sum_of_sources)" != "$2" ]; then
        say "a source changed while the program was built: call again"
        return 1
    fi
    if ! place_program "$3" "$out/new" "$(digest_of "$out/new")" "$2" "$1"; then
        say "the program was built, and could not be copied to $out/$3"
        return 1
    fi
}

# The folder of the user's cache for programs that gates built; nothing, and status 1, where there is none. A path that does not
# begin with / is no cache, by the rules of XDG.
cache() {
    local home=~
    case ${XDG_CACHE_HOME:-} in
        /*) echo "$XDG_CACHE_HOME/aea" ;;
        *) [[ $home == /* ]] && echo "$home/.cache/aea" ;;
    esac
}

# Whether the file or folder $1 is this user's own, no link, and nobody else has any right to it.
is_private() {
    [ ! -L "$1" ] && [ -O "$1" ] && [[ $(stat -c %a "$1") == *00 ]]
}

# Whether the folder $1 of the cache has a program of the sources with the sum $2 that nobody else can have changed.
is_kept() {
    local name
    [ -d "$1" ] && is_private "${1%/*}" && is_private "$1" || return 1
    for name in aea aea.sum aea.sha256; do
        [ -f "$1/$name" ] && is_private "$1/$name" || return 1
    done
    [ "$(<"$1/aea.sum")" = "$2" ]
}

# Copies the program of the sources with the sum $1, which are unchanged since the time of the file $2, from the cache to out/aea.
# Its own sum is looked at in the copy. Status 1, and not a word: there is none, or it is not right, or can't be copied.
take_kept() {
    local from
    from=$(cache) && from=$from/$1 && [ -n "$1" ] && is_kept "$from" "$1" && place_program aea "$from/aea" "$(<"$from/aea.sha256")" "$1" "$2" 2>/dev/null || return 1
    say "the proved program of these sources was taken from $from, where a gate left it"
}

# The same, with the sum of the sources as they are now.
take_kept_now() {
    local sum now status
    now=$(mark 2>/dev/null) || return 1
    sum=$(sum_of_sources) && take_kept "$sum" "$now"
    status=$?
    rm -f "$now"
    return "$status"
}

# Keeps a copy of the file $1, whose digest is $2, in the cache for the sources with the sum $3. It is made whole in a folder of its
# own, which then gets its name; what a stop left of such folders goes. The ten newest programs stay.
keep_in_cache() (
    room=
    home=$(cache) && umask 077 && mkdir -p "$home" || exit 1
    is_private "$home" || { say "$home is not this user's alone" && exit 1; }
    exec 6>"$home/lock" && flock -w 60 6 || exit 1
    rm -rf "$home"/new.??????
    trap '[ -z "$room" ] || rm -rf "$room"' EXIT
    if is_kept "$home/$3" "$3" && [ "$(<"$home/$3/aea.sha256")" = "$2" ] && [ "$(digest_of "$home/$3/aea")" = "$2" ]; then
        touch "$home/$3"
    else
        room=$(mktemp -d "$home/new.XXXXXX") && cp "$1" "$room/aea" && [ "$(digest_of "$room/aea")" = "$2" ] || exit 1
        echo "$2" >"$room/aea.sha256" && echo "$3" >"$room/aea.sum" && chmod 700 "$room/aea" && sync "$room"/* || exit 1
        rm -rf "${home:?}/$3" && mv -T "$room" "$home/$3" && sync "$home" || exit 1
    fi
    say "the gate's program is kept in $home/$3"
    find "$home" -mindepth 1 -maxdepth 1 -type d -regextype egrep -regex '.*/[0-9a-f]{64}' -printf '%T@ %p\0' |
        sort -z -rn | tail -z -n +11 | cut -z -d ' ' -f 2- | xargs -0 -r rm -rf --
)

# Before a gate: prints the path of a file of out/ whose time is now, and the sum of the sources.
gate_begins() {
    local now sum
    now=$(mark) && rm -f "$out/gate.log" || return 1
    sum=$(sum_of_sources) && echo "$now $sum" && return 0
    rm -f "$now"
    return 1
}

# After a green gate that began at the time of the file $1 with the sources of the sum $2: copies the program that it built to
# out/aea and to the cache, or says why not. `rt ci` moves away what earlier runs built before it builds, gives back nothing of it
# that can be run, and leaves the program that it ran in the crate's folder. So it is the gate's own where it came there between $1
# and now, by a time that nobody can set, and no other rt works in that folder, which each of them locks. A source that is newer than $1 was changed while the
# gate ran, and may have been changed back.
gate_ended() {
    local built=$top/crates/aea/out/aea end digest
    local -a sources
    end=$(mark) || return 1
    mapfile -t sources < <(sources_of_program)
    if ! { exec 7<"$top/crates/aea" && flock -n 7; }; then
        say "the gate's program was not kept: another rt is at work in crates/aea"
    elif [ -L "$built" ] || [ ! -x "$built" ] || [ -z "$(find "$built" -type f -newercm "$1" ! -newercm "$end")" ]; then
        say "the gate's program was not kept: crates/aea/out has none that it built"
    elif [ "$(sum_of_sources)" != "$2" ] || has_newer "$1" "${sources[@]}"; then
        say "the gate's program was not kept: a source changed while the gate ran"
    elif digest=$(digest_of "$built"); then
        keep_in_cache "$built" "$digest" "$2" || say "the gate's program was not kept in the cache"
        if place_program aea "$built" "$digest" "$2" "$1"; then
            say "the gate's program is $out/aea, with the sum $digest"
        else
            say "the gate's program was not copied to $out/aea"
        fi
    fi
    rm -f "$end"
}
