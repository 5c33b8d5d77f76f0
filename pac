#!/usr/bin/env bash
# Runs the program `pac`. Where it isn't built, or a source of it is newer than it, it is proved and built first,
# with a line for each crate as it is proved.
# Statuses 0 to 11 are the program's. 70: the build failed. 127: `rt` isn't there. 129, 130, 143: broken off.
top="$(dirname "$(readlink -f "${BASH_SOURCE[0]}")")" || exit 70
program="$top/crates/pac_main/out/pac_main"
declare -A deps=()  # a crate to what it names in crates.txt
declare -A below=() # the crates of this repository that the program is made of, its own among them
declare -A ready=() # those of them that are proved
folder=''           # the build's own files: `began`, `said`, which is what `rt` says of the crate in hand, and `room`, for its files
builder=''          # the process of `rt`

say() { echo "pac: $*" >&2; }

# collect SET CRATE: puts the crate, and what it stands on, into the set.
collect() {
    local -n into=$1
    local dep
    [ -n "${into[$2]-}" ] && return
    into[$2]=1
    for dep in ${deps[$2]}; do
        [ -n "${deps[$dep]+named}" ] && collect "$1" "$dep"
    done
}

read_crates() {
    local name rest
    while IFS=: read -r name rest; do
        deps[${name%% *}]="$rest "
    done < <(sed -n 's/#.*//; /:/p' "$top/crates.txt")
    collect below pac_main
}

# Prints a source that is newer than the program, if one is. A folder is newer where a file of it came, went or
# got another name.
newer_source() {
    local crate parts=()
    for crate in "${!below[@]}"; do
        parts+=("$top/crates/$crate"/{src,specs,proofs})
    done
    find "$top/crates.txt" "${parts[@]}" -newer "$program" \
        \( -type d -o -name '*.rt' -o -name '*.antt' -o -name crates.txt \) -print -quit 2>/dev/null
}

# build WHY
build() {
    local line crate=''
    command -v rt >/dev/null || {
        say "$1, and the command rt, which proves and builds it, isn't there."
        say "rt is bin/rt of the Rattle kit (rattle-kit-13f). Unpack the kit and put its folder bin into PATH, as in"
        say "    PATH=/opt/rattle/bin:\$PATH ./pac list examples/one_register.svd"
        exit 127
    }
    trap clean_up EXIT
    trap 'exit 129' HUP
    trap 'exit 130' INT
    trap 'exit 143' TERM
    folder="$(mktemp -d)" && mkdir "$folder/room" && touch "$folder/began" "$folder/said" || exit 70
    say "$1: proving and building it, ${#below[@]} crates; from nothing about an hour on four processors"
    say "after a quick pass over all of them comes a line for each as it is proved"
    exec 3< <(cd "$top/crates/pac_main" && TMPDIR="$folder/room" exec rt run -- list data/one_register.svd 2>&1 </dev/null)
    builder=$!
    while IFS= read -r line <&3; do
        echo "$line" >>"$folder/said"
        case $line in
            'rt: waiting '*) say "${line#rt: }" ;;
            'crate '*': modules '*) crate=${line#crate } crate=${crate%%:*} ;;
            'logic=proved '*) is_proved "$crate" ;;
        esac
    done
    if ! wait "$builder"; then
        builder=''
        grep -vE ': proved$|^(by-macro:|crate|library|logic|statements) |^only=0 ' "$folder/said" >&2
        say "the build failed, as the lines above say"
        exit 70
    fi
    builder=''
    # A source that changed during the build is newer than the program.
    touch -r "$folder/began" "$program"
    exec 3<&-
    clean_up
    trap - EXIT HUP INT TERM
}

# is_proved CRATE
is_proved() {
    local left seconds=$SECONDS
    collect ready "$1"
    left=$((${#below[@]} - ${#ready[@]}))
    say "$1 is proved, $left of ${#below[@]} crates left, $((seconds / 60)).$((seconds % 60 / 6)) minutes so far"
    : >"$folder/said"
}

# What `rt` has started ends with it.
clean_up() {
    [ -n "$builder" ] && kill "$builder" 2>/dev/null && wait "$builder"
    [ -n "$folder" ] && rm -rf "$folder"
}

read_crates
if [ ! -x "$program" ]; then
    build 'the program is not built yet'
else
    newer="$(newer_source)"
    [ -n "$newer" ] && build "${newer#"$top/"} is newer than the program"
fi
exec "$program" "$@"
