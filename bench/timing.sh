# Sourced by the timings of this folder: `needs TOOL..` ends where a tool is missing, `$folder` is a folder of
# the run's own, and `best COMMAND..` prints the least SECONDS and the largest KIB of five runs, whose input is
# `$input` and whose output goes to `$folder/out`.
needs() {
    for tool in "$@"; do
        command -v "$tool" >/dev/null || { echo "$tool is missing" >&2; exit 2; }
    done
}

needs /usr/bin/time
folder="$(mktemp -d)" || exit 2
trap 'rm -rf "$folder"' EXIT
input=/dev/null

best() {
    for _ in 1 2 3 4 5; do
        /usr/bin/time -f '%e %M' -o "$folder/time" "$@" <"$input" >"$folder/out" || { echo "failed: $*" >&2; exit 1; }
        cat "$folder/time"
    done | sort -n | awk 'NR == 1 { best = $1 } { if ($2 > most) most = $2 } END { print best, most }'
}

# least STATUS FAULT COMMAND..: the least seconds of three runs that end with that status and a fault that begins so
least() {
    local status=$1 fault=$2
    shift 2
    for _ in 1 2 3; do
        /usr/bin/time -q -f %e -o "$folder/time" "$@" >"$folder/out" 2>"$folder/err"
        [ $? -eq "$status" ] && [[ "$(cat "$folder/err")" == "$fault"* ]] || { echo "failed: $*: $(cat "$folder/err")" >&2; exit 1; }
        cat "$folder/time"
    done | sort -n | head -n 1
}

# apart: the seconds of reading $folder/crate.rs, and of reading and typing it, by the texts of refused_texts in that folder
apart() {
    read_time="$(least 9 'pac: crate text: syntax' "$program" exec "$folder/broken.rs" "$folder/none.script")" || return
    typed_time="$(least 9 'pac: crate text: block too large' "$program" exec "$folder/past.rs" "$folder/none.script")" || return
}
