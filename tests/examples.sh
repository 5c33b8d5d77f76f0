#!/usr/bin/env bash
# The checks that need the built program: each description under examples/ that has a listing or a crate text beside
# it is listed or printed so, with the patch of its name where there is one, each script there makes its events, real
# files and outputs that fail are told so, and `./pac` works through a symbolic link. Says nothing where all hold, and
# ends with 1 where one doesn't.
top="$(cd "$(dirname "$0")/.." && pwd)" || exit 1
program="$top/crates/pac_main/out/pac_main"
failed=0

fail() {
    echo "tests/examples.sh: $*" >&2
    failed=1
}

[ -x "$program" ] || { fail "$program isn't built"; exit 1; }
folder="$(mktemp -d)" || exit 1
trap 'rm -rf "$folder"' EXIT

# patch_of DESCRIPTION: the words that name the patch which stands beside it, in $options.
patch_of() {
    options=()
    [ ! -f "${1%.svd}.yaml" ] || options=(--patch "${1%.svd}.yaml")
}

listed=0
for listing in "$top"/examples/*.txt; do
    example="examples/$(basename "$listing" .txt).svd"
    patch_of "$top/$example"
    "$program" list "$top/$example" "${options[@]}" >"$folder/out" 2>"$folder/err"
    status=$?
    [ "$status" -eq 0 ] || fail "$example: status $status"
    diff "$listing" "$folder/out" >&2 || fail "$example: its listing differs"
    [ -s "$folder/err" ] && fail "$example: $(cat "$folder/err")"
    listed=$((listed + 1))
done
[ "$listed" -gt 0 ] || fail "no listing stands under examples/"

generated=0
for text in "$top"/examples/*.rs; do
    example="examples/$(basename "$text" .rs).svd"
    patch_of "$top/$example"
    "$program" generate "$top/$example" "${options[@]}" >"$folder/out" 2>"$folder/err"
    status=$?
    [ "$status" -eq 0 ] || fail "$example: status $status"
    diff "$text" "$folder/out" >&2 || fail "$example: its crate text differs"
    [ -s "$folder/err" ] && fail "$example: $(cat "$folder/err")"
    generated=$((generated + 1))
done
[ "$generated" -gt 0 ] || fail "no crate text stands under examples/"

# prints EVENTS WHAT WORD..: the words run the script of these events over a memory bus.
prints() {
    local events=$1 what=$2
    shift 2
    "$program" "$@" --bus memory >"$folder/out" 2>"$folder/err"
    status=$?
    [ "$status" -eq 0 ] || fail "$what: status $status"
    diff "$events" "$folder/out" >&2 || fail "$what: its events differ"
    [ -s "$folder/err" ] && fail "$what: $(cat "$folder/err")"
}

ran=0
for events in "$top"/examples/*.events; do
    example="$top/examples/$(basename "$events" .events)"
    prints "$events" "exec of $example.script" exec "$example.rs" "$example.script"
    patch_of "$example.svd"
    prints "$events" "run of $example.script" run "$example.svd" "$example.script" "${options[@]}"
    ran=$((ran + 1))
done
[ "$ran" -gt 0 ] || fail "no events stand under examples/"

# Each of a thousand registers is written over the memory bus.
{
    echo '<device><name>D</name><peripherals><peripheral><name>T</name><baseAddress>0</baseAddress><registers>'
    for ((n = 0; n < 1000; n++)); do echo "<register><name>R$n</name><addressOffset>$((4 * n))</addressOffset></register>"; done
    echo '</registers></peripheral></peripherals></device>'
} >"$folder/many.svd"
for ((n = 0; n < 1000; n++)); do echo "T.r$n().write(|w| w.bits($n));"; done >"$folder/many.script"
for ((n = 0; n < 1000; n++)); do printf 'write 0x%08x 32 0x%08x\n' $((4 * n)) "$n"; done >"$folder/many.events"
prints "$folder/many.events" 'run of a thousand registers' run "$folder/many.svd" "$folder/many.script"

# The largest sample, each time alike: its words are worked out beside it, A by its kind and B as 1.
awk 'BEGIN {
    for (j = 0; j < 65536; j++) {
        reset = 40503 * j % 4294967296
        a = reset % 256
        b = int(reset / 256) % 2 ^ (2 + j % 7)
        sum += reset + (j % 3 == 0 ? 0 : j % 3 == 1 ? -a : 255 - a) + 256 * (1 - b)
    }
    printf "registers 65536\nreads 65536\nwrites 65536\nsum %.0f\n", sum
}' >"$folder/sum"
for _ in 1 2; do
    "$program" sample 0 65536 >"$folder/out" 2>"$folder/err" || fail "sample 0 65536: $(cat "$folder/err")"
    diff "$folder/sum" "$folder/out" >&2 || fail 'sample 0 65536: another sum'
done

# fails STATUS LINE WHAT: the last run's status and line, and that nothing went to standard output.
fails() {
    [ "$status" -eq "$1" ] || fail "$3: status $status instead of $1"
    grep -q -- "^pac: $2" "$folder/err" || fail "$3: $(cat "$folder/err")"
    [ -s "$folder/out" ] && fail "$3: something went to standard output"
}

"$program" list "$folder/none.svd" >"$folder/out" 2>"$folder/err"
status=$?
fails 3 "cannot read $folder/none.svd$" 'a file that is not there'
"$program" list "$folder" >"$folder/out" 2>"$folder/err"
status=$?
fails 3 "cannot read $folder$" 'a folder'
: >"$folder/out"
"$program" list "$top/examples/timer.svd" >/dev/full 2>"$folder/err"
status=$?
fails 4 'cannot write$' 'an output that is full'

# The index behind the last member of an array of fields, and the sixteenth of sixteen.
for member in 16 15; do
    echo "GPIOA.moder().modify(|_, w| w.mode($member).output());" >"$folder/$member.script"
    "$program" exec "$top/examples/gallery/gpio.rs" "$folder/$member.script" >"$folder/out" 2>"$folder/err"
    status=$?
    [ "$member" -eq 15 ] || fails 10 'script line 1: index out of range$' 'an index behind the last'
done
[ "$status" -eq 0 ] || fail "the last of an array: status $status"

# What a patch mends is refused without it, and a patch that is no block text at all.
"$program" list "$top/examples/capture.svd" >"$folder/out" 2>"$folder/err"
status=$?
fails 8 'TIM8.TIM_CR2: address is not a multiple of the width$' 'a register that a patch mends'
"$program" list "$top/examples/timer.svd" --patch "$top/examples/timer.svd" >"$folder/out" 2>"$folder/err"
status=$?
fails 7 'patch line 1: syntax$' 'a patch that is no block text'

# No words are refused with the usage, through a link and from another folder too.
ln -s "$top/pac" "$folder/pac"
(cd "$folder" && ./pac) >"$folder/out" 2>"$folder/err"
status=$?
fails 2 'usage: ' './pac through a link'
exit "$failed"
