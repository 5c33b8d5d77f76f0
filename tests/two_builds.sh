#!/usr/bin/env bash
# Whether the program answers alike as LLVM builds it and as Rattle's own compiler does: every command on every description, patch,
# script and crate text under examples/, accepted and refused. It needs both builds, which `rt ci` leaves. Says nothing where all are
# alike, and ends with 1 where one isn't.
top="$(cd "$(dirname "$0")/.." && pwd)" || exit 1
builds=("$top/crates/pac_main/out/pac_main" "$top/crates/pac_main/out/pac_main.by-rattle")
failed=0
answered=0

fail() {
    echo "tests/two_builds.sh: $*" >&2
    failed=1
}

for build in "${builds[@]}"; do
    [ -x "$build" ] || { fail "$build isn't built"; exit 1; }
done
folder="$(mktemp -d)" || exit 1
trap 'rm -rf "$folder"' EXIT

# alike WORD..: both builds end with the same status, output and line
alike() {
    local number status
    for number in 0 1; do
        "${builds[number]}" "$@" >"$folder/out$number" 2>"$folder/err$number"
        status=$?
        echo "$status" >"$folder/status$number"
        [ "$status" -le 11 ] || fail "status $status of ${builds[number]} $*"
    done
    for part in status out err; do
        cmp -s "$folder/${part}0" "$folder/${part}1" || fail "the $part of both differs: $*"
    done
    answered=$((answered + 1))
}

cd "$top/examples" || exit 1
for description in *.svd */*.svd; do
    name="${description%.svd}"
    patches=('')
    [ ! -f "$name.yaml" ] || patches+=("--patch=$name.yaml")
    for patch in "${patches[@]}"; do
        alike list "$description" $patch
        alike list "$description" --strict $patch
        alike generate "$description" $patch
        for bus in zero memory; do
            [ ! -f "$name.script" ] || alike run "$description" "$name.script" --bus "$bus" $patch
        done
    done
    # no script, no crate text, no patch
    alike run "$description" "$description"
    alike exec "$description" "$description"
    alike list "$description" --patch "$description"
done
for text in *.rs */*.rs; do
    for bus in zero memory; do
        [ ! -f "${text%.rs}.script" ] || alike exec "$text" "${text%.rs}.script" --bus "$bus"
    done
    alike exec "$text" "$text"
    alike list "$text"
done
alike
alike list none.svd
alike list .
alike sample 5 2
alike sample 0 0
alike sample 0x12345678 4096
[ "$answered" -gt 50 ] || fail "only $answered calls were compared"
exit "$failed"
