#!/usr/bin/env bash
# Whether rustc agrees with the crate texts: the gallery's texts compile with support/generic.rs without a warning, in the
# editions 2021 and 2024, and the calls of its scripts make on the recording bus the accesses that the descriptions' registers
# give; and the support file's own tests pass. The gallery's texts and events are compared too, where no rustc is there as well.
# Says nothing where all holds, one line where no rustc is there, and ends with 1 where something doesn't hold.
#
#     tests/rustc_agrees.sh random COUNT [SEED]
#
# does the same with so many descriptions and scripts made at random. Where the program is built, `exec` and `run` must print the
# same events; PAC_COMMANDS says which of the two are asked.
top="$(cd "$(dirname "$0")/.." && pwd)" || exit 1
program="$top/crates/pac_main/out/pac_main"
export PYTHONDONTWRITEBYTECODE=1
agree=(python3 "$top/tests/witness/agree.py")
[ -x "$program" ] && agree+=(--program "$program")
for command in ${PAC_COMMANDS-exec run}; do
    agree+=(--command "$command")
done

if [ "$1" = random ]; then
    exec "${agree[@]}" random "${2:-500}" "${3:-1}"
fi
python3 "$top/tests/witness/rows.py" || exit 1
"${agree[@]}" gallery "$top/examples/gallery" || exit 1
command -v rustc >/dev/null || exit 0

failed=0
"${agree[@]}" --edition 2024 gallery "$top/examples/gallery" || failed=1
"${agree[@]}" known || failed=1
folder="$(mktemp -d)" || exit 1
trap 'rm -rf "$folder"' EXIT
for edition in 2021 2024; do
    rustc --test --edition "$edition" -D warnings -o "$folder/tests" "$top/support/tests.rs" &&
        "$folder/tests" --quiet >"$folder/out" 2>&1 || { cat "$folder/out" >&2; failed=1; }
done
exit "$failed"
