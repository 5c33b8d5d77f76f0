#!/usr/bin/env bash
# Times the reading of crate texts, their typing, and the typing and the running of 65,536 statements against four crates:
# a text of 80 MB, 262,144 registers, a block of 100,000 accessors, and a register of 64 fields with 1,000 values each.
# Reading and typing are taken apart by texts that are refused (see refused_texts). Typing a script is what one whose last
# line alone doesn't type takes beyond its crate, with what is looked up in the crate made for it; running is the rest.
top="$(cd "$(dirname "$0")/.." && pwd)" || exit 1
program="$top/crates/pac_main/out/pac_main"
[ -x "$program" ] || { echo "build the program first: $top/pac list $top/examples/one_register.svd" >&2; exit 2; }
. "$top/bench/timing.sh"
needs python3

: >"$folder/none.script"
printf '%-10s %7s %8s %8s %10s %9s %7s\n' crate MB 'read s' 'type s' 'type/read' 'script s' 'run s'
for made in 'text 80' 'registers 262144' 'accessors 100000' 'values 1000'; do
    read -r kind size <<<"$made"
    if [ "$kind" = text ]; then
        "$top/bench/crate_text" 1 "$size" "$folder/crate.rs" || exit 1
        for n in $(seq 0 65535); do
            echo "P0.r$((n % 32))().modify(|_, w| w.f1().bits($((n % 8))));"
        done >"$folder/many.script"
    else
        "$top/bench/typing_text" "$kind" "$size" "$folder/crate.rs" "$folder/many.script" || exit 1
    fi
    { sed '$d' "$folder/many.script"; echo 'P0.nowhere().reset();'; } >"$folder/fault.script"
    "$top/bench/refused_texts" "$folder/crate.rs" "$folder" || exit 1
    apart || exit 1
    fault="$(least 10 'pac: script line 65536: ' "$program" exec "$folder/crate.rs" "$folder/fault.script")" || exit 1
    whole="$(least 0 '' "$program" exec "$folder/crate.rs" "$folder/many.script")" || exit 1
    awk -v k="$kind" -v m="$(stat -c %s "$folder/crate.rs")" -v r="$read_time" -v p="$typed_time" -v f="$fault" -v w="$whole" \
        'BEGIN { t = p - r; printf "%-10s %7.1f %8.2f %8.2f %10.2f %9.2f %7.2f\n", k, m / 1e6, r, t, t / r, f - p, w - f }'
done
