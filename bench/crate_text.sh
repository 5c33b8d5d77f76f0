#!/usr/bin/env bash
# Times `pac exec` on crate texts of growing size, of both versions: with a script without statements, which is reading
# and typing the text, and with one of 65,536 statements, beside `cat` of the same bytes.
top="$(cd "$(dirname "$0")/.." && pwd)" || exit 2
program="$top/crates/pac_main/out/pac_main"
[ -x "$program" ] || { echo "build the program first: $top/pac list $top/examples/one_register.svd" >&2; exit 2; }
. "$top/bench/timing.sh"
needs python3
: >"$folder/none.script"
for n in $(seq 0 65535); do
    echo "P0.r$((n % 32))().modify(|_, w| w.f1().bits($((n % 8))));"
done >"$folder/many.script"

printf '%7s %5s %9s %9s %9s %12s\n' version MB 'typed s' 'run s' 'cat s' 'memory/text'
for version in 1 2; do
for megabytes in 1 10 60; do
    "$top/bench/crate_text" "$version" "$megabytes" "$folder/crate.rs" || exit 1
    read -r typed_time memory < <(best "$program" exec "$folder/crate.rs" "$folder/none.script")
    read -r run_time _ < <(best "$program" exec "$folder/crate.rs" "$folder/many.script")
    [ "$(wc -l <"$folder/out")" -eq 131072 ] || { echo "not all accesses were printed" >&2; exit 1; }
    read -r cat_time _ < <(best cat "$folder/crate.rs")
    bytes="$(stat -c %s "$folder/crate.rs")"
    awk -v v="$version" -v m="$megabytes" -v t="$typed_time" -v r="$run_time" -v c="$cat_time" -v k="$memory" -v b="$bytes" \
        'BEGIN { printf "%7d %5d %9.2f %9.2f %9.2f %12.1f\n", v, m, t, r, c, k * 1024 / b }'
done
done
