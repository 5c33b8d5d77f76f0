#!/usr/bin/env bash
# Times `pac list` on descriptions of 1,000, 10,000 and 100,000 peripherals that are derived from one, in a chain, or
# each second one from its neighbour, beside the same description written out, of 32 MB: the microseconds for each
# element of both, their ratio, and the peak memory as a multiple of the description that is written out.
top="$(cd "$(dirname "$0")/.." && pwd)" || exit 2
program="$top/crates/pac_main/out/pac_main"
[ -x "$program" ] || { echo "build the program first: $top/pac list $top/examples/one_register.svd" >&2; exit 2; }
. "$top/bench/timing.sh"
needs python3

printf '%9s %11s %9s %8s %8s %10s %10s %6s %7s %7s\n' shape peripherals elements MB 'of MB' 'us each' 'of us' ratio memory 'of'
for shape in one chain neighbour; do
for peripherals in 1000 10000 100000; do
    elements="$("$top/bench/derived_description" "$shape" "$peripherals" 32 "$folder/derived.svd" "$folder/written.svd")" || exit 1
    read -r derived_time derived_memory < <(best "$program" list "$folder/derived.svd")
    cp "$folder/out" "$folder/derived.txt"
    read -r written_time written_memory < <(best "$program" list "$folder/written.svd")
    cmp -s "$folder/out" "$folder/derived.txt" || { echo "$shape, $peripherals: the listings differ" >&2; exit 1; }
    awk -v s="$shape" -v p="$peripherals" -v e="$elements" -v d="$derived_time" -v w="$written_time" -v m="$derived_memory" -v k="$written_memory" \
        -v a="$(stat -c %s "$folder/derived.svd")" -v b="$(stat -c %s "$folder/written.svd")" \
        'BEGIN { printf "%9s %11d %9d %8.1f %8.1f %10.2f %10.2f %6.2f %7.1f %7.1f\n", s, p, e, a / 1e6, b / 1e6, d * 1e6 / e, w * 1e6 / e, d / w, m * 1024 / b, k * 1024 / b }'
done
done
