#!/usr/bin/env bash
# Times `pac generate` beside `pac list` on descriptions of growing size, as vendors write them, and on one of 65,536 registers
# with six fields each; and beside `cat` of the text that is printed: what generating takes beyond listing is compared with
# that. `run` has 65,536 statements against the same description, over a memory.
top="$(cd "$(dirname "$0")/.." && pwd)" || exit 2
program="$top/crates/pac_main/out/pac_main"
[ -x "$program" ] || { echo "build the program first: $top/pac list $top/examples/one_register.svd" >&2; exit 2; }
. "$top/bench/timing.sh"
needs python3

printf '%9s %6s %8s %11s %7s %7s %11s %12s %8s %6s\n' description MB 'text MB' 'generate s' 'list s' 'cat s' 'beyond/cat' 'memory/file' 'of list' 'run s'
for made in 1 8 32 registers; do
    if [ "$made" = registers ]; then
        "$top/bench/dense_description" 65536 "$folder/device.svd"
    else
        "$top/bench/description" "$made" "$folder/device.svd"
    fi
    read -r list_time list_memory < <(best "$program" list "$folder/device.svd")
    "$top/bench/calls" "$folder/out" >"$folder/many.script" || exit 1
    read -r pac_time pac_memory < <(best "$program" generate "$folder/device.svd")
    cp "$folder/out" "$folder/text"
    # Printing the text once takes about as long as a clock's tick: it is printed ten times.
    read -r ten_times _ < <(best cat "$folder"/text{,,,,,,,,,})
    read -r run_time _ < <(best "$program" run "$folder/device.svd" "$folder/many.script" --bus memory)
    awk -v d="$made" -v t="$(stat -c %s "$folder/text")" -v p="$pac_time" -v l="$list_time" -v c="$ten_times" -v r="$run_time" \
        -v k="$pac_memory" -v j="$list_memory" -v b="$(stat -c %s "$folder/device.svd")" \
        'BEGIN { c /= 10; printf "%9s %6.1f %8.1f %11.2f %7.2f %7.3f %11s %12.1f %8.1f %6.2f\n", d, b / 1e6, t / 1e6, p, l, c,
            (c > 0 ? sprintf("%.1f", (p - l) / c) : "-"), k * 1024 / b, j * 1024 / b, r }'
done
