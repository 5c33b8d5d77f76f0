#!/usr/bin/env bash
# Times `pac list` with patches of 1,000 and 10,000 commands of each kind, each in a register of its own, on descriptions of 8
# and 32 MB, beside `pac list` of the same description without a patch. Then a patch of 2,000 commands within one pattern of 1 MB:
# the memory that it takes beyond the list without it, as a multiple of the patch.
top="$(cd "$(dirname "$0")/.." && pwd)" || exit 2
program="$top/crates/pac_main/out/pac_main"
[ -x "$program" ] || { echo "build the program first: $top/pac list $top/examples/one_register.svd" >&2; exit 2; }
. "$top/bench/timing.sh"
needs python3

printf '%6s %8s %8s %9s %9s %9s %14s\n' MB kind commands 'list s' 'patched s' ratio 'memory/list'
for registers in 14592 58368; do
    "$top/bench/dense_description" "$registers" "$folder/device.svd"
    read -r list_time list_memory < <(best "$program" list "$folder/device.svd")
    for kind in _delete _copy _modify _add _strip _array; do
        for count in 1000 10000; do
            "$top/bench/patch_text" "$kind" "$count" "$folder/patch.yaml"
            read -r time memory < <(best "$program" list "$folder/device.svd" --patch "$folder/patch.yaml")
            awk -v b="$(stat -c %s "$folder/device.svd")" -v k="$kind" -v n="$count" -v l="$list_time" -v t="$time" \
                -v m="$memory" -v j="$list_memory" \
                'BEGIN { printf "%6.1f %8s %8d %9.2f %9.2f %9.2f %14.2f\n", b / 1e6, k, n, l, t, t / l, m / j }'
        done
    done
done

"$top/bench/dense_description" 64 "$folder/device.svd"
# The first of so many patterns leads to a peripheral of the description.
python3 - "$folder/patch.yaml" <<'PYTHON'
import sys
with open(sys.argv[1], "w", encoding="utf-8") as out:
    out.write("\"P0" + ",Q" * 500_000 + "\":\n  R0:\n    _add:\n")
    for command in range(2000):
        out.write(f"      N{command}:\n        bitOffset: 24\n        bitWidth: 1\n")
PYTHON
read -r list_time list_memory < <(best "$program" list "$folder/device.svd")
read -r time memory < <(best "$program" list "$folder/device.svd" --patch "$folder/patch.yaml")
awk -v p="$(stat -c %s "$folder/patch.yaml")" -v t="$time" -v m="$memory" -v j="$list_memory" \
    'BEGIN { printf "\n2,000 commands within a pattern of 1 MB: a patch of %.1f MB, %.2f s, memory beyond the list %.1f times the patch\n", p / 1e6, t, (m - j) * 1024 / p }'
