#!/usr/bin/env bash
# Times `pac list` beside `xmllint --noout --huge` and beside expat with empty handlers (python3's xml.parsers.expat), on
# descriptions of growing size: as vendors write them, and of registers without descriptions, where elements are dense.
top="$(cd "$(dirname "$0")/.." && pwd)" || exit 2
program="$top/crates/pac_main/out/pac_main"
[ -x "$program" ] || { echo "build the program first: $top/pac list $top/examples/one_register.svd" >&2; exit 2; }
. "$top/bench/timing.sh"
needs xmllint python3

cat >"$folder/expat.py" <<'PYTHON'
import sys, xml.parsers.expat
parser = xml.parsers.expat.ParserCreate()
parser.StartElementHandler = lambda name, attributes: None
parser.EndElementHandler = lambda name: None
parser.CharacterDataHandler = lambda said: None
with open(sys.argv[1], "rb") as file:
    parser.ParseFile(file)
PYTHON

printf '%7s %6s %8s %10s %9s %8s %8s %12s\n' kind MB 'pac s' 'xmllint s' 'expat s' /xmllint /expat 'memory/file'
for kind in vendor dense; do
    for megabytes in 1 8 32 64; do
        case $kind in
            vendor) "$top/bench/description" "$megabytes" "$folder/device.svd" ;;
            dense) "$top/bench/dense_description" $((1800 * megabytes)) "$folder/device.svd" ;;
        esac
        read -r pac_time pac_memory < <(best "$program" list "$folder/device.svd")
        read -r peer_time _ < <(best xmllint --noout --huge "$folder/device.svd")
        read -r expat_time _ < <(best python3 "$folder/expat.py" "$folder/device.svd")
        awk -v t="$kind" -v p="$pac_time" -v x="$peer_time" -v e="$expat_time" -v k="$pac_memory" -v b="$(stat -c %s "$folder/device.svd")" \
            'BEGIN { printf "%7s %6.1f %8.2f %10.2f %9.2f %8.2f %8.2f %12.1f\n", t, b / 1e6, p, x, e, (x > 0 ? p / x : 0), p / e, k * 1024 / b }'
    done
done
