#!/usr/bin/env bash
# Times `pac list --strict` beside `pac list` on descriptions with as many registers as there may be.
top="$(cd "$(dirname "$0")/.." && pwd)" || exit 2
program="$top/crates/pac_main/out/pac_main"
[ -x "$program" ] || { echo "build the program first: $top/pac list $top/examples/one_register.svd" >&2; exit 2; }
. "$top/bench/timing.sh"
needs python3

# Writes a description of the kind to $folder/device.svd.
make() {
    python3 - "$1" "$folder/device.svd" <<'PYTHON'
import sys
kind, name = sys.argv[1], sys.argv[2]

def register(number, offset, content=''):
    return f'<register><name>R{number}</name>{content}<addressOffset>{offset}</addressOffset>'

def closed(text, fields=''):
    return text + (f'<fields>{fields}</fields>' if fields else '') + '</register>'

LEVELS = '<field><name>LV[%s]</name><dim>4</dim><dimIncrement>8</dimIncrement><bitOffset>0</bitOffset><bitWidth>2</bitWidth></field>'
GROUP = '<alternateGroup>G</alternateGroup>'

registers = {
    '262,144 registers': lambda: (closed(register(n, 4 * n)) for n in range(262_144)),
    '65,536 at one address': lambda: (closed(register(n, 0, GROUP)) for n in range(65_536)),
    '65,536 field arrays': lambda: (closed(register(n, 4 * n), LEVELS) for n in range(65_536)),
}[kind]()
with open(name, 'w') as out:
    out.write('<device><name>D</name><peripherals><peripheral><name>T</name><baseAddress>0</baseAddress><registers>')
    out.writelines(registers)
    out.write('</registers></peripheral></peripherals></device>')
PYTHON
}

printf '%-24s %6s %9s %9s %6s\n' description MB 'strict s' 'list s' ratio
for kind in '262,144 registers' '65,536 at one address' '65,536 field arrays'; do
    make "$kind"
    read -r strict_time _ < <(best "$program" list --strict "$folder/device.svd")
    read -r list_time _ < <(best "$program" list "$folder/device.svd")
    bytes="$(stat -c %s "$folder/device.svd")"
    awk -v k="$kind" -v s="$strict_time" -v l="$list_time" -v b="$bytes" \
        'BEGIN { printf "%-24s %6.1f %9.2f %9.2f %6.2f\n", k, b / 1e6, s, l, (l > 0 ? s / l : 0) }'
done
