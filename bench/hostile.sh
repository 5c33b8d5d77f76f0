#!/usr/bin/env bash
# Times `pac list` on files that are made to be hard, and `pac exec` on such crate texts:
# for each the size, the least seconds and the most memory of three runs, the status, and the line that it tells.
top="$(cd "$(dirname "$0")/.." && pwd)" || exit 2
program="$top/crates/pac_main/out/pac_main"
[ -x "$program" ] || { echo "build the program first: $top/pac list $top/examples/one_register.svd" >&2; exit 2; }
. "$top/bench/timing.sh"
needs python3

# Writes a file of the kind to $folder/hostile.
make() {
    python3 - "$1" "$folder/hostile" <<'PYTHON'
import sys
kind, name = sys.argv[1], sys.argv[2]
LIMIT = 67_108_864
ONE = '<peripheral><name>T</name><baseAddress>0</baseAddress></peripheral>'

def device(peripherals, attributes=''):
    return f'<device{attributes}><name>D</name><peripherals>{peripherals}</peripherals></device>'

def peripheral(registers):
    return device(f'<peripheral><name>T</name><baseAddress>0</baseAddress><registers>{registers}</registers></peripheral>')

def register(content):
    return peripheral(f'<register><name>R</name><addressOffset>0</addressOffset><fields>{content}</fields></register>')

def values(count):
    items = ''.join(f'<enumeratedValue><name>V{n}</name><value>{n}</value></enumeratedValue>' for n in range(count))
    return register(f'<field><name>F</name><bitOffset>0</bitOffset><bitWidth>32</bitWidth><enumeratedValues>{items}</enumeratedValues></field>')

def array_of_arrays():
    inner = '<register><name>R[%s]</name><addressOffset>0</addressOffset><dim>65536</dim><dimIncrement>4</dimIncrement></register>'
    return peripheral(f'<cluster><name>C[%s]</name><addressOffset>0</addressOffset><dim>5</dim><dimIncrement>262144</dimIncrement>{inner}</cluster>')

def lists():
    return peripheral(''.join(f'<register><name>{letter}%s</name><addressOffset>{n * 262144}</addressOffset><dim>65536</dim><dimIncrement>4</dimIncrement></register>' for n, letter in enumerate('ABCD')))

def siblings(count):
    return device(''.join(f'<peripheral><name>P{n}</name><baseAddress>0</baseAddress></peripheral>' for n in range(count)))

def fields(count):
    return register(''.join(f'<field><name>F{n}</name><bitOffset>0</bitOffset></field>' for n in range(count)))

def module_text(count, ends):
    return 'use crate::generic::*;\npub struct Peripherals {\n}\n' + 'pub mod a { use crate::generic::*; #[repr(C)] pub struct RegisterBlock { } impl RegisterBlock { } ' * count + '}' * (count - 1) + ends

text = {
    'start tags': lambda: '<device>' + '<a>' * ((LIMIT - 8) // 3),
    'nested elements': lambda: '<device>' + '<a>' * ((LIMIT - 17) // 7) + '</a>' * ((LIMIT - 17) // 7) + '</device>',
    'a comment': lambda: '<!--' + '-' * (LIMIT - 200) + '-->' + device(''),
    'white space': lambda: ' ' * (LIMIT - 200) + device(''),
    'digits of a number': lambda: peripheral('<register><name>R</name><addressOffset>' + '9' * (LIMIT - 400) + '</addressOffset></register>'),
    'attributes of a tag': lambda: device(ONE, ''.join(f' a{n}=""' for n in range(1_000_000))),
    '800,000 peripherals': lambda: siblings(800_000),
    '800,000 of one name': lambda: device(ONE * 800_000),
    '1,100,000 fields': lambda: fields(1_100_000),
    '800,000 values': lambda: values(800_000),
    'four lists of 65,536': lists,
    'five arrays of 65,536': array_of_arrays,
    'nested modules': lambda: module_text(1_900_000, '}'),
    'nested modules, broken': lambda: module_text(1_900_000, '$'),
}[kind]()
with open(name, 'w') as out:
    out.write(text)
PYTHON
}

# timed KIND COMMAND..
timed() {
    local kind=$1 told
    shift
    : >"$folder/times"
    for _ in 1 2 3; do
        /usr/bin/time -q -f '%e %M %x' -o "$folder/time" "$@" <"$input" >"$folder/out" 2>"$folder/err"
        cat "$folder/time" >>"$folder/times"
    done
    told="$(head -c 60 "$folder/err" | head -n 1)"
    [ -n "$told" ] || told="$(wc -l <"$folder/out") lines"
    sort -n "$folder/times" | awk -v kind="$kind" -v bytes="$(stat -c %s "$folder/hostile")" -v told="$told" '
        NR == 1 { best = $1 }
        $2 > most { most = $2 }
        END { printf "%-24s %6.1f %8.2f %10.0f %7d  %s\n", kind, bytes / 1e6, best, most * 1024 / 1e6, $3, told }'
}

printf '%-24s %6s %8s %10s %7s  %s\n' file MB seconds 'memory MB' status 'what it tells'
for kind in 'start tags' 'nested elements' 'a comment' 'white space' 'digits of a number' 'attributes of a tag' \
    '800,000 peripherals' '800,000 of one name' '1,100,000 fields' '800,000 values' 'four lists of 65,536' \
    'five arrays of 65,536'; do
    make "$kind" && timed "$kind" "$program" list "$folder/hostile"
done
: >"$folder/none.script"
for kind in 'nested modules' 'nested modules, broken'; do
    make "$kind" && timed "$kind" "$program" exec "$folder/hostile" "$folder/none.script"
done
