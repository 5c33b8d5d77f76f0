#!/usr/bin/env bash
# Descriptions in which elements are derived, each with what `list` prints, what a script on it does, or how it is
# refused; and descriptions that are too long to be written out. It needs the built program. Says nothing where all
# holds, and ends with 1 where something doesn't.
top="$(cd "$(dirname "$0")/.." && pwd)" || exit 1
program="$top/crates/pac_main/out/pac_main"
failed=0

fail() {
    echo "tests/deriving.sh: $*" >&2
    failed=1
}

[ -x "$program" ] || { fail "$program isn't built"; exit 1; }
folder="$(mktemp -d)" || exit 1
trap 'rm -rf "$folder"' EXIT

# ---- parts of descriptions

device() { printf '<device><name>D</name><peripherals>%s</peripherals></device>' "$*"; }

# peripheral ATTRIBUTE NAME BASE INSIDE
peripheral() { printf '<peripheral%s><name>%s</name><baseAddress>%s</baseAddress>%s</peripheral>' "${1:+ derivedFrom=\"$1\"}" "$2" "$3" "$4"; }
registers() { printf '<registers>%s</registers>' "$*"; }
# register SOURCE NAME OFFSET INSIDE, and clusters alike; no source is an empty word
register() { printf '<register%s><name>%s</name><addressOffset>%s</addressOffset>%s</register>' "${1:+ derivedFrom=\"$1\"}" "$2" "$3" "$4"; }
cluster() { printf '<cluster%s><name>%s</name><addressOffset>%s</addressOffset>%s</cluster>' "${1:+ derivedFrom=\"$1\"}" "$2" "$3" "$4"; }
fields() { printf '<fields>%s</fields>' "$*"; }
# field SOURCE NAME PLACE INSIDE: the place as its elements
field() { printf '<field%s><name>%s</name>%s%s</field>' "${1:+ derivedFrom=\"$1\"}" "$2" "$3" "$4"; }
bits() { printf '<bitRange>[%s:%s]</bitRange>' "$1" "$2"; }
# values SOURCE NAME [NAME=VALUE..]: a set of enumerated values; a name may be left out, as an empty word
values() {
    printf '<enumeratedValues%s>' "${1:+ derivedFrom=\"$1\"}"
    [ -z "$2" ] || printf '<name>%s</name>' "$2"
    shift 2
    for value; do printf '<enumeratedValue><name>%s</name><value>%s</value></enumeratedValue>' "${value%=*}" "${value#*=}"; done
    printf '</enumeratedValues>'
}
size() { printf '<size>%s</size>' "$1"; }
reset() { printf '<resetValue>%s</resetValue>' "$1"; }
dim() { printf '<dim>%s</dim><dimIncrement>%s</dimIncrement>' "$1" "$2"; }
# in_t REGISTER..: one peripheral T
in_t() { device "$(peripheral '' T 0x40000000 "$(registers "$*")")"; }

# ---- calls

# holds ROW STATUS: compares with what stands in $folder/wanted and $folder/line
holds() {
    [ "$status" -eq "$2" ] || fail "$1: status $status instead of $2"
    diff "$folder/wanted" "$folder/out" >&2 || fail "$1: other output"
    diff "$folder/line" "$folder/err" >&2 || fail "$1: another line"
}

# lists ROW DESCRIPTION LINE..
lists() {
    local row=$1
    printf '%s' "$2" >"$folder/x.svd"
    shift 2
    printf '%s\n' "$@" >"$folder/wanted"
    : >"$folder/line"
    "$program" list "$folder/x.svd" >"$folder/out" 2>"$folder/err"
    status=$?
    holds "$row" 0
}

# refuses ROW DESCRIPTION STATUS LINE
refuses() {
    printf '%s' "$2" >"$folder/x.svd"
    printf 'pac: %s\n' "$4" >"$folder/line"
    : >"$folder/wanted"
    "$program" list "$folder/x.svd" >"$folder/out" 2>"$folder/err"
    status=$?
    holds "$1" "$3"
}

# runs ROW DESCRIPTION SCRIPT LINE..
runs() {
    local row=$1
    printf '%s' "$2" >"$folder/x.svd"
    printf '%s' "$3" >"$folder/x.script"
    shift 3
    printf '%s\n' "$@" >"$folder/wanted"
    : >"$folder/line"
    "$program" run "$folder/x.svd" "$folder/x.script" --bus zero >"$folder/out" 2>"$folder/err"
    status=$?
    holds "$row" 0
}

# mistypes ROW DESCRIPTION SCRIPT LINE
mistypes() {
    printf '%s' "$2" >"$folder/x.svd"
    printf '%s' "$3" >"$folder/x.script"
    printf 'pac: %s\n' "$4" >"$folder/line"
    : >"$folder/wanted"
    "$program" run "$folder/x.svd" "$folder/x.script" --bus zero >"$folder/out" 2>"$folder/err"
    status=$?
    holds "$1" 10
}

# ---- registers and fields

lists 'a derived register with fields of its own: F stands in the place of the one of A, whole, and H behind all' \
    "$(in_t "$(register '' A 0 "$(reset 5)$(fields "$(field '' F "$(bits 3 0)" '<access>read-only</access>')" "$(field '' G "$(bits 7 4)")")")" \
        "$(register A B 4 "$(fields "$(field '' H "$(bits 9 8)")" "$(field '' F '<bitOffset>2</bitOffset>')")")")" \
    'T.a 0x40000000 32 rw 0x00000005' '  f [3:0] ro modify' '  g [7:4] rw modify' \
    'T.b 0x40000004 32 rw 0x00000005' '  f [2:2] rw modify' '  g [7:4] rw modify' '  h [9:8] rw modify'
lists 'a derived field: its own place, and the width and access of its source; so all fields of A are read-only' \
    "$(in_t "$(register '' A 0 "$(fields "$(field '' F "$(bits 3 0)" '<access>read-only</access>')" "$(field F G '<bitOffset>8</bitOffset>')" "$(field F H '<bitOffset>12</bitOffset><bitWidth>1</bitWidth>')")")")" \
    'T.a 0x40000000 32 ro 0x00000000' '  f [3:0] ro modify' '  g [11:8] ro modify' '  h [12:12] ro modify'
lists 'a derived field without a place has that of its source' \
    "$(in_t "$(register '' A 0 "$(fields "$(field '' F "$(bits 7 4)")")")" "$(register '' B 4 "$(fields "$(field A.F G '')")")")" \
    'T.a 0x40000000 32 rw 0x00000000' '  f [7:4] rw modify' 'T.b 0x40000004 32 rw 0x00000000' '  g [7:4] rw modify'
lists 'a nearer register before a farther one, by written names' \
    "$(in_t "$(register '' R 0 "$(reset 1)")" "$(cluster '' K 0x10 "$(register '' R 0 "$(reset 2)")$(register R S 4)$(register T.R U 8)")")" \
    'T.r 0x40000000 32 rw 0x00000001' 'T.k.r 0x40000010 32 rw 0x00000002' 'T.k.s 0x40000014 32 rw 0x00000002' 'T.k.u 0x40000018 32 rw 0x00000001'
lists 'what is nearer but of another kind is passed over' \
    "$(in_t "$(register '' R 0 "$(reset 1)")" "$(cluster '' K 0x10 "$(cluster '' R 0 "$(register '' X 0)")$(register R S 4)")")" \
    'T.r 0x40000000 32 rw 0x00000001' 'T.k.r.x 0x40000010 32 rw 0x00000000' 'T.k.s 0x40000014 32 rw 0x00000001'
lists 'through clusters by a dotted path, from another peripheral' \
    "$(device "$(peripheral '' P 0x40000000 "$(registers "$(cluster '' C 0x10 "$(cluster '' D 0x20 "$(register '' R 2 "$(size 16)$(reset 7)")")")")")" \
        "$(peripheral '' Q 0x40001000 "$(registers "$(register P.C.D.R S 8)" "$(cluster P.C.D E 0x40)")")")" \
    'P.c.d.r 0x40000032 16 rw 0x0007' 'Q.s 0x40001008 16 rw 0x0007' 'Q.e.r 0x40001042 16 rw 0x0007'

# ---- dimensions

lists 'a derived peripheral is a list where its name has the mark, and has what it states of its own' \
    "$(device "$(peripheral '' 'TIM%s' 0x40000000 "$(dim 2 0x400)$(registers "$(register '' R 4)")")" \
        "$(peripheral 'TIM%s' 'AUX%s' 0x40001000)" "$(peripheral 'TIM%s' SPARE 0x40002000)" "$(peripheral 'TIM%s' 'LP%s' 0x40003000 '<dim>3</dim><dimIndex>A-C</dimIndex>')")" \
    'TIM0.r 0x40000004 32 rw 0x00000000' 'TIM1.r 0x40000404 32 rw 0x00000000' 'AUX0.r 0x40001004 32 rw 0x00000000' 'AUX1.r 0x40001404 32 rw 0x00000000' \
    'SPARE.r 0x40002004 32 rw 0x00000000' 'LPA.r 0x40003004 32 rw 0x00000000' 'LPB.r 0x40003404 32 rw 0x00000000' 'LPC.r 0x40003804 32 rw 0x00000000'
lists 'an array from a list: the name alone decides what it is' \
    "$(in_t "$(register '' 'CH%s' 0 "$(dim 2 4)")" "$(register 'CH%s' 'D[%s]' 0x10)")" \
    'T.ch0 0x40000000 32 rw 0x00000000' 'T.ch1 0x40000004 32 rw 0x00000000' 'T.d[0] 0x40000010 32 rw 0x00000000' 'T.d[1] 0x40000014 32 rw 0x00000000'

# ---- children

lists 'an own cluster stands in the place of a register of its name, and a register in that of a cluster' \
    "$(device "$(peripheral '' P 0x40000000 "$(registers "$(register '' R 0)" "$(cluster '' C 8 "$(register '' X 0)")" "$(register '' Q 4)")")" \
        "$(peripheral P S 0x40001000 "$(registers "$(register '' C 0)" "$(cluster '' R 0x10 "$(register '' Y 4)")")")")" \
    'P.r 0x40000000 32 rw 0x00000000' 'P.c.x 0x40000008 32 rw 0x00000000' 'P.q 0x40000004 32 rw 0x00000000' \
    'S.r.y 0x40001014 32 rw 0x00000000' 'S.c 0x40001000 32 rw 0x00000000' 'S.q 0x40001004 32 rw 0x00000000'

# ---- enumerated values

shared="$(in_t "$(register '' A 0 "$(fields "$(field '' F "$(bits 1 0)" "$(values '' E X=0 Y=1)")" "$(field '' G "$(bits 3 2)" "$(values E '' X=3)")")")")"
runs 'a set that is derived from one of another field: its own X is 3, and Y comes from the other' "$shared" \
    $'T.a().write(|w| w.g().x());\nT.a().write(|w| w.g().y());\nT.a().write(|w| w.f().y());' \
    'write 0x40000000 32 0x0000000c' 'write 0x40000000 32 0x00000004' 'write 0x40000000 32 0x00000001'
runs 'the first set of a name among the fields of the register' \
    "$(in_t "$(register '' A 0 "$(fields "$(field '' F "$(bits 1 0)" "$(values '' E X=1)")" "$(field '' G "$(bits 3 2)" "$(values '' E X=2)")" "$(field '' H "$(bits 5 4)" "$(values E '')")")")")" \
    'T.a().write(|w| w.h().x());' 'write 0x40000000 32 0x00000010'
runs 'by the name of its field too' \
    "$(in_t "$(register '' A 0 "$(fields "$(field '' F "$(bits 1 0)" "$(values '' E X=1)")" "$(field '' G "$(bits 3 2)" "$(values '' E X=2)")" "$(field '' H "$(bits 5 4)" "$(values G.E '')")")")")" \
    'T.a().write(|w| w.h().x());' 'write 0x40000000 32 0x00000020'
own_sets="$(in_t "$(register '' A 0 "$(fields "$(field '' F "$(bits 1 0)" "$(values '' E X=1)")" "$(field F G '<bitOffset>2</bitOffset>' "$(values '' '' Z=2)")")")")"
runs 'a derived field with sets of its own' "$own_sets" 'T.a().write(|w| w.g().z());' 'write 0x40000000 32 0x00000008'
mistypes 'has none of its source' "$own_sets" 'T.a().write(|w| w.g().x());' 'script line 1: no such call'

# ---- refusals

refuses 'the first of two sources that are missing' \
    "$(in_t "$(register '' A 0 "$(fields "$(field '' F "$(bits 0 0)" "$(values E '')")")")" "$(register B C 4)")" 8 'T.A.F: derivedFrom E is missing'
refuses 'a source that is missing before a circle' "$(in_t "$(register B A 0)" "$(register A B 0)" "$(register D.E C 4)")" 8 'T.C: derivedFrom D.E is missing'
refuses 'what deriving would bring isn'"'"'t sought: B has no R of its own' \
    "$(device "$(peripheral '' A 0 "$(registers "$(register '' R 0)")")" "$(peripheral A B 0x100)" "$(peripheral '' C 0x200 "$(registers "$(register B.R S 0)")")")" 8 'C.S: derivedFrom B.R is missing'
refuses 'a circle of registers in two peripherals' \
    "$(device "$(peripheral '' A 0 "$(registers "$(register B.R R 0)")")" "$(peripheral '' B 0x100 "$(registers "$(register A.R R 0)")")")" 8 'A.R: derivedFrom runs in a circle'
refuses 'a circle through a child: C depends on X, and X on C' \
    "$(in_t "$(cluster '' C 0 "$(register '' R 0)$(cluster C X 4)")")" 8 'T.C.X: derivedFrom runs in a circle'
refuses 'one that leads into a circle isn'"'"'t on it' "$(in_t "$(register B A 0)" "$(register B B 4)")" 8 'T.B: derivedFrom runs in a circle'

# ---- what is too long to be written out

# chain LAST NAME..: in P, C0 has a register, and each Ck up to the last has clusters of these names, derived from the one before
chain() {
    local last=$1 k name
    shift
    printf '<device><name>D</name><peripherals><peripheral><name>P</name><baseAddress>0</baseAddress><registers>'
    cluster '' C0 0 "$(register '' R 0)"
    for ((k = 1; k <= last; k++)); do
        cluster '' "C$k" 0 "$(for name; do cluster "C$((k - 1))" "$name" 0; done)"
    done
    printf '</registers></peripheral></peripherals></device>'
}

refuses 'a chain that doubles, too deep before it is too much' "$(chain 62 A B)" 8 'P: clusters nest deeper than 64'
refuses 'a chain that doubles: 3 * 2^k - 1 elements in each Ck, and P' "$(chain 61 A B)" 11 'too many elements: 13835058055282163648'
refuses 'a chain that triples: more than 2^64 - 1' "$(chain 41 A B C)" 11 'too many elements: 18446744073709551615'

# 200,000 peripherals, each derived from the one before
{
    printf '<device><name>D</name><peripherals>'
    peripheral '' P0 0 "$(registers "$(register '' R 4)")"
    awk 'BEGIN { for (k = 1; k < 200000; k++) printf "<peripheral derivedFrom=\"P%d\"><name>P%d</name><baseAddress>%d</baseAddress></peripheral>", k - 1, k, 8 * k }'
    printf '</peripherals></device>'
} >"$folder/long.svd"
awk 'BEGIN { for (k = 0; k < 200000; k++) printf "P%d.r 0x%08x 32 rw 0x00000000\n", k, 8 * k + 4 }' >"$folder/wanted"
: >"$folder/line"
"$program" list "$folder/long.svd" >"$folder/out" 2>"$folder/err"
status=$?
holds '200,000 peripherals, each derived from the one before' 0

exit "$failed"
