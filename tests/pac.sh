#!/usr/bin/env bash
# The script `./pac`, tried in a small repository with a stand-in for `rt`: when it builds, what it says, its
# statuses, and that nothing is left of it. Says nothing where all holds, and ends with 1 where something doesn't.
top="$(cd "$(dirname "$0")/.." && pwd)" || exit 1
failed=0
folder="$(mktemp -d)" || exit 1
trap 'rm -rf "$folder"' EXIT
repository="$folder/repository"
export TMPDIR="$folder/tmp" PATH="$folder/bin:$PATH"

fail() {
    echo "tests/pac.sh: $*" >&2
    failed=1
}

# run STATUS BUILDS WHAT: `$pac`'s status, and how often it has called `rt` since the last time.
run() {
    local status
    : >"$folder/calls"
    "$pac" word >"$folder/out" 2>"$folder/err"
    status=$?
    [ "$status" -eq "$1" ] || fail "$3: status $status instead of $1"
    [ "$(wc -l <"$folder/calls")" -eq "$2" ] || fail "$3: called rt $(wc -l <"$folder/calls") times instead of $2"
    [ -z "$(ls "$TMPDIR")" ] || fail "$3: left $(ls "$TMPDIR")"
}

says() {
    grep -q -- "$1" "$folder/err" || fail "doesn't say '$1' but: $(cat "$folder/err")"
}

mkdir -p "$TMPDIR" "$folder/bin" "$repository"/crates/{low,other,pac_main}/src
cp "$top/pac" "$repository/pac"
printf 'low: # below\nother: low\npac_main: low\n' >"$repository/crates.txt"
touch "$repository"/crates/{low,other,pac_main}/src/lib.rt
pac="$repository/pac"

# Without `rt`: a path that has the tools that the script needs, and nothing else.
mkdir "$folder/tools"
for tool in bash dirname readlink sed find mktemp touch rm grep cat; do
    ln -s "$(command -v "$tool")" "$folder/tools/$tool"
done
PATH="$folder/tools" "$pac" 2>"$folder/err"
status=$?
[ "$status" -eq 127 ] || fail "without rt: status $status"
says "rt is bin/rt of the Rattle kit"

cat >"$folder/bin/rt" <<RT
#!/usr/bin/env bash
echo "\$*" >>"$folder/calls"
[ -e "$folder/hangs" ] && { echo \$\$ >"$folder/hanging"; exec sleep 60; }
[ -e "$folder/fails" ] && { echo 'fn low::one: no proof'; echo 'logic=not-proved'; exit 1; }
[ -e "$folder/changes" ] && { rm "$folder/changes"; touch "$repository/crates/low/src/lib.rt"; }
for crate in low pac_main; do
    printf 'fn %s::one: proved\ncrate %s: modules loaded=0 checked=1\nlogic=proved functions=1\n' \$crate \$crate
done
mkdir -p out
printf '#!/usr/bin/env bash\nexit 7\n' >out/pac_main
chmod +x out/pac_main
RT
chmod +x "$folder/bin/rt"

run 7 1 'nothing built'
says '^pac: low is proved, 1 of 2 crates left, [0-9.]* minutes so far$'
says '^pac: pac_main is proved, 0 of 2 crates left, [0-9.]* minutes so far$'
run 7 0 'built'
touch "$repository/crates/other/src/lib.rt"
run 7 0 'a source that is not below the program'
for source in crates/low/src/lib.rt crates.txt; do
    touch "$repository/$source"
    run 7 1 "$source is newer"
    says "$source is newer than the program"
    run 7 0 "$source was newer"
done
rm "$repository/crates/low/src/lib.rt"
run 7 1 'a source is gone'

touch "$folder/changes" "$repository/crates.txt"
run 7 1 'a source that changes during the build'
run 7 1 'and is newer after it'
run 7 0 'and is built then'

ln -s "$pac" "$folder/link"
pac="$folder/link"
run 7 0 'through a link'
pac="$repository/pac"

touch "$folder/fails" "$repository/crates.txt"
run 70 1 'a build that fails'
says '^fn low::one: no proof$'
run 70 1 'and once more'
rm "$folder/fails"

touch "$folder/hangs"
"$pac" 2>"$folder/err" &
for _ in {1..100}; do
    [ -s "$folder/hanging" ] && break
    sleep 0.1
done
kill "$!"
began=$SECONDS
wait "$!"
status=$?
[ $((SECONDS - began)) -lt 30 ] || fail 'broken off: it went on'
[ "$status" -eq 143 ] || fail "broken off: status $status"
kill -0 "$(cat "$folder/hanging")" 2>/dev/null && fail 'broken off: rt goes on'
[ -z "$(ls "$TMPDIR")" ] || fail "broken off: left $(ls "$TMPDIR")"
exit "$failed"
