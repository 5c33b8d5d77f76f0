#!/usr/bin/env bash
# Times `pac exec` of 65,536 statements on crate texts of growing size that `pac generate` prints, beside rustc: with -O it
# builds the same text with support/generic.rs and the same calls, which then run on the recording bus. rustc is timed once, and
# given up after ten minutes.
top="$(cd "$(dirname "$0")/.." && pwd)" || exit 2
program="$top/crates/pac_main/out/pac_main"
[ -x "$program" ] || { echo "build the program first: $top/pac list $top/examples/one_register.svd" >&2; exit 2; }
. "$top/bench/timing.sh"
needs python3 rustc
mkdir "$folder/rust"
cp "$top/support/generic.rs" "$folder/rust/generic.rs"

[ $# -gt 0 ] || set -- 1 10 60
: >"$folder/none.script"
printf '%8s %8s %8s %8s %8s %9s %12s\n' 'text MB' 'read s' 'type s' 'run s' 'exec s' 'rustc s' 'exec/rustc'
for megabytes in "$@"; do
    "$top/bench/description" "$megabytes" "$folder/device.svd"
    "$program" generate "$folder/device.svd" >"$folder/rust/device.rs" || exit 1
    "$program" list "$folder/device.svd" >"$folder/list" || exit 1
    "$top/bench/calls" "$folder/list" >"$folder/many.script" || exit 1
    python3 - "$folder" <<'PYTHON'
import sys
folder = sys.argv[1]
calls = open(f"{folder}/many.script", encoding="utf-8").read().splitlines()
groups = [calls[n:n + 256] for n in range(0, len(calls), 256)]
with open(f"{folder}/rust/main.rs", "w", encoding="utf-8") as out:
    out.write("pub mod generic;\n#[allow(non_camel_case_types, non_snake_case, unused_imports, dead_code)]\nmod device;\n"
              "use generic::{recording, steal};\n")
    for n, group in enumerate(groups):
        out.write(f"fn part{n}(device: &device::Peripherals) {{\n" + "".join(f"    device.{call}\n" for call in group) + "}\n")
    out.write("fn main() {\n    let device = unsafe { steal::<device::Peripherals>() };\n"
              "    recording::start(recording::Bus::Memory);\n"
              + "".join(f"    part{n}(&device);\n" for n in range(len(groups)))
              + "    for access in recording::take() { println!(\"{access}\"); }\n}\n")
PYTHON
    "$top/bench/refused_texts" "$folder/rust/device.rs" "$folder" || exit 1
    apart || exit 1
    exec_time="$(least 0 '' "$program" exec "$folder/rust/device.rs" "$folder/many.script" --bus memory)" || exit 1
    cp "$folder/out" "$folder/events"
    /usr/bin/time -q -f %e -o "$folder/rustc_time" timeout 600 bash -c 'rustc --edition 2021 -O -A warnings --cfg "feature=\"recording\"" -o "$0/run" "$0/rust/main.rs" && "$0/run" >"$0/rust_events"' "$folder"
    case $? in
        # The two lines differ where a first read gives the reset word: exec presets it, and the recording bus here doesn't.
        0) [ "$(grep -c write "$folder/events")" -eq "$(grep -c write "$folder/rust_events")" ] || { echo "the accesses differ" >&2; exit 1; }
            more= ;;
        124) more='>' ;;
        *) echo "rustc failed" >&2; exit 1 ;;
    esac
    awk -v b="$(stat -c %s "$folder/rust/device.rs")" -v d="$read_time" -v t="$typed_time" -v e="$exec_time" -v r="$(tail -n 1 "$folder/rustc_time")" -v m="$more" \
        'BEGIN { printf "%8.1f %8.2f %8.2f %8.2f %8.2f %9s %12s\n", b / 1e6, d, t - d, e - t, e, sprintf("%s%.2f", m, r),
            sprintf("%s%.4f", m ? "<" : "", e / r) }'
done
