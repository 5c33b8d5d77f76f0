#!/usr/bin/env bash
# The package examples/blinky-crate: its text is what is printed of its description with its patch, and its tests pass. Says nothing where
# both hold, one line where no cargo is there, and ends with 1 where one doesn't.
top="$(cd "$(dirname "$0")/.." && pwd)" || exit 1
program="$top/crates/pac_main/out/pac_main"
package="$top/examples/blinky-crate"
failed=0
folder="$(mktemp -d)" || exit 1
trap 'rm -rf "$folder"' EXIT

fail() {
    echo "tests/blinky_crate.sh: $*" >&2
    failed=1
}

if [ -x "$program" ]; then
    "$program" generate "$package/ex32.svd" --patch "$package/ex32.yaml" >"$folder/device.rs" || fail "its description is refused"
    diff "$package/src/device.rs" "$folder/device.rs" >&2 || fail "its crate text differs"
fi
if command -v cargo >/dev/null; then
    cd "$package" || exit 1
    CARGO_TARGET_DIR="$folder/target" RUSTFLAGS="-D warnings" cargo test --offline --locked --quiet >"$folder/out" 2>&1 ||
        { fail "its tests fail"; cat "$folder/out" >&2; }
else
    echo "tests/blinky_crate.sh: cargo isn't there, so the package's tests didn't run"
fi
exit "$failed"
