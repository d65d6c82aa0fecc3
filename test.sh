#!/usr/bin/env bash
# All tests: every crate proved from nothing, every must-fail edit refused, every program's output compared; then the Rust side: the reference's
# own tests, and the proved library and program against the reference. The last line is rt's `N passed, 0 failed`.
set -u -o pipefail
cd "$(dirname "$0")" || exit 1
log=$(mktemp) || exit 1
trap 'rm -f "$log"' EXIT
rt ci 2>&1 | tee "$log" || exit 1
# an edit that does not fit the text any more is only counted there
if grep -Eq '^rt: ok.*, [1-9][0-9]* bad' "$log"; then
    exit 1
fi
last=$(tail -n 1 "$log")
case $last in
  *' passed, 0 failed') ;;
  *) exit 1 ;;
esac
./build.sh >/dev/null || exit 1
export VULZEGAN_TARGET="$PWD/target"
cargo test --quiet --release --offline --manifest-path reference/Cargo.toml || exit 1
cargo test --quiet --release --offline --manifest-path conformance/Cargo.toml || exit 1
echo "$last"
