#!/usr/bin/env bash
# Benchmarks: the proved code beside the reference, both sides in one run on the same input, release builds. Prints a table.
set -eu -o pipefail
cd "$(dirname "$0")"
./build.sh >/dev/null
export VULZEGAN_TARGET="$PWD/target"
cargo build --quiet --release --offline --manifest-path reference/Cargo.toml
cp reference/target/release/reference_replay "$VULZEGAN_TARGET/"
cargo run --quiet --release --offline --manifest-path bench/Cargo.toml
