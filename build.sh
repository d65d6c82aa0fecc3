#!/usr/bin/env bash
# Proves and builds what is used outside Rattle, into target/: the programs in bin/, and the static libraries for C and Rust in staticlib/.
set -eu -o pipefail
cd "$(dirname "$0")"
mkdir -p target/bin target/staticlib
for program in replay price_change; do
    (cd "crates/$program" && rt run </dev/null >/dev/null)
    cp "crates/$program/out/$program" target/bin/
done
for library in gateway kiosk; do
    (cd "crates/${library}_c" && rt lib)
    cp "crates/${library}_c/out/lib${library}_c.a" "target/staticlib/lib$library.a"
done
