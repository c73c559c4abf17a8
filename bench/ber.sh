#!/bin/bash
# Sends, disturbs, reads and receives through the library, at the five rates and by hard and soft decisions, prints how many
# bits came out wrong and how many packets were lost, and draws it: docs/ber.svg. The table stays in target/bench/ber.
set -euo pipefail
cd "$(dirname "$0")/.."
build=target/bench
mkdir -p "$build"
./build.sh libdvbs > "$build/libdvbs.log" 2>&1 || { cat "$build/libdvbs.log"; exit 1; }
export CARGO_HOME=$PWD/target/cargo-home CARGO_TARGET_DIR=$PWD/target/cargo EXPORTS_DIR=$PWD/target/staticlib
cargo run --release --offline --quiet --manifest-path reference/Cargo.toml --bin ber "$build/ber.svg" | tee "$build/ber"
mv "$build/ber.svg" docs/ber.svg
