#!/bin/sh
# Builds the engine as a static library and the Rust program beside it, and runs the comparison. Not a test.
set -eu
cd "$(dirname "$0")/.."
kit=$(dirname "$(rt doc)")
mkdir -p target
(cd crates/bench_api_c && rt lib) >target/bench.log 2>&1 || { cat target/bench.log; exit 1; }
cp crates/bench_api_c/out/libbench_api_c.a target/libbench_api.a
rustc -O --edition 2024 bench/main.rs -o target/bench -L native=target -l static=bench_api \
    -C link-arg="$kit/c/liblibc_c.a"
target/bench
