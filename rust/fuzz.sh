#!/usr/bin/env bash
# Fuzzes draw and undraw, in both styles, and the import of nets, of the proved library against the second implementation:
# fuzz.sh SECONDS (60 if not given).
# libFuzzer (Debian: clang, libclang-rt-14-dev) is guided by the coverage of the second implementation.
# The corpus stays in target/fuzz/corpus; an input that differs is written to target/fuzz/found.
set -eu
cd "$(dirname "$0")/fuzz"
seconds=${1:-60}
place=../target/fuzz
target=x86_64-unknown-linux-gnu
runtime=$(clang -print-resource-dir)/lib/linux/libclang_rt.fuzzer-x86_64.a
if [ ! -f "$runtime" ]; then
    echo "fuzz.sh: no file $runtime: install clang and libclang-rt-14-dev" >&2
    exit 1
fi

coverage='-Cpasses=sancov-module -Cllvm-args=-sanitizer-coverage-level=4'
coverage+=' -Cllvm-args=-sanitizer-coverage-inline-8bit-counters -Cllvm-args=-sanitizer-coverage-pc-table'
coverage+=' -Cllvm-args=-sanitizer-coverage-trace-compares -Ccodegen-units=1'
RUSTFLAGS="$coverage -Clink-arg=$runtime -Clink-arg=-lstdc++" \
    cargo build --quiet --release --offline --target "$target" --target-dir "$place"

built=$place/$target/release
mkdir -p "$place/seeds" "$place/corpus" "$place/found"
"$built/seeds" "$place/seeds"
cp ../../examples/*.order ../../examples/planar_code/*.pc "$place/seeds"
exec "$built/files" -max_total_time="$seconds" -max_len=1200 -dict=marks.dict -print_final_stats=1 \
    -artifact_prefix="$place/found/" "$place/corpus" "$place/seeds"
