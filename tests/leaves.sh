#!/usr/bin/env bash
# Makes the library of the leaves (crates/bench_exports; what is proved already is not proved again), and compares them, a block at a time and by four,
# with the independent implementation (rust/bench) by tests/leaves.c: at short and long lengths, at every address modulo 16, and beside closed pages.
set -eu
cd "$(dirname "$0")/.."
out=target/leaves
fail() {
  echo "leaves: $*" >&2
  exit 1
}
bash scripts/tools rt cargo gcc
mkdir -p "$out"
bash scripts/archive bench_exports >"$out/log" 2>&1 || {
  cat "$out/log" >&2
  fail "the library of the leaves is not made"
}
cargo build --manifest-path rust/Cargo.toml --locked --offline --quiet --release --package pevghazo-bench
gcc -O2 -std=gnu11 -Wall -Wextra tests/leaves.c tests/pages.c target/staticlib/libbench_exports.a rust/target/release/libpevghazo_bench.a \
  -lpthread -ldl -lm -o "$out/leaves"
"$out/leaves"
