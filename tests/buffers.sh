#!/usr/bin/env bash
# Runs tests/buffers.c over the proved library that was built (make lib): its calls, with each buffer directly beside closed pages and at every
# address modulo 16, beside the independent implementation (rust/bench).
set -eu
cd "$(dirname "$0")/.."
lib=${PEVGHAZO_LIB_DIR:-target/staticlib}
out=target/buffers
fail() {
  echo "buffers: $*" >&2
  exit 1
}
[ -f "$lib/libcapi.a" ] || fail "$lib/libcapi.a is missing: run 'make lib'"
mkdir -p "$out"
cargo build --manifest-path rust/Cargo.toml --locked --offline --quiet --release --package pevghazo-bench
gcc -O2 -std=gnu11 -Wall -Wextra -Iinclude tests/buffers.c tests/pages.c "$lib/libcapi.a" rust/target/release/libpevghazo_bench.a \
  -lpthread -ldl -lm -o "$out/buffers"
"$out/buffers"
