#!/usr/bin/env bash
# Runs tests/constant_time.c under valgrind, for lone sessions, for a group and for sessions in SANE, without an envelope and for one, a block at a time
# and by four, for sessions of old letters, and for the leaves. It fails where a branch or an address depends on a secret, but for the verdict on the tag,
# which is a single branch. Leaks planted in long messages only must be seen, too. Then the same for what the Rust crate adds: how it compares codes, and
# its types of sessions (rust/pevghazo/examples/constant_time.rs).
set -eu
cd "$(dirname "$0")/.."
lib=${PEVGHAZO_LIB_DIR:-target/staticlib}
out=target/constant_time
fail() {
  echo "constant time: $*" >&2
  exit 1
}
command -v valgrind >/dev/null || fail "valgrind is missing (Debian package valgrind)"
[ -f "$lib/libcapi.a" ] || fail "$lib/libcapi.a is missing: run 'make lib'"
[ -f "$lib/libbench_exports.a" ] || fail "$lib/libbench_exports.a is missing: run 'scripts/archive bench_exports'"
mkdir -p "$out"
echo '#include <valgrind/memcheck.h>' | gcc -fsyntax-only -x c - 2>/dev/null || fail "valgrind/memcheck.h is missing (Debian package valgrind)"
gcc -O2 -g -std=c89 -Iinclude -c c/stored.c -o "$out/stored.o"
# The independent implementation makes the old letters.
cargo build --manifest-path rust/Cargo.toml --locked --offline --quiet --release --package pevghazo-bench
gcc -O1 -g -std=gnu11 -Wall -Wextra -Iinclude tests/constant_time.c "$out/stored.o" "$lib/libcapi.a" "$lib/libbench_exports.a" \
  rust/target/release/libpevghazo_bench.a -lpthread -ldl -lm -o "$out/constant_time"
followed() { # LOG PROGRAM WORDS ..
  # The library has no tables for walking its stack, so reports are told apart by their innermost function alone.
  valgrind --quiet --expensive-definedness-checks=yes --error-limit=no --num-callers=1 --log-file="$1" "${@:2}"
}
run() { followed "$1" "$out/constant_time" "${@:2}"; } # LOG WORDS ..
# Leaks made on purpose in messages above a length: a branch while they are wrapped, a comparison with an early end while they are unwrapped.
for who in lone sane sae lone-envelope sane-envelope lone-four; do
  for leak in "wrap 1024" "wrap 16383" "unwrap early 1024" "unwrap early 16383"; do
    if run "$out/planted" $who ${leak#* } >"$out/said" 2>&1; then fail "$who: a leak was not seen: $leak"; fi
    grep -q ": ${leak%% *}, .* bytes: a branch or an address depends on a secret" "$out/said" || {
      cat "$out/said" >&2
      fail "$who: with a leak ($leak) another thing failed"
    }
  done
done
for who in {lone,group,sane}{,-envelope}{,-four} sae leaves; do
  run "$out/$who" "$who" || {
    tail -n 3 "$out/$who" >&2
    fail "failed; all reports are in $out/$who, the last one is the one that it stopped at"
  }
  # Kind and place of each report; the two made on purpose are left out.
  awk '/Conditional jump/ { kind = "branch" }
       /Use of uninitialised/ { kind = "address" }
       / at 0x/ && $4 !~ /^leak_by_/ { print kind, $3, $4 }' "$out/$who" | sort -u >"$out/places"
  if [ "$(wc -l <"$out/places")" -gt 1 ] || grep -q ^address "$out/places"; then
    cat "$out/places" >&2
    fail "$who: more than the verdict's branch depends on a secret; all reports are in $out/$who"
  fi
done
cargo build --manifest-path rust/Cargo.toml --locked --offline --quiet --release --package pevghazo --example constant_time
followed "$out/compared" rust/target/release/examples/constant_time || fail "the Rust crate failed; all reports are in $out/compared"
