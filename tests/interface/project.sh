# Rust: a project outside the repository, with the crate as a checkout has it, which holds no library. Read by interface.sh.
tar --exclude=rust/target -cf - rust | tar -xf - -C "$outside"
mkdir -p "$outside/project/src"
cp tests/interface/program.rs "$outside/project/src/main.rs"
cat >"$outside/project/Cargo.toml" <<'TOML'
[package]
name = "program"
version = "0.0.0"
edition = "2024"

[dependencies]
pevghazo = { path = "../rust/pevghazo" }
TOML
project() { (cd "$outside/project" && env -u PEVGHAZO_LIB_DIR CARGO_TARGET_DIR="$outside/target" "$@"); }
if project PKG_CONFIG_PATH= PKG_CONFIG_LIBDIR=/nowhere cargo build --offline --quiet >"$out/log" 2>&1; then
  fail "the Rust project finds a library where none is"
fi
grep -q 'The proved library is missing' "$out/log" || fail "the Rust project says something else than that the library is missing"
said project cargo build --offline --quiet
project cargo run --offline --quiet >"$out/rust.installed"
project PKG_CONFIG_PATH= PKG_CONFIG_LIBDIR=/nowhere PEVGHAZO_LIB_DIR="$prefix/lib" cargo run --offline --quiet >"$out/rust.folder"
"$out/plain.shared" print >"$out/c"
for rust in installed folder; do
  diff "$out/c" "$out/rust.$rust" || fail "C (left) and Rust (right) give other sentences or stored bytes"
done
