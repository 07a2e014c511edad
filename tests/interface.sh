#!/usr/bin/env bash
# Installs everything into a folder of its own and uses it from there: C with the archive and with the shared library, C++, a Rust project
# outside the repository, the command, its manual page and its completions; then uninstalls it. The proved library is the one that was built
# (make lib): nothing is proved or made by rt again. What needs clang, g++, man or a shell that is not there is left out. The parts are in
# tests/interface.
set -eu
export LC_ALL=C
cd "$(dirname "$0")/.."
# Outside the repository: what is installed has links, and rt ci refuses those below the folder that it is run in.
outside=$(mktemp -d)
trap 'rm -rf "$outside"' EXIT
out=$outside/interface
prefix=$out/prefix
rm -rf target/interface
mkdir -p "$out"

fail() {
  echo "interface: $*" >&2
  exit 1
}
has() { command -v "$1" >/dev/null; }
said() { # WORDS ..: runs a command, and shows what it said only where it fails
  "$@" >"$out/log" 2>&1 || {
    cat "$out/log" >&2
    fail "failed: $*"
  }
}

with_four() { # CALLS ..: each, and the one by four where there is one
  printf '%s\n' "$@" | sed -nE 'p; /^pevghazo_(sane_)?(un)?wrap/ { s/\(/_four(/; p }'
}

library=target/staticlib/libcapi.a
[ -f $library ] || fail "$library is missing: run 'make lib'"
# It is not made again, whatever its sources' times say; what was made from an older one is.
build() { make --no-print-directory --old-file=$library "$@"; }
for made in target/lib/libpevghazo.a rust/target/release/pevghazo; do
  [ $made -nt $library ] || rm -f $made
done

for part in install headers exports programs ignored modes project command uninstall; do . tests/interface/$part.sh; done
echo "interface: $version is installed, used from C, C++, Rust and the shell, and uninstalled"
