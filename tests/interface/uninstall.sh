# Uninstalling leaves nothing; cleaning removes what was made, and nothing else. Read by interface.sh.
touch "$prefix/include/other.h"
said build uninstall PREFIX="$prefix"
(cd "$prefix" && find . -type f -o -type l) >"$out/left"
[ "$(cat "$out/left")" = ./include/other.h ] || { cat "$out/left" >&2; fail "uninstalling leaves these files, or took one that is not its own"; }
[ ! -e "$prefix/include/pevghazo" ] || fail "uninstalling leaves a folder"
mkdir -p "$outside/clean/target/lib" "$outside/clean/rust/target" "$outside/clean/rust/src"
cp Makefile "$outside/clean"
said make --no-print-directory -C "$outside/clean" clean
(cd "$outside/clean" && find . -mindepth 1 | sort) >"$out/left"
[ "$(cat "$out/left")" = $'./Makefile\n./rust\n./rust/src' ] || { cat "$out/left" >&2; fail "cleaning leaves other files"; }
