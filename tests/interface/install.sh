# Installing: which files, and that all may read them, also where the umask says otherwise; and one version everywhere. Read by interface.sh.
(umask 077 && said build install PREFIX="$prefix")
(cd "$prefix" && find . -type f -printf '%m %p\n' -o -type l -printf 'link %p -> %l\n' | sort -k 2) >"$out/files"
{
  echo "755 ./bin/pevghazo"
  for header in include/pevghazo.h include/pevghazo/*.h; do echo "644 ./$header"; done
  echo "644 ./lib/libpevghazo.a"
  echo "link ./lib/libpevghazo.so -> libpevghazo.so.3"
  echo "link ./lib/libpevghazo.so.3 -> libpevghazo.so.3.7.0"
  echo "644 ./lib/libpevghazo.so.3.7.0"
  echo "644 ./lib/pkgconfig/pevghazo.pc"
  echo "644 ./share/bash-completion/completions/pevghazo"
  echo "644 ./share/fish/vendor_completions.d/pevghazo.fish"
  echo "644 ./share/man/man1/pevghazo.1"
  echo "644 ./share/zsh/site-functions/_pevghazo"
} | sort -k 2 >"$out/expected"
diff "$out/expected" "$out/files" || fail "other files are installed (right) than these (left)"
find "$prefix" -mindepth 1 -type d ! -perm 755 | grep . && fail "others cannot enter these folders"
said build install DESTDIR="$out/stage" PREFIX=/usr LIBDIR=/usr/lib/here
spaced="$out/a b&c|d"
said build install PREFIX="$spaced"
[ -e "$spaced/lib/libpevghazo.so" ] && grep -qxF "prefix=$spaced" "$spaced/lib/pkgconfig/pevghazo.pc" || fail "a folder with a space is not taken as it is"
touch "$out/a"
said build uninstall PREFIX="$spaced"
[ -e "$out/a" ] && [ -z "$(find "$spaced" -type f -o -type l)" ] || fail "uninstalling from a folder with a space takes another file, or leaves some"
grep -qx 'libdir=${prefix}/lib/here' "$out/stage/usr/lib/here/pkgconfig/pevghazo.pc" || fail "the pkg-config file names another folder"

export PKG_CONFIG_PATH=$prefix/lib/pkgconfig
version=$(pkg-config --modversion pevghazo)
grep -q "^version = \"$version\"$" rust/Cargo.toml || fail "rust/Cargo.toml has another version than $version"
grep -q "^## \[$version\]" CHANGELOG.md || fail "CHANGELOG.md does not know version $version"
