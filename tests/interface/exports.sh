# What is exported: what the headers declare, and nothing else; the proved functions are those of nine headers. Read by interface.sh.
declared() { sed -n 's/^[A-Za-z][A-Za-z0-9_ ]*[ *]\(pevghazo_[a-z_]*\)(.*/\1/p' "$@" | sort; }
exported() { nm --defined-only "$@" | awk 'NF == 3 { print $3 }' | sort; }
declared include/pevghazo.h include/pevghazo/*.h >"$out/declared"
declared include/pevghazo/{session,sane,table,envelope,codes,pool,season,till,sae}.h >"$out/declared.proved"
exported --extern-only "$prefix/lib/libpevghazo.a" >"$out/archive"
exported --dynamic "$prefix/lib/libpevghazo.so" >"$out/shared"
exported --extern-only $library >"$out/proved"
for kind in archive shared; do
  diff "$out/declared" "$out/$kind" || fail "the headers (left) and the $kind library (right) name other functions"
done
diff "$out/declared.proved" "$out/proved" || fail "the headers (left) say of other functions than the library (right) that they are proved"
size "$prefix/lib/libpevghazo.a" | awk 'NR > 1 && $2 + $3 > 0 { exit 1 }' || fail "the library has globals"
readelf --dynamic "$prefix/lib/libpevghazo.so" >"$out/dynamic"
grep -q 'SONAME.*\[libpevghazo.so.3\]' "$out/dynamic" || fail "the shared library has another soname"
if grep -q TEXTREL "$out/dynamic"; then fail "the shared library's code is altered when it is loaded"; fi
