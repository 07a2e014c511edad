# Programs in C, with the archive and with the shared library, and in C++; what stays in their memory. Read by interface.sh.
flags="-Wall -Wextra -Wpedantic -Werror $(pkg-config --cflags pevghazo)"
shared="$(pkg-config --libs pevghazo) -Wl,-rpath,$prefix/lib"
for source in tests/interface.c tests/interface/{table,sane,envelope,four,pool,season,till,sae,plain}.c; do
  name=$(basename "$source" .c) standard=c11
  if [ "$name" = plain ]; then standard=c89; fi
  gcc -std=$standard $flags "$source" "$prefix/lib/libpevghazo.a" -o "$out/$name.archive"
  gcc -std=$standard $flags "$source" $shared -o "$out/$name.shared"
  readelf --dynamic "$out/$name.shared" | grep -q 'NEEDED.*\[libpevghazo.so.3\]' || fail "$name does not need the shared library"
  if has clang; then clang -std=$standard $flags "$source" "$prefix/lib/libpevghazo.a" -o "$out/$name.clang"; fi
  for program in "$out/$name".*; do said "$program"; done
done

# What stays in memory, also where the compiler sees all files at once.
gcc -std=gnu11 -O2 $flags tests/memory.c "$prefix/lib/libpevghazo.a" -o "$out/memory.archive"
gcc -std=gnu11 -O2 $flags tests/memory.c $shared -o "$out/memory.shared"
gcc -std=gnu11 -O3 -flto $flags tests/memory.c c/*.c "$prefix/lib/libpevghazo.a" -o "$out/memory.together"
for kind in archive shared together; do said "$out/memory.$kind"; done

if has g++; then
  g++ -std=c++17 $flags tests/interface/program.cpp $shared -o "$out/program.cpp.shared"
  said "$out/program.cpp.shared"
fi
