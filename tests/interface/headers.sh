# The headers: each stands alone, in old C, later C and C++, and so do the sources in plain C. Read by interface.sh.
for header in include/pevghazo.h include/pevghazo/*.h; do
  for compiler in "gcc -x c -std=c89" "gcc -x c -std=c99" "gcc -x c -std=c17" "clang -x c -std=c89" "clang -x c -std=c17" \
    "g++ -x c++ -std=c++98" "g++ -x c++ -std=c++17" "clang++ -x c++ -std=c++17"; do
    if has ${compiler%% *}; then $compiler -Wall -Wextra -Wpedantic -Werror -fsyntax-only "$header"; fi
  done
done
for source in c/*.c; do
  for compiler in gcc clang; do
    if has $compiler; then $compiler -std=c89 -O2 -Wall -Wextra -Wpedantic -Wconversion -Werror -Iinclude -c "$source" -o "$out/object.o"; fi
  done
done

# A compiler that lays records out otherwise is refused, here by a pragma.
printf '#pragma pack(1)\n#include "pevghazo.h"\n' >"$out/packed.h"
for compiler in "gcc -x c -std=c89" "gcc -x c -std=c17" "g++ -x c++ -std=c++98" "g++ -x c++ -std=c++17"; do
  has ${compiler%% *} || continue
  if $compiler -Iinclude -fsyntax-only "$out/packed.h" 2>"$out/log"; then fail "$compiler takes another layout of the records"; fi
done
