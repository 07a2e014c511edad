# Programs that ignore what a call gives do not compile where warnings are errors. Read by interface.sh.
with_four 'pevghazo_start(s, a, 16)' 'pevghazo_wrap(s, a, 9, b, 9, c, 9, a, 32)' 'pevghazo_unwrap(s, a, 9, b, 9, c, 32, a, 9)' \
  'pevghazo_open_group(t, 32, 0, 9, a, 16)' 'pevghazo_wrap_group(t, 32, 0, 9, a, 9, b, 9, c, 9, a, 32)' \
  'pevghazo_unwrap_group(t, 32, 0, 9, a, 9, b, 9, c, 32, a, 9)' 'pevghazo_nearly_full(t, 32, 9)' \
  'pevghazo_read_envelope(a, 9)' 'pevghazo_write_envelope(0, 0, a, 9, b, 9, c, 32, a, 99)' 'pevghazo_code(s, 0, a, 8)' \
  'pevghazo_sane_start(n, a, 16, b, 9, c, 16)' 'pevghazo_sane_wrap(n, a, 9, b, 9, c, 9, a, 16)' \
  'pevghazo_sane_unwrap(n, a, 9, b, 9, c, 16, a, 9)' 'pevghazo_store_session(s, a, 102)' 'pevghazo_load_session(s, a, 102)' \
  'pevghazo_store_sane_session(n, a, 102)' 'pevghazo_load_sane_session(n, a, 102)' \
  'pevghazo_wrap_envelope(s, b, 9, a, 9, b, 9, c, 9, a, 32)' 'pevghazo_unwrap_envelope(s, b, 9, a, 9, b, 9, c, 32, a, 9)' \
  'pevghazo_wrap_envelope_group(t, 32, 0, 9, b, 9, a, 9, b, 9, c, 9, a, 32)' \
  'pevghazo_unwrap_envelope_group(t, 32, 0, 9, b, 9, a, 9, b, 9, c, 32, a, 9)' \
  'pevghazo_sane_wrap_envelope(n, b, 9, a, 9, b, 9, c, 9, a, 16)' 'pevghazo_sane_unwrap_envelope(n, b, 9, a, 9, b, 9, c, 16, a, 9)' \
  'pevghazo_write_header(0, 0, 9, 9, a, 17)' \
  'pevghazo_pool_add(p, a, 25)' 'pevghazo_pool_holds(p, 67, 1)' 'pevghazo_pool_rings(p)' \
  'pevghazo_pool_add_in_season(p, w, a, 25)' 'pevghazo_first_day(w, a, 25)' \
  'pevghazo_price(*k, *r, a, 25)' \
  'pevghazo_sae_start(o, a, 16, b, 9, c, 16)' 'pevghazo_sae_unwrap(o, a, 9, b, 9, c, 16, a, 9)' \
  'pevghazo_sae_wrap(o, a, 9, b, 9, c, 9, a, 16)' 'pevghazo_store_sae_session(o, a, 102)' 'pevghazo_load_sae_session(o, a, 102)' >"$out/calls"
while IFS= read -r call; do
  for compiler in "gcc -x c -std=c89" "gcc -x c -std=c17" "clang -x c -std=c89" "g++ -x c++ -std=c++98" "g++ -x c++ -std=c++17"; do
    has ${compiler%% *} || continue
    $compiler $flags -DUSED "-DCALL=$call" tests/interface/ignored.c -c -o "$out/object.o"
    if $compiler $flags "-DCALL=$call" tests/interface/ignored.c -c -o "$out/object.o" 2>"$out/log"; then
      fail "$compiler lets a program ignore $call"
    fi
    grep -q 'unused-result\|unused-value\|nodiscard' "$out/log" || fail "$compiler refuses $call for another reason"
  done
done <"$out/calls"
