# A record of one kind does not go to a call of another: C with warnings as errors refuses it, and so does C++. Kinds are the sessions of each
# mode, the records of a table, a pool, windows, a till, and prices. Read by interface.sh.
with_four 'pevghazo_start(n, a, 16)' 'pevghazo_wrap(n, a, 9, b, 9, c, 9, a, 32)' 'pevghazo_unwrap(n, a, 9, b, 9, c, 32, a, 9)' \
  'pevghazo_start(t, a, 16)' 'pevghazo_code(n, 0, a, 8)' 'pevghazo_code(t, 0, a, 8)' 'pevghazo_store_session(t, a, 102)' \
  'pevghazo_start_day(s, 32, 9)' 'pevghazo_start_day(n, 32, 9)' 'pevghazo_open_group(s, 32, 0, 9, a, 16)' \
  'pevghazo_open_group(n, 32, 0, 9, a, 16)' 'pevghazo_wrap_group(s, 32, 0, 9, a, 9, b, 9, c, 9, a, 32)' \
  'pevghazo_unwrap_group(s, 32, 0, 9, a, 9, b, 9, c, 32, a, 9)' 'pevghazo_nearly_full(s, 32, 9)' 'pevghazo_nearly_full(n, 32, 9)' \
  'pevghazo_store_session(n, a, 102)' 'pevghazo_load_session(n, a, 102)' \
  'pevghazo_sane_start(s, a, 16, b, 9, c, 16)' 'pevghazo_sane_wrap(s, a, 9, b, 9, c, 9, a, 16)' \
  'pevghazo_sane_unwrap(s, a, 9, b, 9, c, 16, a, 9)' 'pevghazo_store_sane_session(s, a, 102)' 'pevghazo_load_sane_session(s, a, 102)' \
  'pevghazo_wrap_envelope(n, b, 9, a, 9, b, 9, c, 9, a, 32)' 'pevghazo_unwrap_envelope(n, b, 9, a, 9, b, 9, c, 32, a, 9)' \
  'pevghazo_wrap_envelope(t, b, 9, a, 9, b, 9, c, 9, a, 32)' 'pevghazo_unwrap_envelope(t, b, 9, a, 9, b, 9, c, 32, a, 9)' \
  'pevghazo_wrap_envelope_group(s, 32, 0, 9, b, 9, a, 9, b, 9, c, 9, a, 32)' \
  'pevghazo_unwrap_envelope_group(s, 32, 0, 9, b, 9, a, 9, b, 9, c, 32, a, 9)' \
  'pevghazo_sane_wrap_envelope(s, b, 9, a, 9, b, 9, c, 9, a, 16)' 'pevghazo_sane_unwrap_envelope(s, b, 9, a, 9, b, 9, c, 16, a, 9)' \
  'pevghazo_pool_add(t, a, 25)' 'pevghazo_pool_holds(s, 67, 1)' 'pevghazo_pool_rings(p->runs)' 'pevghazo_start(p, a, 16)' \
  'pevghazo_nearly_full(p, 32, 9)' 'pevghazo_pool_add_in_season(t, w, a, 25)' 'pevghazo_pool_add_in_season(p, p, a, 25)' \
  'pevghazo_pool_add_in_season(w, p, a, 25)' 'pevghazo_first_day(p, a, 25)' 'pevghazo_first_day(w->sizes, a, 25)' \
  'pevghazo_pool_add(w, a, 25)' 'pevghazo_pool_rings(w)' \
  'pevghazo_price(*r, *k, a, 25)' 'pevghazo_price(*k, *k, a, 25)' 'pevghazo_price(*k, *w, a, 25)' 'pevghazo_price(*p, *r, a, 25)' \
  'pevghazo_price(k, *r, a, 25)' 'pevghazo_price(*k, r, a, 25)' 'pevghazo_pool_add(k, a, 25)' 'pevghazo_first_day(r, a, 25)' \
  'pevghazo_sae_start(n, a, 16, b, 9, c, 16)' 'pevghazo_sae_start(s, a, 16, b, 9, c, 16)' 'pevghazo_sae_unwrap(n, a, 9, b, 9, c, 16, a, 9)' \
  'pevghazo_sae_unwrap(s, a, 9, b, 9, c, 16, a, 9)' 'pevghazo_sae_wrap(n, a, 9, b, 9, c, 9, a, 16)' \
  'pevghazo_sane_start(o, a, 16, b, 9, c, 16)' 'pevghazo_sane_wrap(o, a, 9, b, 9, c, 9, a, 16)' \
  'pevghazo_sane_unwrap(o, a, 9, b, 9, c, 16, a, 9)' 'pevghazo_sane_unwrap_envelope(o, b, 9, a, 9, b, 9, c, 16, a, 9)' \
  'pevghazo_start(o, a, 16)' 'pevghazo_wrap(o, a, 9, b, 9, c, 9, a, 32)' 'pevghazo_code(o, 0, a, 8)' 'pevghazo_nearly_full(o, 32, 9)' \
  'pevghazo_store_sae_session(n, a, 102)' 'pevghazo_load_sae_session(s, a, 102)' 'pevghazo_store_sane_session(o, a, 102)' \
  'pevghazo_load_session(o, a, 102)' >"$out/calls"
while IFS= read -r call; do
  for compiler in "gcc -x c -std=c89" "gcc -x c -std=c17" "clang -x c -std=c89" "g++ -x c++ -std=c++98" "g++ -x c++ -std=c++17"; do
    has ${compiler%% *} || continue
    if $compiler $flags -DUSED "-DCALL=$call" tests/interface/ignored.c -c -o "$out/object.o" 2>"$out/log"; then
      fail "$compiler takes a record of another kind: $call"
    fi
    grep -q 'incompatible \(pointer\|type\)\|\(cannot\|could not\) convert' "$out/log" || fail "$compiler refuses $call for another reason"
  done
done <"$out/calls"
