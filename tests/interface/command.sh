# The command, its manual page and its completions. Read by interface.sh.
"$prefix/bin/pevghazo" demo >"$out/demo" || fail "the installed command fails"
grep -q 'S 20001 to S 20100' "$out/demo" || fail "the installed command plays another season"
[ "$("$prefix/bin/pevghazo" --version)" = "pevghazo $version" ] || fail "the installed command has another version than $version"
page=$prefix/share/man/man1/pevghazo.1
if [ -f "$page" ]; then
  if has groff; then
    groff -k -man -Tutf8 -ww "$page" >"$out/page" 2>"$out/log" || fail "the manual page cannot be set"
    if [ -s "$out/log" ]; then cat "$out/log" >&2 && fail "the manual page has mistakes"; fi
    grep -q pevghazo "$out/page" || fail "the manual page is empty"
  fi
  if has man; then
    man -M "$prefix/share/man" -w pevghazo >"$out/log" 2>&1 || fail "man does not find the manual page"
  fi
fi
completion=$prefix/share/bash-completion/completions/pevghazo
if [ -f "$completion" ]; then
  bash -n "$completion" || fail "the completion for bash has mistakes"
  # What bash would offer after 'pevghazo of'.
  bash -c '. "$1" || exit 1
    spec=$(complete -p pevghazo) && function=${spec#* -F } && function=${function%% *} || exit 1
    COMP_WORDS=(pevghazo of) COMP_CWORD=1 COMP_LINE="pevghazo of" COMP_POINT=11
    "$function" pevghazo of pevghazo; printf "%s\n" "${COMPREPLY[@]}"' bash "$completion" >"$out/log" || fail "the completion for bash fails"
  grep -qx 'office *' "$out/log" || fail "the completion for bash does not offer 'office'"
fi
for shell in zsh:zsh/site-functions/_pevghazo fish:fish/vendor_completions.d/pevghazo.fish; do
  completion=$prefix/share/${shell#*:}
  if [ -f "$completion" ] && has ${shell%%:*}; then ${shell%%:*} -n "$completion" || fail "the completion for ${shell%%:*} has mistakes"; fi
done
