#!/usr/bin/env bash
# bench/run lists: counts the instructions of `join` and of `replay` on lists of
# compatible patches of equal size (bench/list_inputs.py), and prints them next to
# the size of what was read, since their cost should grow in proportion to it.
set -euo pipefail

# shellcheck source=bench/common.sh
. "$(dirname -- "$(readlink -f -- "${BASH_SOURCE[0]}")")/common.sh"

# Prints the columns of one command: what it read, its instructions, and those per byte.
columns() {
  awk -v n="$(wc -c <"$1")" -v i="$2" \
    'BEGIN { printf " %.1f kB | %.2f | %.1f |", n / 1000, i / 1e6, i / n }'
}

rows=()
for patches in $(sizes_of 10 100 1000 2000); do
  say "$patches patches .."
  name=lists.$patches
  python3 list_inputs.py "$patches" start >"$name.start"
  python3 list_inputs.py "$patches" patches >"$name.join"
  # Replay, the patches one after another and their join must make one document.
  { printf '[%s,' "$(<"$name.start")"; tail -c +2 "$name.join"; } >"$name.replay"
  join=$(count "$name.join" "$name.join.out" ./mergejoin join)
  replay=$(count "$name.replay" "$name.replay.out" ./mergejoin replay)
  { printf '[%s,' "$(<"$name.start")"; cat "$name.join.out"; printf ']'; } >"$name.joined"
  for input in replay joined; do
    python3 merge.py <"$name.$input" >"$name.$input.merged"
    compare replay "$name.replay.out" "merge.py of $name.$input" "$name.$input.merged"
  done
  rows+=("| $patches |$(columns "$name.join" "$join")$(columns "$name.replay" "$replay")")
done

print_head 'Instructions by callgrind, in millions and per byte of input, of compatible patches of equal size.'
echo '| patches | join reads | millions | per byte | replay reads | millions | per byte |'
echo '| ---: | ---: | ---: | ---: | ---: | ---: | ---: |'
printf '%s\n' "${rows[@]}"
exit "$differ"
