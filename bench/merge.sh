#!/usr/bin/env bash
# bench/run merge: counts the instructions of `merge` on inputs of three sizes
# (bench/inputs.py), next to the same in Rust with serde_json, in jq and in Python.
set -euo pipefail

# shellcheck source=bench/common.sh
. "$(dirname -- "$(readlink -f -- "${BASH_SOURCE[0]}")")/common.sh"

add mergejoin './mergejoin merge'

place= # of Rust among the programs
if build_rust; then
  place=${#titles[@]}
  add "Rust, $serde_json" "$rust merge"
fi

if command -v jq >/dev/null; then
  add "$(jq --version | tr - ' ')" 'jq -cS -f merge.jq'
fi

if python=$(interpreter python3); then
  add "$(python3 --version)" "$python merge.py"
fi

for names in $(sizes_of 100 1000 10000); do
  python3 inputs.py "$names" >"$names.json"
  measure "$names"
done

print_head 'Millions of instructions by callgrind; in brackets, how many times those of Rust.'
print_table "$place"
exit "$differ"
