#!/usr/bin/env bash
# bench/run patch: counts the instructions of `patch` with 1,000 operations on a
# document of 300 kB (bench/patch_inputs.py), next to the same in C++ with nlohmann's
# JSON and in Python with jsonpatch.
set -euo pipefail

# shellcheck source=bench/common.sh
. "$(dirname -- "$(readlink -f -- "${BASH_SOURCE[0]}")")/common.sh"

add mergejoin './mergejoin patch'

# C++, over the header that Debian's package puts where every compiler looks.
cpp= # its place among the programs
header=/usr/include/nlohmann/json.hpp
if ! compiler=$(command -v g++ || command -v clang++); then
  say 'no compiler of C++ here: without the peer in C++'
elif [[ -e $header ]] || lacks nlohmann-json3-dev; then
  if "$compiler" -std=c++17 -O3 -DNDEBUG -o patch patch.cpp >cpp.log 2>&1; then
    cpp=${#titles[@]}
    add "C++, $(./patch --version)" ./patch
  else
    say "the peer in C++ can't be built: $work/cpp.log"
  fi
fi

python=
find_jsonpatch || true
if [[ $python ]]; then
  version=$("$python" -c 'import jsonpatch; print(jsonpatch.__version__)')
  add "$("$python" --version), jsonpatch $version" "$(interpreter "$python") patch.py"
fi

operations=1000
if [[ -n ${BENCH_SMALL-} ]]; then operations=10; fi
python3 patch_inputs.py "$operations" $((300 * operations)) >patch.json
measure patch

print_head "Millions of instructions by callgrind, of 1,000 operations on a document of 300 kB; in brackets, how many times those of C++."
print_table "$cpp"
exit "$differ"
