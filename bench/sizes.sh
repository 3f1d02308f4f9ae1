#!/usr/bin/env bash
# bench/run sizes: the instructions of each job (bench/job_inputs.py) on inputs of about
# 10 kB, 100 kB and 1 MB, of this program, of the same in Rust with serde_json (bench/rust),
# and where they do the job of jq and of Python with jsonpatch. What they print must be the
# same. The figures are kept in bench/sizes.txt, of which docs/pictures/draw.py draws the
# plot of docs/COST.md. With BENCH_SMALL, which the tests set, they are printed, of the least size.
set -euo pipefail

# shellcheck source=bench/common.sh
. "$(dirname -- "$(readlink -f -- "${BASH_SOURCE[0]}")")/common.sh"

build_rust || exit
command -v jq >/dev/null || lacks jq || exit
find_jsonpatch || exit

# The part that is got.
place=/accounts/account-000003/address/city

rows=()
# A row for each size from $4 on, of the job $1 on the shape $2 with the program's word $3: what
# the job, the program, the bytes of the input and the instructions are.
job() {
  local title=$1 shape=$2 word=$3 size input i
  shift 3
  for size in "$@"; do
    input=$shape-$size.json
    python3 job_inputs.py "$shape" "$size" >"$input"
    for i in "${!titles[@]}"; do
      say "$title, $shape $size: ${titles[i]} .."
      # shellcheck disable=SC2086 # the words of the command
      rows+=("$title;${titles[i]};$(wc -c <"$input");$(count "$input" "sizes.$i.out" ${commands[i]/COMMAND/$word})")
      compare "${titles[i]}" "sizes.$i.out" mergejoin sizes.0.out
    done
  done
}

# The programs that the next job is measured with: these two, and others by add.
programs() {
  titles=() commands=()
  add mergejoin './mergejoin COMMAND'
  add Rust "$rust COMMAND"
}

programs
add jq 'jq -cS -f merge.jq'
read -ra bytes < <(sizes_of 10000 100000 1000000)
job 'merge' points merge "${bytes[@]}"
programs
add jsonpatch "$(interpreter "$python") patch.py"
job 'patch' edits patch "${bytes[@]}"
programs
add jq "jq -cS --arg path $place -f get.jq"
job 'get' document "get $place" "${bytes[@]}"
programs
read -ra patches < <(sizes_of 85 850 8500)
job 'join' join join "${patches[@]}"
read -ra patches < <(sizes_of 60 600 6000)
job 'replay' replay replay "${patches[@]}"
job 'rewrite' touched rewrite "${bytes[@]}"

if [[ -n ${BENCH_SMALL-} ]]; then kept=/dev/stdout; else kept=$top/bench/sizes.txt; fi
printf '%s\n' "${rows[@]}" >"$kept"
exit "$differ"
