#!/usr/bin/env bash
# bench/run: job by job (bench/job_inputs.py), the instructions, the processor's time and
# the memory of this program, of the same in Rust with serde_json (bench/rust), and their
# ratios. What the two print, and their statuses, must be the same. The time is the least
# of fifteen runs of both in turn; the memory is the most that was resident, the least of
# five runs. Each row is printed once it is measured.
set -euo pipefail

# shellcheck source=bench/common.sh
. "$(dirname -- "$(readlink -f -- "${BASH_SOURCE[0]}")")/common.sh"

build_rust || exit
command -v /usr/bin/time >/dev/null || lacks time || exit

# Prints the memory of such a run as of watched, in KiB. A process has its parent's for
# a moment when it starts, so the parent is GNU's time, which is small, and not Python.
memory() {
  for _ in $(sizes_of 1 2 3 4 5); do
    watched "$1" "$2" /usr/bin/time -q -f %M -o memory.log "${@:3}" || return
    cat memory.log
  done | sort -n | sed -n 1p
}

# One row: the job $1, the bytes of its input, the instructions of both programs, the
# memory of both, and their times.
print_row() {
  awk -v job="$1" -v bytes="$2" -v our_count="$3" -v rust_count="$4" \
    -v our_memory="$5" -v rust_memory="$6" -v our_time="$7" -v rust_time="$8" 'BEGIN {
      printf "| %s | %.1f |", job, bytes / 1e3
      printf " %.2f | %.2f | %.2f |", our_count / 1e6, rust_count / 1e6, our_count / rust_count
      printf " %.1f | %.1f | %.2f |", our_time, rust_time, our_time / rust_time
      megabytes = 1024 / 1e6
      printf " %.1f | %.1f | %.2f |\n", our_memory * megabytes, rust_memory * megabytes, our_memory / rust_memory
    }'
}

# Measures the job $1 on the input of shape $2 and size $3, with the words from $4 on. Both programs must end with the status
# $expected, or else with 0.
number=0
job() {
  local title=$1 shape=$2 size=$3 input output=job-$number
  local our_count rust_count our_memory rust_memory times
  shift 3
  if [[ -n ${BENCH_SMALL-} ]] && ((size > 10000)); then size=10000; fi
  input=$shape-$size.json number=$((number + 1))
  say "$title, $shape $size .."
  python3 job_inputs.py "$shape" "$size" >"$input"
  our_count=$(count "$input" "$output.ours" ./mergejoin "$@")
  rust_count=$(count "$input" "$output.rust" "$rust" "$@")
  our_memory=$(memory "$input" "$output.ours" ./mergejoin "$@")
  rust_memory=$(memory "$input" "$output.rust" "$rust" "$@")
  times=$(python3 least_time.py "$input" "${expected:-0}" ./mergejoin "$rust" "$@")
  read -ra times <<<"$times"
  compare mergejoin "$output.ours" Rust "$output.rust"
  compare mergejoin "$output.ours.err" Rust "$output.rust.err"
  print_row "$title" "$(wc -c <"$input")" \
    "$our_count" "$rust_count" "$our_memory" "$rust_memory" "${times[@]}"
}

print_head "Jobs of this program and of the same in Rust with $serde_json: millions of instructions by callgrind, the least time in the processor in ms, and the most memory in MB; the ratios are ours to Rust's."
echo '| job | reads, kB | ours, millions | Rust | ratio | ours, ms | Rust | ratio | ours, MB | Rust | ratio |'
echo '| --- | ---: | ---: | ---: | ---: | ---: | ---: | ---: | ---: | ---: | ---: |'
read -ra sizes < <(sizes_of 10000 100000 1000000)
read -ra counts < <(sizes_of 10 500 5000)
for size in "${sizes[@]}"; do job 'merge, flat texts' texts "$size" merge; done
for size in "${sizes[@]}"; do job 'merge, small objects' points "$size" merge; done
for size in "${sizes[@]}"; do job 'merge, arrays of numbers' rows "$size" merge; done
job 'merge, 100 deep' deep 300000 merge
job 'merge, chains of one name' chains 300000 merge
for count in "${counts[@]}"; do job "patch, $count operations" patch "$count" patch; done
job 'patch, 1000 moves of members' moves 1000 patch
job 'patch, 1000 moves of a large value' large 1000 patch
job 'patch, 1000 copies of arrays' arrays 1000 patch
job 'patch, 1000 copies of small objects' objects 1000 patch
for count in "${counts[@]}"; do job "join of $count patches" join "$count" join; done
for count in "${counts[@]}"; do job "replay of $count patches" replay "$count" replay; done
expected=1 job 'join of 5000 patches, the last conflicts with the fourth' conflict 5000 join
expected=1 job 'join of two patches, every name conflicts' conflicts 1000000 join
for size in "${sizes[@]}"; do job 'rewrite, every name is touched' touched "$size" rewrite; done
job 'rewrite, 100 deep' deep 300000 rewrite
job 'rewrite, chains of one name' chains 300000 rewrite
job 'get of a small part' document 1000000 get /accounts/account-000003/address/city
job 'get of the whole' document 1000000 get ''
job 'get of small objects' small 1000000 get ''
job 'get of true, null, [] and {}' empties 1000000 get ''
job 'start-up, merge of [5]' number 5 merge
exit "$differ"
