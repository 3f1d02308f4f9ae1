# shellcheck shell=bash
# What the modes of bench/run share: the directory that all is measured in, the counting
# of instructions, and the table of several programs next to each other.

# shellcheck source=bin/program.sh
. "$(dirname -- "$(readlink -f -- "${BASH_SOURCE[0]}")")/../bin/program.sh"

# All that is built and measured is in a directory outside the repository.
"$top/bin/prove" </dev/null
work=${TMPDIR:-/tmp}/mergejoin-bench-$(id -u)
[[ -d $work ]] || mkdir -m 700 -- "$work"
[[ -O $work && ! -L $work ]] || { printf 'bench: %s belongs to someone else\n' "$work" >&2; exit 1; }
cd -- "$work" || exit
cp -r -- "$program" "$top"/bench/{rust,*.py,*.cpp,*.jq} .
exec </dev/null

say() { printf 'bench: %s\n' "$1" >&2; }

# Reports of a package that is wanted and is not here: nothing is installed unasked.
lacks() {
  say "this wants Debian's package $1: apt-get install $1"
  return 1
}

# The interpreter itself, where the python3 named $1 is a script that finds it.
interpreter() { "$1" -c 'import sys; print(sys.executable)'; }

# With one seed, so that the count of Python repeats.
export PYTHONHASHSEED=0

# Runs the command from $3 on, on the input $1 and with its output in $2 and its lines
# of refusal in $2.err. It must end with the status $expected, or else with 0.
watched() {
  local input=$1 output=$2 status=0
  shift 2
  "$@" <"$input" >"$output" 2>"$output.err" || status=$?
  ((status == ${expected:-0})) || { say "$* ended with $status: $work/$output.err"; return 1; }
}

# Prints the number of instructions of such a run.
count() {
  watched "$1" "$2" valgrind --tool=callgrind --callgrind-out-file=/dev/null \
    --log-file=callgrind.log "${@:3}" || return
  awk '/ Collected :/ { print $NF }' callgrind.log
}

command -v valgrind >/dev/null || lacks valgrind || exit

# Says it where the output $2 of $1 is not the output $4 of $3: then the mode fails.
differ=0
compare() {
  cmp -s -- "$2" "$4" && return
  say "DIFFERS: $1 prints $work/$2, $3 $work/$4"
  # shellcheck disable=SC2034 # the status that the modes end with
  differ=1
}

# Builds the same program in Rust, $rust, over the source of serde_json that Debian's
# package puts here, whose name and version are then $serde_json.
build_rust() {
  local registry=/usr/share/cargo/registry
  if ! command -v cargo >/dev/null; then
    say 'no cargo here: without the peer in Rust'
    return 1
  fi
  compgen -G "$registry/serde_json-*" >/dev/null || lacks librust-serde-json-dev || return
  if ! (cd rust && cargo build --release --offline --target-dir target) >cargo.log 2>&1; then
    say "the peer in Rust can't be built: $work/cargo.log"
    return 1
  fi
  # shellcheck disable=SC2034 # for the modes
  rust=rust/target/release/mergejoin-peer
  serde_json=$(basename -- "$registry"/serde_json-*)
  serde_json=${serde_json/-/ }
}

# Finds a Python that has jsonpatch, $python: the one on the PATH, or Debian's own.
has_jsonpatch() { "$1" -c 'import jsonpatch' 2>/dev/null; }
find_jsonpatch() {
  # shellcheck disable=SC2034 # for the modes
  if has_jsonpatch python3; then
    python=python3
  elif has_jsonpatch /usr/bin/python3; then
    python=/usr/bin/python3
  else
    lacks python3-jsonpatch
  fi
}

# The sizes that are measured, which rise. With BENCH_SMALL, which the tests set, it is the first alone.
sizes_of() { if [[ -n ${BENCH_SMALL-} ]]; then echo "$1"; else echo "$*"; fi; }

# The programs: each with its name in the table and its command, of words with no space.
titles=() commands=()
add() { titles+=("$1") commands+=("$2"); }

# Counts each program on the input $1.json, which becomes a column of the table, and
# compares what they print.
sizes=() counts=()
measure() {
  local i instructions
  sizes+=("$(wc -c <"$1.json")")
  for i in "${!titles[@]}"; do
    say "$1.json: ${titles[i]} .."
    # shellcheck disable=SC2086 # the words of the command
    instructions=$(count "$1.json" "$1.$i.out" ${commands[i]})
    counts+=("$instructions")
    compare "${titles[i]}" "$1.$i.out" mergejoin "$1.0.out"
  done
}

# The words $1, and under them when and where it was measured.
print_head() (
  . /etc/os-release
  printf '%s\n' "$1"
  printf '%s, %s, %s, %s.\n\n' "$(date -u +%F)" "$(uname -m)" "${PRETTY_NAME:-}" "$(valgrind --version)"
)

# The table of what was measured, in millions; in brackets the ratio to the program
# with place $1, if there is one.
print_table() {
  local i k row size
  printf '| program |'
  for size in "${sizes[@]}"; do awk -v n="$size" 'BEGIN { printf " %.1f kB |", n / 1000 }'; done
  printf '\n| --- |'
  printf ' ---: |%.0s' "${sizes[@]}"
  printf '\n'
  for i in "${!titles[@]}"; do
    printf '| %s |' "${titles[i]}"
    for k in "${!sizes[@]}"; do
      row=$((k * ${#titles[@]}))
      awk -v n="${counts[row + i]}" -v r="${1:+${counts[row + $1]}}" \
        'BEGIN { printf " %.2f", n / 1e6; if (r) printf " (%.2f)", n / r; printf " |" }'
    done
    printf '\n'
  done
}
