# shellcheck shell=bash disable=SC2154
# The answer of the sources as they are, if there is no proved program of them: read by
# bin/mergejoin. rt try compiles them, runs what it compiled once, and adds two lines to
# standard error, which are taken away.

LONGEST=1048576 # bytes of the input: what is beyond one more changes no answer

# Ends with the program's own status.
end() { trap - EXIT; rm -rf -- "$directory"; exit "$1"; }

# Ends as the program does if a stream fails.
fail() {
  printf '%s\n' "$1" >&2 || true
  end 3
}

# Runs a command in the background, so that a signal can stop this script before the command has ended.
await() {
  local status=0
  "$@" <&0 &
  run=$!
  wait "$run" || status=$?
  run=
  return "$status"
}

# shellcheck disable=SC2317
# Ends the run if a signal stops this script, and by the same signal.
stop() {
  trap '' INT TERM HUP
  if [[ -n $run ]]; then { kill -TERM "$run" && wait "$run"; } 2>/dev/null || true; fi
  rm -rf -- "$directory"
  trap - EXIT INT TERM HUP
  kill -s "$1" $$
}

# Whether these arguments ask for an answer to standard input.
reads_input() {
  local word
  for word in "$@"; do [[ $word != --help && $word != -h ]] || return; done
  [[ ${1-} =~ ^(get|patch|merge|join|replay|rewrite)$ ]]
}

# shellcheck source=bin/publish.sh
. "$top/bin/publish.sh"
directory='' run=''
command -v rt >/dev/null || { say "the Rattle toolchain's command rt is not on the PATH"; exit; }
[[ -r $top/crates.txt && -d $top/crates/mergejoin ]] || { say "$top has no crates to run"; exit; }
say "this answer comes from the sources as they are, not from the proved program, and takes a minute or two, each time until \
bin/prove has run once: that proves and builds the program in some 15 minutes, and a call takes 12 ms then"
trap 'rm -rf -- "$directory"; exit 125' EXIT
for signal in INT TERM HUP; do
  # shellcheck disable=SC2064
  trap "stop $signal" "$signal"
done
# (rt runs in another directory, so a relative TMPDIR does not do)
TMPDIR=$(plain_tmpdir) || exit
export TMPDIR
directory=$(mktemp -d) || { say 'there is no directory to write to for a run'; exit; }

# All of standard input: rt takes what arrived before a silence of two seconds.
: >"$directory/in"
if reads_input "$@"; then
  await head -c $((LONGEST + 1)) >"$directory/in" 2>/dev/null || fail 'read failed'
fi
CDPATH='' cd -- "$top/crates/mergejoin" || exit
status=0
await rt try --seconds 600 -- "$@" <"$directory/in" >"$directory/out" 2>"$directory/err" || status=$?

reported=$(tail -n 2 -- "$directory/err")
if [[ $reported != "checked: ended status=$status"$'\n'"run=ended status=$status "*' proved=no' ]]; then
  say "the sources gave no answer: rt try ended with status $status, and said:"
  # It may show the end of what the program printed, in one line.
  cut -b 1-300 -- "$directory/err" >&2 || true
  exit
fi
head -n -2 -- "$directory/err" >&2 || true
cat -- "$directory/out" 2>/dev/null || fail 'write failed'
end "$status"
