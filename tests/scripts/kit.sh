#!/usr/bin/env bash
# A toolchain that proves nothing, for the tests of the scripts: what it builds and what it tries print their words and
# what they read. A program with a stamp next to it is taken as built. It fails at mp_patch where FAILS is set, and at a try
# where REFUSES is; where SLOW names a file it makes it and waits, until a signal stops it, and then takes the file away. If
# EDITS names a source of mp_tree, that is edited just before mp_tree is proved, and put back at the end unless STAYS is set;
# what is built says which text was read. Its ci says what is in GATE, and ends with ENDS; if TOUCHES names a file or a
# directory, it changes or moves that, and puts it back. bin/prove hands on no variable, so these stand in a file too. If one comes
# with it all the same, that is noted. Of what it proves it keeps a line for each time in out/incremental, as rt keeps its work there. An
# archive that stands next to it is what it makes of mp_c. A run for which it is given less than ten minutes has no answer.
setting=${BASH_SOURCE[0]%/*}/setting
if [[ -n ${STRAY-} ]]; then echo "$STRAY came too" >>"$STRAY"; fi
# shellcheck disable=SC1090
if [[ -r $setting ]]; then . "$setting"; fi
case $1 in
version) echo 'a kit for tests' ;;
doc) echo "${BASH_SOURCE[0]%/*}/START-HERE.md" ;;
lib)
  if [[ -n ${FAILS-} && $PWD == */mp_patch ]]; then echo 'not proved' && exit 1; fi
  echo "${PWD##*/}" >>"$LOG"
  mkdir -p out/incremental && echo proved >>out/incremental/lines
  if [[ $PWD == */mp_c ]]; then cp "${BASH_SOURCE[0]%/*}/libmp_c.a" out; fi
  if [[ $TMPDIR != /* || $TMPDIR == *' '* ]]; then echo "temporary files in $TMPDIR" >>"$LOG"; fi
  if [[ -n ${EDITS-} && $PWD == */mp_tree ]]; then
    printf '//! Two.\n' >"$EDITS"
    mkdir -p out && cp src/lib.rt out/read
  fi
  ;;
run)
  echo "${PWD##*/}" >>"$LOG"
  if [[ -e out/mergejoin.stamp ]]; then exit 0; fi
  of=
  if [[ -n ${EDITS-} ]]; then
    of=" of $(<../mp_tree/out/read)"
    [[ -n ${STAYS-} ]] || printf '//! One.\n' >"$EDITS"
  fi
  # shellcheck disable=SC2016
  mkdir -p out && printf '%s\n' '#!/usr/bin/env bash' 'echo "proved $*'"$of\"" >out/mergejoin && chmod +x out/mergejoin
  ;;
try)
  if [[ $2 != --seconds ]] || (($3 < 600)); then echo 'the run had no time' >&2 && exit 2; fi
  while [[ $1 != -- ]]; do shift; done
  shift
  echo "try in ${PWD##*/}" >>"$LOG"
  if [[ -n ${SLOW-} ]]; then
    trap 'rm -f -- "$SLOW"; kill "$!"; exit 143' TERM
    echo "$TMPDIR" >"$SLOW"
    sleep 60 &
    wait
  fi
  if [[ -n ${REFUSES-} ]]; then
    printf 'half an answer'
    printf 'error: %s\nrun=none proved=no\n' "$REFUSES" >&2
    exit 2
  fi
  printf '<%s>' "$@"
  printf ' %s %s\n' "$(wc -c </dev/stdin)" "$(md5sum </dev/stdin | head -c 8)"
  status=0
  if [[ $1 == get ]]; then echo missing >&2 && echo 'run=ended status=0 proved=no' >&2 && status=1; fi
  printf 'checked: ended status=%s\nrun=ended status=%s runners=1 proved=no\n' "$status" "$status" >&2
  exit "$status"
  ;;
ci)
  if [[ -d ${TOUCHES-} ]]; then
    mv "$TOUCHES" "$TOUCHES.away" && cp -rp "$TOUCHES.away" "$TOUCHES" && rm -r "$TOUCHES" && mv "$TOUCHES.away" "$TOUCHES"
  elif [[ -n ${TOUCHES-} ]]; then
    was=$(mktemp) && cp -p "$TOUCHES" "$was" && echo '# more' >>"$TOUCHES" && cp -p "$was" "$TOUCHES" && rm "$was"
  fi
  mkdir -p crates/mergejoin/out && printf '%s\n' '#!/usr/bin/env bash' 'echo proved' >crates/mergejoin/out/mergejoin
  chmod +x crates/mergejoin/out/mergejoin
  printf '%b\n' "proving ..\n${GATE-3 passed, 0 failed}"
  exit "${ENDS-0}"
  ;;
*) exit 9 ;;
esac
