# shellcheck shell=bash disable=SC2154
# A copy of the sources, in which bin/prove and bin/library prove and build: what is edited meanwhile, and perhaps put back, is not
# in what they build, and its checksum is that of what was built. It is in a temporary directory outside of the repository, since
# rt ci refuses sources at any other place within. Whoever reads this holds the lock of builds.

# One place for each repository, so that the next build takes away what one that was killed has left there.
snapshot=$TMPDIR/mergejoin-build-$(id -u)-$(sum_of <<<"$top" | head -c 16)

remove_snapshot() { if [[ -O $snapshot && ! -L $snapshot ]]; then rm -rf -- "$snapshot"; fi; }

# Makes the copy, which is the user's alone.
make_snapshot() {
  local files=(crates.txt crates)
  if [[ -e $top/HANDLES ]]; then files+=(HANDLES); fi
  # What another user has put there stays, and is no place to build in.
  remove_snapshot
  mkdir -m 700 -- "$snapshot" && chmod g-s -- "$snapshot" || return
  tar -C "$top" --anchored --no-wildcards-match-slash --exclude='crates/*/out' -cf - "${files[@]}" | tar -C "$snapshot" -xf -
}

# Moves what rt keeps of a crate from the repository into the copy, or back: what it proved, the library, and the program with what
# says of which sources it is. So rt begins with that, and later checks begin with what this build adds. If rt is at work on the
# crate, nothing is moved. No verdict rests on it, except that rt takes a program of the same sources as built: so only the one
# that was built there is moved.
move_kept() (
  from=$2/crates/$1/out to=$3/crates/$1/out
  flock -n 8 || exit 0
  for part in incremental rlib "$1" "$1.o" "$1.stamp"; do
    if [[ ! -e $from/$part ]]; then continue; fi
    if [[ $part == "$1" && $(sum_of <"$from/$part") != "$(built_sum "$built_from" 2>/dev/null)" ]]; then break; fi
    mkdir -p -- "$to"
    rm -rf -- "${to:?}/$part"
    mv -T -- "$from/$part" "$to/$part"
  done
) 8<"$top/crates/$1"

# Takes these crates for the copy, and gives them back.
lend_kept() {
  local name
  for name in "$@"; do move_kept "$name" "$top" "$snapshot" || true; done
}
give_kept() {
  local name
  for name in "$@"; do move_kept "$name" "$snapshot" "$top" || true; done
}
