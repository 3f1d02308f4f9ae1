# shellcheck shell=bash
# Where the built program is, and what it was built from: read by the other scripts.

top=$(CDPATH='' cd -- "${BASH_SOURCE[0]%/*}/.." && pwd -P) || exit # of the repository
program=$top/out/mergejoin         # the proved program that bin/mergejoin runs
built_from=$top/out/mergejoin.sum  # the checksums of the sources that it was built from, and of its own bytes
built_by=$top/out/mergejoin.kit    # the toolchain that proved and built it
unchanged=$top/out/mergejoin.list  # the names, times and sizes of all these when they were seen to have those checksums
facts='%p %T@ %C@ %s\n'            # of a file. A program can set the time of a file's text, but not that of its last change (%C@)
kinds=(-name '*.rt' -o -name '*.antt' -o -name crates.txt -o -path HANDLES)
left_out=(-regex 'crates/[^/]*/out' -prune) # by rt: a directory of this name within a crate's modules has sources, as any other

# Standard error may be closed.
say() { printf 'mergejoin: %s\n' "$1" >&2 || true; }

# Where the sources are in the current directory. HANDLES says what they may use, and need not be there.
list_roots() {
  roots=(crates.txt crates)
  if [[ -e HANDLES ]]; then roots+=(HANDLES); fi
}

# One checksum over the sources, specs and proofs of every crate, crates.txt and HANDLES, in a directory: the repository, or a copy.
sources_sum() (
  CDPATH='' cd -- "$1" || exit
  list_roots
  find "${roots[@]}" "${left_out[@]}" -o -type f \( "${kinds[@]}" \) -print0 | LC_ALL=C sort -z | xargs -0 sha256sum | sum_of
)

# The checksum of standard input.
sum_of() {
  local sum
  sum=$(sha256sum)
  printf '%s\n' "${sum%% *}"
}

# The names, times and sizes of the sources and of the program: if these are as they were, nothing was changed, and no file is
# read.
built_list() (
  CDPATH='' cd -- "$top" || exit
  list_roots
  find "${roots[@]}" out/mergejoin "${left_out[@]}" -o -type f \( "${kinds[@]}" -o -path out/mergejoin \) -printf "$facts"
)

# Those of the sources and of all directories in which they are: they show whether something was changed or moved meanwhile, also
# if it was put back. The directories of the crates themselves are left out, since rt makes and moves out/ there.
sources_state() (
  CDPATH='' cd -- "$top" || exit
  list_roots
  find "${roots[@]}" "${left_out[@]}" -o \( -type f \( "${kinds[@]}" \) -o -path crates -o -type d -path 'crates/*/*' \) \
    -printf "%i $facts"
)

# Writes the checksums of the sources, which are given, and of what was built of them.
write_sums() { printf '%s  sources\n%s  %s\n' "$1" "$(sum_of <"$2")" "${2##*/}"; }

# The checksum of what was built, of such a file.
built_sum() {
  local sum
  { read -r _ && read -r sum _; } <"$1" && printf '%s\n' "$sum"
}

# Whether such a file has the checksum of the sources as they are, and that of what was built.
has_sums() {
  local from built
  { read -r from _ && read -r built _; } <"$1" || return
  [[ $from == "$(sources_sum "$top")" ]] || return
  [[ $built == "$(sum_of <"$2")" ]] || {
    say "$2 is not what was built there, and is not used: its checksum differs"
    return 1
  }
}

# Whether the program is there as it was built, and of the sources as they are.
is_built() {
  [[ -x $program && ! -L $program && -r $built_from ]] || return
  local list
  list=$(built_list)
  if [[ -r $unchanged && $(<"$unchanged") == "$list" ]]; then return; fi
  has_sums "$built_from" "$program" || return
  # A directory that can't be written to is no fault here.
  { printf '%s\n' "$list" >"$unchanged.$BASHPID" && mv -f -- "$unchanged.$BASHPID" "$unchanged"; } 2>/dev/null || true
}

# Keeps the program that rt has just proved and linked in a directory, with the given checksum of its sources and its own. All is
# made whole in a directory apart, and the checksums come last.
keep_program() {
  local made
  made=$(mktemp -d -- "$top/out/keep.XXXXXX")
  cp -- "$2/crates/mergejoin/out/mergejoin" "$made/mergejoin"
  rt version >"$made/kit"
  write_sums "$1" "$made/mergejoin" >"$made/sum"
  rm -f -- "$built_from" "$unchanged"
  mv -fT -- "$made/mergejoin" "$program"
  mv -fT -- "$made/kit" "$built_by"
  mv -fT -- "$made/sum" "$built_from"
  rmdir -- "$made"
}
