# shellcheck shell=bash
# How bin/prove, bin/library, bin/install and bin/package make what others take: in an environment that changes nothing of it. Files are made
# whole in a private directory next to their places, and then all are put there, or none.

# All that may be set where something is made, next to the toolchain's own settings; what is not here is unset.
allowed=(HOME LC_ALL LOGNAME OLDPWD PATH PWD SHLVL SSH_AUTH_SOCK TMPDIR TZ USER _)

# A directory for temporary files whose path make and each shell take as it is: that of TMPDIR, or else another.
plain_tmpdir() {
  local LC_ALL=C each
  for each in "${TMPDIR-}" /var/tmp /tmp; do
    if [[ $each =~ ^/[A-Za-z0-9/._+-]*$ && -d $each && -w $each && -x $each ]]; then printf '%s\n' "$each" && return; fi
  done
  say 'no directory for temporary files can be written to: set TMPDIR to the absolute path of one'
  return 1
}

# The names of what is set, and may be.
kept_names() { compgen -e | grep -xE "$(IFS='|' && printf '%s' "${allowed[*]}")|(RT|RATTLE)_.*"; }

# Whether a function or a variable is exported that may not be, or one has another value than it has to.
is_strange() {
  [[ ${LC_ALL-} == C && ${TZ-} == UTC && ${TMPDIR-} == "$1" && -z $(declare -Fx) && $(compgen -e) == "$(kept_names)" ]] || return 0
  return 1
}

# Goes on with what is allowed alone, by running the script anew if something else is set. It is given the script's arguments.
clean_environment() {
  local directory name kept=()
  umask 022
  directory=$(plain_tmpdir) || exit
  is_strange "$directory" || return 0
  for name in $(kept_names); do kept+=("$name=${!name}"); done
  exec env -i "${kept[@]}" LC_ALL=C TZ=UTC TMPDIR="$directory" "$BASH" -- "${BASH_SOURCE[-1]}" "$@"
}

# A text with no control byte.
plain() { printf '%s\n' "$1" | LC_ALL=C tr '\001-\011\013-\037\177' '?'; }

# Ends the script, of which nothing was done, with why.
refuse() {
  plain "${0##*/}: $1" >&2
  exit 2
}

# Looks at each directory on the way to a path, and at the path itself: what is there must be of its kind.
look_at() {
  local path=$1 directory=${1%/*}
  [[ ! -d $path ]] || refuse "$path is a directory"
  [[ ! -e $path || -f $path ]] || refuse "$path is there, and is not a file"
  while [[ -n $directory && ! -e $directory && ! -L $directory ]]; do directory=${directory%/*}; done
  directory=${directory:-/}
  [[ -d $directory ]] || refuse "$directory is there, and is not a directory"
  [[ -w $directory && -x $directory ]] || refuse "$directory can't be written to, so name another directory"
}

# Looks whether so many bytes are left for a directory, which need not be there yet. Further words say what else can be done.
look_for_space() {
  local directory=$1 left
  while [[ -n $directory && ! -d $directory ]]; do directory=${directory%/*}; done
  left=$(df --output=avail -B1 -- "${directory:-/}" | tail -n 1)
  ((left >= $2)) || { plain "${0##*/}: the disk of $1 has $((left)) bytes left, and $2 are needed${3-}" >&2 && exit 1; }
}

declare -A private=() # of each directory in which files are put, the one within it in which they are made
fresh=() places=()    # what was made, and where it is put

# One at a time puts files into a directory, and the next one waits.
lock() {
  mkdir -p -- "$1"
  exec 8<"$1"
  flock -n 8 || { say "waiting for another that writes to $1 .."; flock 8; }
}

# Says by fresh[-1] where a file is made that is put at a path. Nobody else can have put a link or a directory there.
fresh_for() {
  local directory=${1%/*}
  directory=${directory:-/}
  if [[ -z ${private[$directory]-} ]]; then
    mkdir -p -- "$directory" && private[$directory]=$(mktemp -d -- "$directory/.mergejoin.XXXXXX") || return
  fi
  places+=("$1") fresh+=("${private[$directory]}/${1##*/}")
}

remove_private() { ((${#private[@]} == 0)) || rm -rf -- "${private[@]}"; }

# Puts all that was made in its place. If one can't be put, what was there is put back. No signal comes between.
put_all() {
  local at path
  trap '' INT TERM HUP
  for at in "${!places[@]}"; do
    path=${places[at]}
    if [[ ! -f $path && ! -L $path ]]; then continue; fi
    # (some file systems have no second name for a file)
    ln -P -- "$path" "${fresh[at]}.was" 2>/dev/null || cp -dp -- "$path" "${fresh[at]}.was" || return
  done
  for at in "${!places[@]}"; do
    mv -fT -- "${fresh[at]}" "${places[at]}" || { put_back "$at" || true; return 1; }
  done
  trap - INT TERM HUP
}

# Puts back what was in the first so many places. What can't be put back is kept.
put_back() {
  local at directory
  for ((at = 0; at < $1; at++)); do
    if [[ ! -e ${fresh[at]}.was && ! -L ${fresh[at]}.was ]]; then
      rm -f -- "${places[at]}"
    elif ! mv -fT -- "${fresh[at]}.was" "${places[at]}"; then
      say "what was ${places[at]} is ${fresh[at]}.was"
      directory=${places[at]%/*}
      unset 'private[${directory:-/}]'
    fi
  done
}

# Says what was done with each file. All are in place by then, whoever reads it.
report() {
  local lines
  lines=$(printf "$1 %s\n" "${places[@]}")
  trap '' PIPE
  plain "$lines" 2>/dev/null || { say "all is $1, but standard output can't be written to"; return 1; }
}
