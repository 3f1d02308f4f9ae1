# shellcheck shell=bash disable=SC2034,SC2154
# What bin/package and bin/package-arm64 share: each makes packages of $tree in $workspace.

# The version and its day, of the first head of CHANGELOG.md that has both.
read_version() {
  local head day
  head=$(grep -m 1 '^## [0-9.]* ([0-9-]*)$' "$top/CHANGELOG.md")
  read -r _ version day <<<"$head"
  SOURCE_DATE_EPOCH=$(date -d "${day//[()]/}" +%s)
  export SOURCE_DATE_EPOCH
}

# Puts the library into the tree, of the directory where bin/library has made it, with what describes it.
install_library() {
  local file files
  mapfile -t files < <(sed 's/^[0-9a-f]*  //' "$1/library.sum")
  for file in "${files[@]}"; do
    install -D -m 644 -- "$1/$file" "$tree/$file"
  done
  (CDPATH='' cd -- "$tree" && sha256sum --status --strict --check "$1/library.sum") ||
    { echo "package: the library in $1 is not what was built there: its checksums differ" >&2 && exit 125; }
  install -D -m 644 -- "$top/docs/mergejoin.3" "$tree/share/man/man3/mergejoin.3"
  ln -s libmergejoin.so.2 "$tree/lib/libmergejoin.so"
  install -D -m 644 -- "$top/docs/FROM-C.md" "$tree/share/doc/mergejoin/FROM-C.md"
}

# Writes a directory as a .tar.gz, all of the day of the version.
pack_tree() {
  find "$1" -exec touch -h -d "@$SOURCE_DATE_EPOCH" {} +
  tar -C "${1%/*}" --sort=name --owner=0 --group=0 --numeric-owner -cf - "${1##*/}" | gzip -9n >"$2"
}

# Whether what makes a wheel is installed for the distribution's own Python.
has_wheels() {
  /usr/bin/python3 -c 'import setuptools, wheel, pip, sysconfig as it; open(it.get_path("include") + "/Python.h")' 2>/dev/null
}

# Copies the sources of the package for Python into a directory, since what is made on the way is left next to them.
copy_python() {
  cp -r -- "$top/bindings/python" "$1/python"
  cp -- "$top/LICENSE" "$1/python"
  rm -rf -- "$1/python/build" "$1/python/src"/*.egg-info
  chmod -R u=rwX,go=rX -- "$1/python"
}

# Makes the wheel, with the library of the tree, and with these variables set.
make_wheel() {
  mkdir -- "$workspace/wheel"
  copy_python "$workspace/wheel"
  (CDPATH='' cd -- "$workspace" && env MERGEJOIN_LIB="$tree/lib" "$@" /usr/bin/python3 -m pip --isolated --no-cache-dir \
    --disable-pip-version-check wheel --quiet --no-deps --no-index --no-build-isolation --wheel-dir "$workspace" ./wheel/python)
}

# Puts what was made into a directory, all files or none, and reports it.
publish() {
  local directory=$1 file needed=0
  for file in "${made[@]}"; do needed=$((needed + $(stat -c %s -- "$workspace/$file"))); done
  look_for_space "$directory" "$needed"
  lock "${directory:-/}"
  trap 'rm -rf -- "$workspace"; remove_private' EXIT
  for file in "${made[@]}"; do
    fresh_for "$directory/$file"
    cp -- "$workspace/$file" "${fresh[-1]}"
  done
  put_all
}
