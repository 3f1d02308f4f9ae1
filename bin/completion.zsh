#compdef mergejoin mergejoin-feed mergejoin-conflicts mergejoin-locate
# Completion for zsh, which docs/completing.py prints. bin/install puts it where the shell looks for it; else it is _mergejoin in a directory of fpath.
_mergejoin() {
  local -a first
  case $((CURRENT - 1)):$service in
  1:mergejoin) first=(--help get patch merge join replay rewrite) ;;
  1:mergejoin-feed) _files; first=(--help --version --lines) ;;
  1:mergejoin-conflicts) _files; first=(--help --version) ;;
  1:mergejoin-locate) first=(--help --version get patch merge join replay rewrite) ;;
  *:mergejoin) first=(--help) ;;
  *) _files ;;
  esac
  compadd -a first
}

_mergejoin "$@"
