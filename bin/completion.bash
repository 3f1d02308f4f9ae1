# shellcheck shell=bash
# Completion for bash, which docs/completing.py prints. bin/install puts it where the shell looks for it; else say . bin/completion.bash.
_mergejoin() {
  local word=${COMP_WORDS[COMP_CWORD]} words=
  case $COMP_CWORD:${COMP_WORDS[0]##*/} in
  1:mergejoin) words='--help get patch merge join replay rewrite' ;;
  1:mergejoin-feed) [[ $word != -* ]] || words='--help --version --lines' ;;
  1:mergejoin-conflicts) [[ $word != -* ]] || words='--help --version' ;;
  1:mergejoin-locate) words='--help --version get patch merge join replay rewrite' ;;
  *:mergejoin) words=--help ;;
  esac
  # (of a command that takes files, an option is wanted where one was begun)
  mapfile -t COMPREPLY < <(compgen -W "$words" -- "$word")
}

complete -F _mergejoin mergejoin
complete -o default -F _mergejoin mergejoin-feed
complete -o default -F _mergejoin mergejoin-conflicts
complete -o default -F _mergejoin mergejoin-locate
