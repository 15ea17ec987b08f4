# Completion of adbhub's commands, options, states and serials for bash. `make install` puts it where the package
# bash-completion finds it. Without that package: source this file.

# Prints the words that begin as the last word does.
_adbhub_words() {
  COMPREPLY=($(compgen -W "$1" -- "$2"))
}

# Prints the serials that the server of the command line lists. Nothing is printed if no server listens.
_adbhub_serials() {
  local at port=5037
  for ((at = 2; at < COMP_CWORD; at++)); do
    if [[ ${COMP_WORDS[at]} == --port ]]; then
      port=${COMP_WORDS[at + 1]}
      [[ $port != = ]] || port=${COMP_WORDS[at + 2]}
    fi
  done
  timeout 2 "${COMP_WORDS[0]}" devices --port "$port" 2> /dev/null < /dev/null | cut -f 1
}

_adbhub() {
  local word=${COMP_WORDS[COMP_CWORD]} before=${COMP_WORDS[COMP_CWORD - 1]} command=${COMP_WORDS[1]} options at
  COMPREPLY=()
  if ((COMP_CWORD == 1)); then
    _adbhub_words 'serve devices push pull shell wait check replay local copy gen' "$word"
    return
  fi
  # bash cuts `--port=1` into three words
  if [[ $word == = ]]; then
    word='' && before=${COMP_WORDS[COMP_CWORD - 1]}
  elif [[ $before == = ]]; then
    before=${COMP_WORDS[COMP_CWORD - 2]}
  fi
  case $before in
    --serial) _adbhub_words "$(_adbhub_serials)" "$word"; return ;;
    --port | --device | --connect | --mtime) return ;;
  esac
  case $command in
    serve) options='--port --device --connect --record' ;;
    devices | wait) options='--port' ;;
    push) options='--serial --mtime --port' ;;
    pull | shell) options='--serial --port' ;;
    *) return ;;
  esac
  if [[ $word == -* ]] || [[ $command == serve || $command == devices ]]; then
    for ((at = 2; at < COMP_CWORD; at++)); do
      case ${COMP_WORDS[at]} in
        --port | --record | --serial | --mtime) options=${options/${COMP_WORDS[at]}/} ;;
      esac
    done
    _adbhub_words "$options" "$word"
  elif [[ $command == wait ]]; then
    _adbhub_wait "$word"
  fi
}

# Completes the operands of `wait`: a serial, and then a state.
_adbhub_wait() {
  local at operands=0
  for ((at = 2; at < COMP_CWORD; at++)); do
    case ${COMP_WORDS[at]} in
      --port) [[ ${COMP_WORDS[at + 1]} == = ]] && ((at += 2)) || ((at += 1)) ;;
      *) ((operands += 1)) ;;
    esac
  done
  case $operands in
    0) _adbhub_words "$(_adbhub_serials)" "$1" ;;
    1) _adbhub_words 'offline unauthorized device bootloader recovery sideload rescue host' "$1" ;;
  esac
}

complete -F _adbhub adbhub
