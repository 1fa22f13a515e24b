# Completion of popqc's commands and options for bash. install.sh puts it where bash-completion looks for it;
# without that package, `source` this file.

_popqc() {
  local word=${COMP_WORDS[COMP_CWORD]} before=${COMP_WORDS[COMP_CWORD - 1]} command="" it options
  COMPREPLY=()
  case $before in
    --omega | --workers | --seed | --qubits | --gates | =) return ;;
  esac
  for it in "${COMP_WORDS[@]:1:COMP_CWORD-1}"; do
    case $it in
      opt | check | gen | bench) command=$it ;;
    esac
  done
  case $command in
    opt) options="--omega --workers --drop-barriers" ;;
    check) options="--omega --drop-barriers" ;;
    gen) options="--seed --qubits --gates" ;;
    bench) options="--omega --workers --seed --qubits --gates" ;;
    *) options="opt check gen bench" ;;
  esac
  # each option stands once
  for it in $options; do
    case " ${COMP_WORDS[*]:1:COMP_CWORD-1} " in
      *" $it "*) ;;
      *) [[ $it == "$word"* ]] && COMPREPLY+=("$it") ;;
    esac
  done
}

complete -F _popqc popqc popqc.sh ./popqc.sh
