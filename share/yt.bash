# Completion of yt for bash, made by share/write.
_yt() {
  local word=${COMP_WORDS[COMP_CWORD]} before=${COMP_WORDS[COMP_CWORD - 1]}
  local verbs="relation mapping adopt drop insert delete replace load answer undo redo try fold status show ask why questions violations log export page graph dump help quit"
  local options file= verb= i
  COMPREPLY=()
  for ((i = 1; i < COMP_CWORD; i++)); do
    case $verb${COMP_WORDS[i]} in
      --as|--wait) i=$((i + 1)) ;;
      -*) ;;
      *) if [ -z "$file" ]; then file=${COMP_WORDS[i]}; elif [ -z "$verb" ] || [ "$verb" = try ]; then verb=${COMP_WORDS[i]}; fi ;;
    esac
  done
  case $verb$before in --as|--wait) return ;; esac
  case $before in
    --empty) COMPREPLY=($(compgen -W "new text skip refuse" -- "$word")); return ;;
    --separator) COMPREPLY=($(compgen -W "tab" -- "$word")); return ;;
    --to|--sqlite) COMPREPLY=($(compgen -f -- "$word")); return ;;
  esac
  case $verb in
    '') options="--as --json --wait --keep-going --no-files --help --version" ;;
    relation) options="--still" ;;
    mapping) options="--still" ;;
    adopt) options="--steps --still" ;;
    drop) options="--still" ;;
    insert) options="--only --steps --still" ;;
    delete) options="--only --cascade --steps --still" ;;
    replace) options="--only --cascade --steps --still" ;;
    load) options="--create --empty --separator --text --unknowns --steps --null --columns --lines --still" ;;
    answer) options="--at --still" ;;
    undo) options="--answers --still" ;;
    redo) options="--still" ;;
    fold) options="--still" ;;
    show) options="--limit --unknowns --from --like" ;;
    ask) options="--unknowns --limit" ;;
    why) options="--dot" ;;
    questions) options="--like --limit --mine" ;;
    violations) options="--limit" ;;
    log) options="--limit --since" ;;
    export) options="--csv --sql --json --to --sqlite" ;;
    page) options="--to" ;;
    graph) options="--to" ;;
    dump) options="--to" ;;
  esac
  case $word in
    -*) COMPREPLY=($(compgen -W "$options" -- "$word")) ;;
    *)
      if [ -z "$file" ] || [ "$verb" = load ]; then COMPREPLY=($(compgen -f -- "$word"))
      elif [ -z "$verb" ] || [ "$verb" = try ] || [ "$verb" = help ]; then COMPREPLY=($(compgen -W "$verbs" -- "$word")); fi ;;
  esac
}
complete -F _yt yt
