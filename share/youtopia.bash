# Completion of youtopia for bash, made by share/write.
_youtopia() {
  local word=${COMP_WORDS[COMP_CWORD]}
  COMPREPLY=()
  case ${COMP_WORDS[COMP_CWORD - 1]} in
    --deps) COMPREPLY=($(compgen -W "coarse precise" -- "$word")); return ;;
    --workers|--steps|--retries|--query|--tuple|--count|--seed) return ;;
  esac
  case $word in
    -*) COMPREPLY=($(compgen -W "--workers --deps --steps --retries --trace --query --tuple --count --seed --help --version" -- "$word")) ;;
    *) COMPREPLY=($(compgen -W "run serial format check save upgrade ask explain audit drill journal recover" -- "$word")) ;;
  esac
}
complete -F _youtopia youtopia
