# Completes the words of swhost in bash.
_swhost() {
  local word=${COMP_WORDS[COMP_CWORD]} before=${COMP_WORDS[COMP_CWORD - 1]}
  COMPREPLY=()
  case $before in
    swhost | */swhost) mapfile -t COMPREPLY < <(compgen -W 'init replay watch quota show gen imports roster audit --help --version' -- "$word") ;;
    replay | watch) mapfile -t COMPREPLY < <(compgen -W '{1..16}' -- "$word") ;;
    '<')
      compopt -o filenames
      mapfile -t COMPREPLY < <(compgen -f -- "$word")
      ;;
  esac
}
complete -F _swhost swhost
