# Completion of gx and gx-check for bash.

# Completes the names of folders and of files *.gx.
_gx_script() {
  compopt -o filenames 2>/dev/null
  mapfile -t COMPREPLY < <(compgen -f -X '!*.gx' -- "$1"; compgen -d -- "$1")
}

_gx() {
  local word="${COMP_WORDS[COMP_CWORD]}" before="${COMP_WORDS[COMP_CWORD - 1]}" options="" option
  COMPREPLY=()
  if [ "$COMP_CWORD" -eq 1 ]; then
    mapfile -t COMPREPLY < <(compgen -W run -- "$word")
    return
  fi
  case "$before" in
    --parts | --workers) mapfile -t COMPREPLY < <(compgen -W "1 2 4 8 16 32 64" -- "$word") ;;
    --cut) mapfile -t COMPREPLY < <(compgen -W "1d 2d random canonical rows" -- "$word") ;;
    *)
      if [[ "$word" == -* ]]; then
        for option in --parts --cut --workers; do
          [[ " ${COMP_WORDS[*]} " == *" $option "* ]] || options+="$option "
        done
        mapfile -t COMPREPLY < <(compgen -W "$options" -- "$word")
      else
        _gx_script "$word"
      fi
      ;;
  esac
}

_gx_check() {
  COMPREPLY=()
  [ "$COMP_CWORD" -eq 1 ] && _gx_script "${COMP_WORDS[1]}"
}

complete -F _gx gx
complete -F _gx_check gx-check
