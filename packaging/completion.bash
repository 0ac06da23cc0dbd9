# Completion of bash for the program parity. It asks the program itself: what --help names is offered.
_parity() {
  local word=${COMP_WORDS[COMP_CWORD]} before=${COMP_WORDS[COMP_CWORD - 1]} program=${COMP_WORDS[0]} offered help
  COMPREPLY=()
  if [ "$COMP_CWORD" -eq 1 ]; then
    offered=$("$program" --help 2>/dev/null | sed -n 's/^ *parity \([a-z][a-z-]*\) .*/\1/p' | sort -u)
    mapfile -t COMPREPLY < <(compgen -W "$offered --help --version" -- "$word")
    return
  fi
  help=$("$program" "${COMP_WORDS[1]}" --help 2>/dev/null) || return
  case $before in
    --from | --to)
      mapfile -t COMPREPLY < <(compgen -W "alist text record" -- "$word")
      ;;
    --by | --channel)
      # its values stand behind it, with bars between, or in lines of their own
      offered=$(sed -n "s/.*\[$before \([a-z-]*|[a-z|-]*\)\].*/\1/p" <<<"$help" | tr '|' ' ')
      [ -n "$offered" ] || offered=$(sed -n 's/^  \([a-z][a-z-]*\)  .*/\1/p' <<<"$help")
      mapfile -t COMPREPLY < <(compgen -W "$offered" -- "$word")
      ;;
    *)
      if [[ $word == -* ]]; then
        offered=$(grep -o -e '--[a-z][a-z-]*' <<<"$help" | sort -u)
        mapfile -t COMPREPLY < <(compgen -W "$offered --help" -- "$word")
      else
        mapfile -t COMPREPLY < <(compgen -f -- "$word")
      fi
      ;;
  esac
}
complete -o filenames -F _parity parity
