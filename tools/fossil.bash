# Completion for bash: `. tools/fossil.bash` in a check-out. The commands and what their words are come from the wrapper's list of help.

# the word that is to be typed at a place behind a command, by the list of help
_nightjargold_word() {
  local words
  read -ra words < <("$1" help | sed -n "s/^  \\($2 .*\\)/\\1/p")
  echo "${words[$3]-}"
}

# the first digits of the names in the second column of a report
_nightjargold_names() {
  FOSSIL_BUILD=no "$@" 2>/dev/null | cut -d' ' -f2 | cut -c1-12
}

_nightjargold() {
  local me=${COMP_WORDS[0]} word=${COMP_WORDS[COMP_CWORD]} first=${COMP_WORDS[1]-} command=${COMP_WORDS[2]-} commands
  commands=$("$me" help | sed -n 's/^  \([a-z-]*\) .*/\1/p')
  mapfile -t COMPREPLY < <(
    case $COMP_CWORD:$first in
      1:*) compgen -f -- "$word"; compgen -W 'help new version' -- "$word" ;;
      2:new) if [ -e new ]; then compgen -W "$commands" -- "$word"; else compgen -f -- "$word"; fi ;;
      2:*) compgen -W "$commands" -- "$word" ;;
      *)
        case $command:$(_nightjargold_word "$me" "$command" $((COMP_CWORD - 2))) in
          *:PEER | *:USERS) compgen -f -- "$word" ;;
          ticket:PREFIX | thread:PREFIX) compgen -W "$(_nightjargold_names "$me" "$first" "${command}s")" -- "$word" ;;
          *:PREFIX | *:PARENT) compgen -W "$(_nightjargold_names "$me" "$first" timeline 20)" -- "$word" ;;
          tickets:*) compgen -W "$(FOSSIL_BUILD=no "$me" "$first" info 2>/dev/null | sed -n 's/^field //p')" -- "$word" ;;
        esac
        ;;
    esac
  )
}
complete -o filenames -F _nightjargold fossil
