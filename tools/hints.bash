# shellcheck shell=bash disable=SC2154
# What the wrapper `fossil` says on standard error after a run that didn't end well: what was wrong, and what to type. The wrapper reads this
# file then, and runs `say_more STATUS WORDS`. It uses the wrapper's `say`, `of_command`, `help_of` and `is_unproved`, and its `me`, `help`, `docs` and `program`.

# whether a word is empty, or begins with `-` and goes on
has_wrong_word() {
  local word
  for word; do
    case "$word" in '' | -?*) return 0 ;; esac
  done
  return 1
}

# a word that has to be a number from 1 to this one, with its commas, where it isn't
say_of_number() {
  local word=$1 most=$2 digits
  digits=$(printf '%s' "$word" | sed 's/^0*//')
  if [[ ! $word =~ ^[0-9]+$ ]]; then
    say "'$word' is no number: $3 is 1 to $most"
  elif [ -z "$digits" ] || [ "${#digits}" -gt 7 ] || [ "$digits" -gt "${most//,/}" ]; then
    say "$word is out of range: $3 is 1 to $most"
  fi
}

# the place of a word of a command, by its name in the row of the command: 3 is the first behind the command
place_of() {
  local at words
  read -ra words < <(of_command "$1" command)
  for at in "${!words[@]}"; do
    if [ "${words[at]}" = "$2" ]; then echo $((at + 2)) && return; fi
  done
}

# the numbers among the words of a command
say_of_numbers() {
  local name most place
  while read -r name most; do
    place=$(place_of "$2" "$name")
    [ -z "$place" ] || [ $# -lt "$place" ] || say_of_number "${!place}" "$most" "$name"
  done < <(of_command "$2" range | sed 's/, /\n/g')
}

# the number of the first word that isn't UTF-8; nothing where all are
foreign_among() {
  local word at=0
  command -v iconv >/dev/null || return 1
  for word; do
    at=$((at + 1))
    if ! printf '%s' "$word" | iconv -f UTF-8 -t UTF-8 >/dev/null 2>&1; then echo "$at" && return; fi
  done
  return 1
}

# the commands of Fossil's own client that aren't commands here
fossils=' 3-way-merge add addremove alerts all amend annotate artifact attachment backup bisect blame branch bundle cgi changes chat checkout cherry-pick clean close commit ci co configuration config dbstat deconstruct delete descendants describe diff extras finfo forget gdiff git grep hash-policy hook http import json login-group ls merge mv open patch praise publish purge rebuild reconstruct redo remote remote-url rename reparent revert rm rss search server settings shell sql sqlite3 ssl-config stash status sync tag tarball touch ui undo unset unversioned update user uv whatis xdiff zip '

is_fossils() {
  [[ $fossils == *" $1 "* ]]
}

# the command nearest to a word, where they differ by a letter or two
nearest_to() {
  [ "${#1}" -le 20 ] || return
  WORD="$1" awk '
    function least(a, b) { return a < b ? a : b }
    function distance(one, other,   i, j, far) {
      for (j = 0; j <= length(other); j++) far[0, j] = j
      for (i = 1; i <= length(one); i++) {
        far[i, 0] = i
        for (j = 1; j <= length(other); j++)
          far[i, j] = least(least(far[i - 1, j], far[i, j - 1]) + 1, far[i - 1, j - 1] + (substr(one, i, 1) != substr(other, j, 1)))
      }
      return far[length(one), length(other)]
    }
    /^  [a-z]/ { far = distance(ENVIRON["WORD"], $1); if (name == "" || far < best) { best = far; name = $1 } }
    END { if (best <= (length(name) > 4 ? 2 : 1)) print name }
  ' "$help"
}

# a word where a command has to be
say_of_no_command() {
  local near
  near=$(nearest_to "$1")
  if is_fossils "$1"; then
    say "'$1' is a command of Fossil's own client, and not of this program; $docs/DIFFERENCES.md says what to type here"
  elif [ "$1" = help ]; then
    say "'help' comes first: '$me help' lists the commands, and '$me help COMMAND' explains one"
  else
    say "there is no command '$1'${near:+, and the nearest is '$near'}; '$me help' lists the commands"
  fi
}

# a word that doesn't fit its place, by the name that the place has in the page of help
say_of_place() {
  local LC_ALL=C
  case "$1" in
    PROJECT | SERVER | NAME)
      [[ $2 =~ ^[0-9a-f]{40}$ ]] || say "'$2' is no $1: a $1 is 40 digits, 0 to 9 and a to f, and this word has ${#2} characters"
      ;;
    PREFIX)
      [[ $2 =~ ^[0-9a-f]{4,40}$ ]] || say "'$2' is no PREFIX: a PREFIX is the first 4 to 40 digits of a name or an id, 0 to 9 and a to f"
      ;;
    PARENT)
      [[ $2 =~ ^([0-9a-f]{4,40}|-)$ ]] || say "'$2' is no PARENT: a PARENT is the first digits of a check-in's name, or '-' for none; 'tip $2' prints the newest check-in of a branch"
      ;;
    FIELD)
      [[ $2 =~ ^[a-z][a-z0-9_]{0,63}$ ]] || say "'$2' is no FIELD: a FIELD is 1 to 64 small letters, digits and _, and begins with a letter"
      ;;
    PATH)
      ! [[ ${#2} -gt 512 || /$2/ == *//* || /$2/ == */./* || /$2/ == */../* ]] || say "'$2' is no PATH: a PATH has at most 512 bytes, and no part of it is empty, '.' or '..'"
      ;;
  esac
}

# the words behind a command, each beside its place in that command's row of help
say_of_places() {
  local row=${1%%:*} kinds kind='' at=0 least most word
  shift
  read -ra kinds <<<"${row#"${row%% *}"}"
  least=$(printf '%s\n' "${kinds[@]}" | grep -c '^[A-Z]')
  most=${#kinds[@]}
  [[ $row != *...* ]] || most=1000
  if [ $# -lt "$least" ] || [ $# -gt "$most" ]; then
    say "'${row%% *}' takes $least$([ "$most" = "$least" ] || echo ' or more') words, and here are $#"
    return
  fi
  for word; do
    if [ "$at" -lt "${#kinds[@]}" ] && [ "${kinds[at]}" != '...]' ]; then kind=${kinds[at]//[\[\]]/}; fi
    say_of_place "$kind" "$word"
    at=$((at + 1))
  done
  if [ "$kind" = FIELD ]; then
    for word in $(printf '%s\n' "${@:least + 1}" | sort | uniq -d); do say "the field '$word' comes twice"; done
  fi
}

# words of a command that is there
say_of_use() {
  local row=$1 said
  shift
  say "usage: $me REPOSITORY $row"
  said=$({ say_of_places "$row" "${@:3}"; say_of_numbers "$@"; } 2>&1)
  if [ -n "$said" ]; then printf '%s\n' "$said" >&2; else say "'$me help' says which form each number, code and name has"; fi
}

# words outside the grammar
say_of_words() {
  local at
  if [ $# = 0 ]; then
    say "'$me help' lists the commands"
  elif at=$(foreign_among "$@"); then
    say "word $at isn't UTF-8, and each word has to be"
  elif [[ " $* " == *' --help '* || " $* " == *' -h '* ]]; then
    say_of_no_command help
  elif [[ " $* " == *://* ]]; then
    say "an address is HOST:PORT, without http://; Fossil's own client takes an address with it"
  elif is_fossils "$1" && [ ! -e "$1" ]; then
    say_of_no_command "$1"
  elif has_wrong_word "$@"; then
    say "no word is empty, and none begins with '-' but '-' alone: there are no options; '$me help' lists the commands"
  elif [ -n "$(help_of "${2-}")" ]; then
    say_of_use "$(help_of "$2")" "$@"
  elif [ -n "$(help_of "$1")" ]; then
    say "the file of the repository comes first: $me ${2-REPOSITORY} $([ $# -gt 1 ] && echo "$1 ${*:3}" || help_of "$1")"
  elif [ $# = 1 ]; then
    say "no command follows '$1'; '$me help' lists the commands"
  else
    say_of_no_command "$2"
  fi
}

# the first bytes of a file from a place on, in hexadecimal digits; none where it can't be read
digits_of() {
  od -An -v -tx1 -j"$2" -N"$3" 2>/dev/null -- "$1" | tr -d ' \n'
}

# whether a file begins with the header of a repository, of whatever version: `fossil-blobs-`, a byte, and a newline
begins_as_repository() {
  [[ $(digits_of "$1" 0 15) == 666f7373696c2d626c6f62732d??0a ]]
}

# what a file of SQLite is, by the number that Fossil 2 writes into its header
say_of_sqlite() {
  case "$(digits_of "$1" 68 4)" in
    0f055111) say "'$1' is a repository of Fossil 2 (SQLite), which this program doesn't read; docs/DIFFERENCES.md says how its artifacts move" ;;
    0f055112) say "'$1' belongs to a check-out of Fossil 2 (SQLite), and isn't a repository" ;;
    *) say "'$1' is a file of SQLite, and isn't a repository" ;;
  esac
}

# what makes a file for a command
made_by() {
  case "$2" in
    uv-*) echo "'$me $1 uv-init PROJECT SERVER' makes a file of unversioned files" ;;
    *) echo "'$me new $1' makes a repository, and '$me $1 clone ADDRESS SERVER' copies one" ;;
  esac
}

# a file that is no repository
say_of_bytes() {
  local path=$1
  if [ ! -s "$path" ]; then
    say "'$path' is empty; $(made_by "$path" "$2")"
  elif [ "$(digits_of "$path" 0 15)" = 53514c69746520666f726d61742033 ]; then
    say_of_sqlite "$path"
  elif begins_as_repository "$path"; then
    say "'$path' begins as a repository, but isn't one from the byte in the line on; the file stays as it is"
  else
    say "'$path' is another kind of file; it stays as it is"
  fi
}

# what a command leaves that ended early: a serve keeps what it answered, a sync its first rounds, each other command does all or nothing
kept_by() {
  local kept
  kept=$(of_command "$1" kept)
  echo "${kept:-the file keeps what it held}"
}

# another process that has a file open, with a lock on it: of those on the kernel's list, which goes by inodes, one of whose files is this one, as far as they can be seen
holder_of() {
  local inode process file
  inode=$(stat -L -c %i -- "$1" 2>/dev/null) || return 1
  for process in $(awk -v inode=":$inode" '$2 == "FLOCK" && substr($6, length($6) - length(inode) + 1) == inode { print $5 }' /proc/locks 2>/dev/null); do
    [ -r "/proc/$process/fd" ] || { echo "$process" && return; }
    for file in "/proc/$process/fd"/*; do
      if [ "$file" -ef "$1" ]; then echo "$process" && return; fi
    done
  done
  return 1
}

# whether a command only reads its repository: it takes no lock then, and goes on beside a process that writes
only_reads() {
  [ "$(of_command "$1" file)" = reads ]
}

# whether a process is this program's server
is_server() {
  [[ $(tr '\0' ' ' <"/proc/$1/cmdline" 2>/dev/null) == *' serve '* ]]
}

# whether a process was started by gateway/up
is_below_up() {
  local parent
  parent=$(awk '/^PPid:/ { print $2 }' "/proc/$1/status" 2>/dev/null)
  [[ $(tr '\0' '\n' <"/proc/$parent/cmdline" 2>/dev/null | sed -n 2p) =~ (^|[/-])up$ ]]
}

# says that another process has a file, where that is so
say_of_holder() {
  local process
  process=$(holder_of "$1") || return 1
  if ! is_server "$process"; then
    say "process $process has '$1' open for writing: run this again when it has ended"
  elif is_below_up "$process"; then
    say "process $process serves '$1', started by up: 'up do FOLDER $2 ..' does this while requests wait; reports, cat and export need no stop"
  else
    say "process $process serves '$1': stop it before you write to the file; reports, cat, export, verify and push need no stop"
  fi
}

# says that a disk has no room, less than a MiB, where that is so
say_of_room() {
  local place=$1 free
  [ -e "$place" ] || place=$(dirname -- "$place")
  free=$(df -Pk -- "$place" 2>/dev/null | awk 'NR == 2 { print $4 }')
  [ -n "$free" ] && [ "$free" -lt 1024 ] && say "the disk is full: $free KiB are free at '$1'; make room, and run this again"
}

# says what stands in the place of a file and is none, where that is so
say_of_kind() {
  if [ -d "$1" ]; then
    say "'$1' is a folder"
  elif [ -e "$1" ] && [ ! -f "$1" ]; then
    say "'$1' is a pipe, a socket or a device, and a repository is a regular file"
  else
    return 1
  fi
}

# says that the folder of a new file can't be read, where that is so: it has to be opened for its sync, behind which the first byte is written
say_of_folder() {
  local folder
  folder=$(dirname -- "$(readlink -f -- "$1")")
  [ -e "$1" ] && [ ! -s "$1" ] && [ -d "$folder" ] && [ ! -r "$folder" ] || return 1
  say "'$folder' may not be read by $(id -un), and a new file's folder has to be synced"
}

# a file that couldn't be made
say_of_unmade() {
  if [ ! -d "$(dirname -- "$1")" ]; then
    say "there is no folder '$(dirname -- "$1")' to make '$1' in"
  else
    say_of_room "$1" || say "'$1' can't be made: $(id -un) may not write to its folder"
  fi
}

# a peer's file that couldn't be opened, read or written, beside a file that looks well
say_of_peer() {
  local path=$1 peer=$2 command=$3 use
  use=$(of_command "$command" peer)
  if say_of_kind "$peer"; then
    return
  elif [ ! -e "$peer" ] && [ "$use" = makes ]; then
    say_of_unmade "$peer"
  elif [ ! -e "$peer" ]; then
    say "there is no file '$peer'"
  elif [ "$path" -ef "$peer" ]; then
    say "'$peer' is the file '$path' itself"
  elif [ ! -r "$peer" ]; then
    say "'$peer' may not be read by $(id -un)"
  elif [ "$use" != reads ] && [ ! -w "$peer" ]; then
    say "'$peer' may not be written by $(id -un), and this command writes to it"
  elif [ "$use" = makes ] && say_of_folder "$peer"; then
    return
  elif [ "$use" = reads ] || ! say_of_holder "$peer" "$command"; then
    say_of_room "$path" || say_of_room "$peer"
    say "'$path' and '$peer' are there, but a call on one of them failed, or another process had it; $(kept_by "$command")"
  fi
}

# a file that couldn't be opened, read or written: the repository's, or where that one looks well the peer's
say_of_file() {
  local path=$1 command=$2 use
  use=$(of_command "$command" file)
  if say_of_kind "$path"; then
    return
  elif [ -e "$path" ] && [ ! -r "$path" ]; then
    say "'$path' may not be read by $(id -un)"
  elif [ -e "$path" ] && [ "$use" != reads ] && [ ! -w "$path" ]; then
    say "'$path' may not be written by $(id -un), and this command writes to it"
  elif [ "$use" = makes ] && say_of_folder "$path"; then
    return
  elif [ -e "$path" ] && [ "$use" != reads ] && say_of_holder "$path" "$command"; then
    return
  elif [ -e "$path" ] && [ -n "$(of_command "$command" peer)" ]; then
    say_of_peer "$path" "$3" "$command"
  elif [ -e "$path" ] && [ "$use" != reads ] && say_of_room "$path"; then
    say "$(kept_by "$command")"
  elif [ -e "$path" ]; then
    say "'$path' is there, but a call on it failed, or another process had it; $(kept_by "$command")"
  elif [ "$use" != makes ]; then
    say "there is no file '$path'; $(made_by "$path" "$command")"
  else
    say_of_unmade "$path"
  fi
}

# what was refused, where the line doesn't say what to do; a word in braces is the one that was typed
say_of_refusal() {
  local text words at
  text=$(of_command "$2" refused)
  [ -n "$text" ] || return 0
  read -ra words < <(of_command "$2" command)
  text=${text//'{fossil}'/"$me"}
  text=${text//'{REPOSITORY}'/"$1"}
  for at in "${!words[@]}"; do text=${text//"{${words[at]}}"/"${@:at+2:1}"}; done
  say "$text"
}

# an input that couldn't be read
say_of_input() {
  if [ "$2" = serve ]; then
    say "the users file '$4' couldn't be read; no connection was taken"
  else
    say "standard input couldn't be read to its end, and nothing of it was taken"
  fi
}

# the sockets that listen at a port, by the kernel's lists
listeners_of() {
  local port
  port=$(printf ':%04X' "$((10#$1))") || return 1
  awk -v port="$port" '$4 == "0A" && substr($2, length($2) - length(port) + 1) == port { print $10 }' /proc/net/tcp /proc/net/tcp6 2>/dev/null
}

# whether some process listens at a port
is_taken() {
  [ -n "$(listeners_of "$1")" ]
}

# the process that listens at a port, as far as it can be seen
listener_of() {
  local inode file
  for inode in $(listeners_of "$1"); do
    for file in /proc/[0-9]*/fd/*; do
      if [ "$(readlink "$file" 2>/dev/null)" = "socket:[$inode]" ]; then
        file=${file#/proc/}
        echo "process ${file%%/*}"
        return
      fi
    done
  done
  echo "another process"
}

# a server that couldn't be reached, or a socket that couldn't be had
say_of_link() {
  local form='^[^/]+:[0-9]+$'
  if ! [[ $3 =~ $form ]]; then
    say "an address is HOST:PORT, and '$3' isn't in this form"
  elif [ "$2" = serve ] && is_taken "${3##*:}"; then
    say "$(listener_of "${3##*:}") listens at the port of '$3': end it, or serve at another port"
  elif [ "$2" = serve ]; then
    say "nothing can listen at '$3', or the system gave no further connection; all that was answered is kept"
  else
    say "no connection to '$3' could be made, or one broke off; $(kept_by "$2")"
  fi
}

# a reply that is wrong: what the server itself says, or that of another program
say_of_reply() {
  say "the line says why the reply of '$3' is wrong. 'login failed': the user or the secret is wrong. 'wrong project': this file is of another project. 'not authorized': the user's letters don't allow it"
  say "'http 500' and 'http 503' may pass, as when its disk is full; most others come from a server of another program"
  say "$(kept_by "$2")"
}

# a content whose bytes were read and have another name: of `pull-local` it is the peer's
say_of_damage() {
  local path=$1
  [ "$2" != pull-local ] || path=$3
  say "the disk gives other bytes of '$path' than it was given: the first name is the artifact's, the second is that of the bytes that were read; $(kept_by "$2")"
  say "run it again; if it ends with 2 then, '$path' is damaged: put a backup or a clone in its place"
}

# a sync without an end
say_of_rounds() {
  if [ "$2" = clone ]; then
    say "the clone was given up; $(kept_by clone)"
  else
    say "the sync was given up; $(kept_by "$2"), and the same command goes on from there"
  fi
}

# the file that isn't a repository: of a command that reads a peer's file the line names the peer's by the word `peer`
say_of_either() {
  local use
  use=$(of_command "$2" peer)
  if [ -z "$use" ] || [ "$use" = makes ] || ! begins_as_repository "$1"; then
    say_of_bytes "$1" "$2"
  elif ! begins_as_repository "$3"; then
    say "the line is about '$3' where it has the word 'peer', else about '$1'"
    say_of_bytes "$3" "$2"
  else
    say "the line is about '$3' where it has the word 'peer', else about '$1'; from the byte in the line on that file isn't a repository"
  fi
}

# a signal by which a program ends of itself: a check that failed, of one that isn't proved
say_of_fault() {
  say "a signal ended the program; $(kept_by "${2-}")"
  if is_unproved; then
    say "a check of this program failed, or it read outside its memory. This is a fault in it, of a kind that the proved program can't have"
    say "please report it, with this command, its input and what '$me version' prints"
  fi
}

# an output that couldn't be written to: a reader that went away, as `head` does, has what it wanted of a report
say_of_output() {
  if only_reads "$1" && [ -p /dev/stdout ]; then return; fi
  say "standard output couldn't be written; the command's work on the repository is done"
}

# what to do after this status of a run with these words, where more can be said than the program's own line
say_more() {
  local status=$1
  shift
  if [ $# = 2 ] && [ "$1" = help ] && [ -e help ]; then
    say "there is a file 'help' here, so the words are about it; '$me --help $2' explains '$2'"
  fi
  case "$status" in
    1) say_of_words "$@" ;;
    2) say_of_either "$@" ;;
    3) say_of_refusal "$@" ;;
    4) say_of_file "$@" ;;
    5) say_of_input "$@" ;;
    6) say_of_output "${2-}" ;;
    7) say_of_link "$@" ;;
    8) say_of_reply "$@" ;;
    9) say "out of memory; $(kept_by "${2-}")" ;;
    10) say "the server announces this name and doesn't send its artifact; $(kept_by "$2")" ;;
    11) say_of_rounds "$@" ;;
    12) say_of_damage "$@" ;;
    126 | 127) say "'$program' can't be run here" ;;
    132 | 133 | 134 | 136 | 139) say_of_fault "$@" ;;
    *) [ "$status" -le 128 ] || say "a signal ended the program; $(kept_by "${2-}")" ;;
  esac
}
