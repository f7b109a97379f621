# What is known of the words of a call without the program: for ./pegasus, that of a release and tools/look-at-words, which say
# in `top` where the repository stands. Nothing but bash is called, since a release has nothing else, until a call is refused.
mapfile -t table <"$top/tools/commands.txt"

say() { echo "pegasus: $*" >&2; }

# Looks a command up, or a word in capitals: its line of the table is in `line`, and the words of a call in `form`.
find_form() {
  for line in "${table[@]}"; do
    form=${line%%  *}
    case $line in '#'*) ;; *) [ "${form%% *}" != "$1" ] || return 0 ;; esac
  done
  return 1
}

# A line for each command.
tell_commands() {
  local line
  for line in "${table[@]}"; do
    case $line in [a-z]*) say "$line" ;; esac
  done
}

# What a command does, what its words are, and where to read.
tell_command() {
  local line form word
  find_form "$1"
  say "$line"
  for word in ${form//[][]/ }; do
    case $word in [A-Z][A-Z]*) find_form "$word" && say "$line" ;; esac
  done
  say "$top/docs/COMMANDS.md has an example of it below the title \"$1\", and each last line below \"How a call can end\""
}

# Whether help is wanted, of a command or of all.
asks_for_help() {
  local word
  [ $# -eq 0 ] || [ "$1" = help ] && return 0
  for word; do
    case $word in --help | -h) return 0 ;; esac
  done
  return 1
}

# The command that words are about, in `of`, as `run REQ`, `run --help` and `help run` are.
find_subject() {
  of=${1-}
  [ "$of" != help ] || of=${2-}
  case $of in *[!a-z]* | '') return 1 ;; *) find_form "$of" ;; esac
}

# What stands beside the program's own line where help is wanted.
tell_help() {
  local form line of
  if find_subject "$@"; then
    tell_command "$of"
  else
    say "$top/docs/GUIDE.md is a newcomer's hour, and $top/docs/COMMANDS.md has each command with an example"
    tell_commands
    say "pegasus COMMAND --help says more of one, and pegasus --version which one this is"
  fi
}

# Where to look, for words that are no call.
tell_usage() {
  local form line of
  if find_subject "$@"; then
    say "these words are no call, and nothing was begun: the form is $form; pegasus $of --help says more"
  else
    say "these words are no call, and nothing was begun; pegasus --help has a line for each command"
  fi
}

# Whether a word is a number from the first to the last of these.
is_from_to() {
  [[ $3 =~ ^[0-9]{1,4}$ ]] && ((10#$3 >= $1 && 10#$3 <= $2))
}

# Whether a word is UTF-8: of a call with another one none of its words is known. (The locale is set in a shell of its own,
# since to set it back may print a warning.)
is_text() (
  LC_ALL=C
  after=$'[\x80-\xbf]'
  pattern=$'[\x01-\x7f]|[\xc2-\xdf]+|\xe0[\xa0-\xbf]+|[\xe1-\xec\xee\xef]++|\xed[\x80-\x9f]+'
  pattern+=$'|\xf0[\x90-\xbf]++|[\xf1-\xf3]+++|\xf4[\x80-\x8f]++'
  [[ $1 =~ ^(${pattern//+/$after})*$ ]]
)

# The words of a call that aren't the number of workers, in `named`, and this number, which may be said once, in `workers`.
split_words() {
  named=() workers=
  while [ $# -gt 0 ]; do
    case $1 in
      --workers | --workers=*)
        [ -z "$workers" ] || return 1
        case $1 in --workers) [ $# -gt 1 ] && shift || return 1 ;; esac
        workers=${1#--workers=}
        is_from_to 1 16 "$workers" || return 1
        ;;
      -* | '') return 1 ;;
      *[!a-zA-Z0-9/._]*) is_text "$1" && named+=("$1") || return 1 ;;
      *) named+=("$1") ;;
    esac
    shift
  done
}

# Whether words are a call, whose names are then in `named`.
is_call() {
  local form line workers takes
  case ${1-} in *[!a-z]* | '') return 1 ;; esac
  find_form "$1" && split_words "${@:2}" || return 1
  case $form in
    *'[--workers N]') ;;
    *'--workers N') [ -n "$workers" ] || return 1 ;;
    *) [ -z "$workers" ] || return 1 ;;
  esac
  takes=(${form%% [[-]*})
  [ ${#takes[@]} = $((${#named[@]} + 1)) ] || return 1
  [ "${takes[1]}" != N ] || is_from_to 2 3000 "${named[0]}"
}

# A name as the program prints it: a byte that isn't a visible ASCII character, and the percent sign, as two hexadecimal digits.
print_name() (
  LC_ALL=C
  for ((at = 0; at < ${#1}; at++)); do
    printf -v byte %d "'${1:at:1}"
    byte=$((byte & 255))
    if ((byte > 32 && byte < 127 && byte != 37)); then printf %s "${1:at:1}"; else printf %%%02X $byte; fi
  done
)

# The program's own line of usage, as the page has it, in `usage`.
read_usage() {
  : "${usage:=$(sed -n '/^    usage: /{s/^    //p;q}' "$top/docs/COMMANDS.md")}"
}

# What the program says of words that are no call, of a document that isn't there and of one that can't be read, in `answer`;
# its status is the status, and 0 of words that may be a call. (A request with a fault is told before its record is asked for,
# and that isn't looked at.)
look_at_words() {
  local named name said
  answer=
  is_call "$@" || {
    read_usage
    answer=$usage
    return 2
  }
  [ "$1" != rehearse ] || return 0
  for name in "${named[@]}"; do
    [ -d "$name" ] || [ ! -r "$name" ] || continue
    said=$(env LC_ALL=C cat -- "$name" 2>&1 >/dev/null)
    answer="document failed $(print_name "$name")"
    case $said in *': No such file or directory') answer="no document ${answer#document failed }" ;; esac
    return 3
  done
}
