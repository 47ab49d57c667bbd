# The words of the command line: which are for the script, and which for the program.
# A word that the script can't use goes to the program, which then answers that the words are bad.

# sets command, program_words, files, output, clock, plan_clock, seconds, title, drops, as_plan_text, wants_progress, wants_stats and wants_help
split_words() {
  command= output= clock= seconds= title= as_plan_text=false wants_progress=false wants_stats=false wants_help=false ended=false
  program_words=() files=() drops=()
  while [ $# -gt 0 ]; do
    take_word "$@"
    shift "$taken"
  done
  # A report may have been made by the same clock.
  plan_clock=$clock
  # Of the commands, those that print minutes take --clock.
  if [ -n "$clock" ] && ! { takes_clock "$command" && is_time_of_day "$clock"; }; then
    program_words+=(--clock "$clock")
    clock=
  fi
  if [ -n "$seconds" ] && ! may_take_seconds; then
    program_words+=(--seconds "$seconds")
    seconds=
  fi
  if [ -n "$title" ] && [ "$command" != picture ]; then
    program_words+=(--title "$title")
    title=
  fi
  if $wants_progress && ! searches "$command"; then program_words+=(--progress); fi
  if $wants_stats && ! searches "$command"; then program_words+=(--stats); fi
  # What `replan` alone takes, and a dossier is no plan.
  if [ "$command" != replan ]; then
    if $as_plan_text; then program_words+=(--plan-text); fi
    if [ ${#drops[@]} -gt 0 ]; then program_words+=(--drop); fi
  elif $as_plan_text && has_word --dossier; then
    program_words+=(--plan-text)
  fi
  take_minutes
}

# Where --clock is given, the minute of --from or --now may be a time of day; what is none stays as it stands.
take_minutes() {
  local i
  [ -n "$clock" ] || return 0
  for ((i = 0; i < ${#program_words[@]}; i++)); do
    case ${program_words[i]} in
      --) break ;;
      --from=* | --now=*) program_words[i]=${program_words[i]%%=*}=$(minute_of "${program_words[i]#*=}") ;;
      --from | --now) [ -z "${program_words[i + 1]-}" ] || program_words[i + 1]=$(minute_of "${program_words[i + 1]}") ;;
    esac
  done
}

# whether a minute of --from or --now looks like a time of day without its colon
warn_of_minute() {
  local i text
  [ -n "${clock:-${shown_clock-}}" ] && [ -z "$wrong" ] || return 0
  for ((i = 0; i < ${#program_words[@]}; i++)); do
    case ${program_words[i]} in
      --from | --now) text=${program_words[i + 1]} ;;
      --from=* | --now=*) text=${program_words[i]#*=} ;;
      *) continue ;;
    esac
    if [[ $text =~ ^([01][0-9]|2[0-3])[0-5][0-9]$ ]]; then
      say "warning: ${program_words[i]%%=*} $text is minute $((10#$text)), which is $(shown_time "$text"); the time of day is written ${text:0:2}:${text:2}"
    fi
  done
}

# the minute of a time of day that isn't before minute 0
minute_of() {
  local minute
  if is_later_time "$1"; then
    minute=$(($(minutes_of_time "$1") - $(minutes_of_time "$clock")))
    if [ $minute -ge 0 ]; then echo $minute; return; fi
  fi
  printf '%s\n' "$1"
}

# 08:00, or +1 08:00 of the next day
is_later_time() { [[ $1 =~ ^(\+[1-9][0-9]{0,2}\ )?([01][0-9]|2[0-3]):[0-5][0-9]$ ]]; }

minutes_of_time() {
  local days=0 time=${1#* }
  [[ $1 != +* ]] || days=${1%% *}
  echo $((10#${days#+} * 1440 + 10#${time%:*} * 60 + 10#${time#*:}))
}

# takes one word, or an option and its text; sets taken
take_word() {
  taken=1
  $ended && { take_plain "$1"; return; }
  case $1 in
    --) ended=true; program_words+=(--) ;;
    --help | -h) wants_help=true ;;
    -) take_plain - ;;
    -o | --output) [ -z "$output" ] && take_text "$@" && output=$2 || program_words+=(-o) ;;
    -o?* | --output=?*) [ -z "$output" ] && output=$(text_of "$1") || program_words+=(-o) ;;
    --clock) [ -z "$clock" ] && take_text "$@" && clock=$2 || program_words+=(--clock) ;;
    --clock=?*) [ -z "$clock" ] && clock=${1#*=} || program_words+=("$1") ;;
    --seconds) [ -z "$seconds" ] && take_text "$@" && seconds=$2 || program_words+=(--seconds) ;;
    --seconds=?*) [ -z "$seconds" ] && seconds=${1#*=} || program_words+=("$1") ;;
    --title) [ -z "$title" ] && take_text "$@" && title=$2 || program_words+=(--title) ;;
    --title=?*) [ -z "$title" ] && title=${1#*=} || program_words+=("$1") ;;
    --progress) if $wants_progress; then program_words+=("$1"); fi; wants_progress=true ;;
    --stats) if $wants_stats; then program_words+=("$1"); fi; wants_stats=true ;;
    --plan-text) if $as_plan_text; then program_words+=("$1"); fi; as_plan_text=true ;;
    --drop) take_text "$@" && drops+=("$2") || program_words+=("$1") ;;
    --drop=?*) drops+=("${1#*=}") ;;
    --from | --now)
      program_words+=("$1")
      if [[ ${2-} =~ ^\+[0-9]+$ ]] && is_time_of_day "${3-}"; then
        program_words+=("$2 $3") taken=3
      elif take_text "$@"; then
        program_words+=("$2")
      fi
      ;;
    -*)
      program_words+=("$1")
      if is_option "$1" && take_text "$@"; then program_words+=("$2"); fi
      ;;
    *) take_plain "$1" ;;
  esac
}

# the file that stands in one word with its option: -oFILE or --output=FILE
text_of() { case $1 in -o*) echo "${1#-o}" ;; *) echo "${1#*=}" ;; esac; }

# whether the option's text follows it
take_text() {
  [ $# -ge 2 ] && [ -n "$2" ] && [[ $2 != -* ]] || return 1
  taken=2
}

# the command, or a file of it; - is standard input
take_plain() {
  if [ -z "$command" ]; then
    command=$1
    program_words+=("$1")
  elif is_command "$command" && { [ -e "$1" ] || [ "$1" = - ]; } && [ ${#files[@]} -lt "$(most_files "$command")" ]; then
    files+=("$1")
  else
    program_words+=("$1")
  fi
}

is_time_of_day() { [[ $1 =~ ^([01][0-9]|2[0-3]):[0-5][0-9]$ ]]; }
