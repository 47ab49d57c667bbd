# Which word of the command line is wrong, by the rules of the program.

# prints a sentence on the first wrong word of those for the program; nothing where all are good
tell_wrong_word() {
  local seen=" " plain=0 i word
  for ((i = 0; i < ${#program_words[@]}; i++)); do
    word=${program_words[i]}
    case $word in
      --) check_plain "${program_words[@]:i+1}" || return 0; break ;;
      -*) check_option "$word" "${program_words[@]:i+1}" || return 0 ;;
      *) check_plain "$word" || return 0 ;;
    esac
    if is_option "$word"; then i=$((i + 1)); fi
  done
  missing_word
}

# The checks print a sentence and fail where something is wrong.
refuse() {
  printf '%s\n' "$*"
  return 1
}

check_option() {
  local name=${1%%=*}
  if [ -z "$command" ] && [[ " $own_options " == *" $name "* ]]; then missing_word; return; fi
  case $name in
    -o | --output) refuse "-o needs the name of a file after it, and may stand once"; return ;;
    --clock) check_clock "${1#--clock}" "${2-}"; return ;;
    --seconds) check_seconds "${1#--seconds}" "${2-}"; return ;;
    --title) check_title; return ;;
    --progress | --stats) check_search_word "$name"; return ;;
    --drop | --plan-text) check_replan_word "$name"; return ;;
    --*) ;;
    *) refuse_short "$1"; return ;;
  esac
  is_option "$name" || is_flag "$name" || { refuse "there is no option $name$(perhaps_option "$name"); $(what_it_takes)"; return; }
  if is_command "$command" && [[ " $(options_of "$command") " != *" $name "* ]]; then
    refuse "$name is for $(who_takes "$name"), and not for $command; $(what_it_takes)"
    return
  fi
  [[ $seen != *" $name "* ]] || { refuse "$name stands twice"; return; }
  seen+="$name "
  check_text "$name" "$@"
}

# the commands that take an option of the program
who_takes() {
  local each takers=()
  for each in $commands; do
    if [[ " $(options_of "$each") " == *" $1 "* ]]; then takers+=("$each"); fi
  done
  in_words "${takers[@]}"
}

# one, two and three
in_words() {
  local last=${*: -1} others
  if [ $# -gt 1 ]; then printf -v others '%s, ' "${@:1:$#-1}" && last="${others%, } and $last"; fi
  echo "$last"
}

# a word that begins with one dash
refuse_short() {
  if [ -e "$1" ]; then
    refuse "\"$1\" begins with a dash, as options do; ./$1 names the file"
  else
    refuse "\"$1\" is no option; options begin with two dashes$(perhaps_option "-$1"), and $(what_it_takes)"
  fi
}

# the option's name, the word in which it stands, and the words after it
check_text() {
  local text least most
  if is_flag "$1"; then
    [ "$1" = "$2" ] || refuse "$1 stands alone, without a number"
    return
  fi
  case $2 in
    *=*) text=${2#*=} ;;
    *) text=${3-} ;;
  esac
  read -r least most <<<"$(range_of "$1")"
  in_range "$text" "$least" "$most" && return
  refuse "$1 takes a whole number from $(with_commas "$least") to $(with_commas "$most")${text:+, and not \"$text\"}$(perhaps_number "$text" "$least" "$most")$(about_time "$1" "$text")"
}

# the number that was perhaps meant by 10,000, 10k, 1e4 or 60s, and of seconds by 2m or 1h
perhaps_number() {
  local text=${1//[,_\']/}
  if [[ $text =~ ^([0-9]{1,7})(k|s|m|h|e([0-6]))$ ]]; then
    case ${BASH_REMATCH[2]} in
      k) text=${BASH_REMATCH[1]}000 ;;
      s) text=${BASH_REMATCH[1]} ;;
      m) if [ "$3" = 86400 ]; then text=$((10#${BASH_REMATCH[1]} * 60)); fi ;;
      h) if [ "$3" = 86400 ]; then text=$((10#${BASH_REMATCH[1]} * 3600)); fi ;;
      *) text=$((10#${BASH_REMATCH[1]} * 10 ** BASH_REMATCH[3])) ;;
    esac
  fi
  if [ "$text" != "$1" ] && in_range "$text" "$2" "$3"; then echo "; perhaps $text is meant"; fi
}

# of a time of day that gave no minute, or that isn't written as one
about_time() {
  [[ $1 = --from || $1 = --now ]] || return 0
  if ! is_later_time "$2"; then
    [[ -z $2 || $2 =~ ^[0-9]+$ ]] || echo "; with --clock it takes a time of day too, such as 09:30, or +1 09:30 of the next day"
    return
  fi
  local minute_0=${clock:-${shown_clock-}}
  if [ -z "$minute_0" ]; then
    echo "; a time of day needs --clock with the time of minute 0"
  else
    echo "; minute 0 is $minute_0, and a time of the next day is written +1 $2"
  fi
}

check_replan_word() {
  if [ "$command" != replan ]; then
    refuse "$1 is for replan, and not for $command"
  elif [ "$1" = --drop ]; then
    refuse "--drop needs the name of a ship after it; it may stand more than once"
  elif has_word --dossier; then
    refuse "--plan-text and --dossier can't stand together: a dossier of the rest isn't the whole plan"
  else
    refuse "--plan-text stands alone and once"
  fi
}

# one to ten digits between two numbers
in_range() { [[ $1 =~ ^[0-9]{1,10}$ ]] && [ $((10#$1)) -ge "$2" ] && [ $((10#$1)) -le "$3" ]; }

with_commas() { sed -E ':more; s/([0-9])([0-9]{3})($|,)/\1,\2\3/; t more' <<<"$1"; }

check_clock() {
  local time=${1#=}
  time=${time:-$2}
  if is_time_of_day "$time" && ! takes_clock "$command"; then
    refuse "--clock is for solve, resume, judge, play, replan and picture, and not for $command"
  elif is_time_of_day "$time"; then
    refuse "--clock may stand once"
  else
    refuse "--clock needs a time of day after it, such as 06:00, from 00:00 to 23:59${time:+, and not \"$time\"}$(perhaps_time "$time")"
  fi
}

# the time of day that was perhaps meant by 17.30, 17h30, 1730, 7:30 or 5pm
perhaps_time() {
  local hour time
  [[ ${1,,} =~ ^([0-9]{1,2})[:.h]?([0-9]{2})?h?(am|pm)?$ ]] || return 0
  hour=$((10#${BASH_REMATCH[1]}))
  case ${BASH_REMATCH[3]} in
    pm) hour=$((hour % 12 + 12)) ;;
    am) hour=$((hour % 12)) ;;
  esac
  printf -v time '%02d:%s' "$hour" "${BASH_REMATCH[2]:-00}"
  if is_time_of_day "$time"; then echo "; perhaps $time is meant"; fi
}

check_seconds() {
  local text=${1#=}
  text=${text:-$2}
  if ! takes_seconds "$command"; then
    refuse "--seconds is for solve and resume, and not for $command"
  elif ! in_range "$text" 1 86400; then
    refuse "--seconds takes a whole number from 1 to 86,400${text:+, and not \"$text\"}$(perhaps_number "$text" 1 86400)"
  elif names_option --nodes; then
    refuse "--seconds and --nodes can't stand together"
  else
    refuse "--seconds may stand once"
  fi
}

check_title() {
  if [ "$command" = picture ]; then
    refuse "--title needs a text after it, and may stand once"
  else
    refuse "--title is for picture, and not for $command"
  fi
}

check_search_word() {
  if searches "$command"; then
    refuse "$1 stands alone and once"
  else
    refuse "$1 is for solve, resume, replan and trial, and not for $command"
  fi
}

# the words that are no options: the command alone, since files were taken away before
check_plain() {
  local word
  for word in "$@"; do
    plain=$((plain + 1))
    if [ $plain = 1 ]; then
      is_command "$word" || { refuse_command "$word"; return; }
    elif [ ! -e "$word" ] && [ ${#files[@]} -lt "$(most_files "$command")" ]; then
      refuse "there is no file \"$word\"$(perhaps_file "$word")"
      return
    else
      case $(most_files "$command") in
        0) refuse "$command reads no file, so \"$word\" is one word too many; $(what_takes "$word")" ;;
        1) refuse "$command reads one file, so \"$word\" is one too many$(many_days "$word")$(what_else "$word")" ;;
        2) refuse "$command reads an instance and a plan, so \"$word\" is one file too many$(each_dropped "$word")$(what_else "$word")" ;;
      esac
      return
    fi
  done
}

refuse_command() {
  if [ -f "$1" ]; then
    refuse "the command is missing before the file \"$1\", as in ./glock solve $1; $(the_commands)"
  else
    refuse "there is no command \"$1\"$(perhaps_command "$1"); $(the_commands)"
  fi
}

# the command that is spelt nearly so, or does what the word says
perhaps_command() {
  local near
  near=$(perhaps "$1" "$commands $own_commands --version")
  case ${1,,} in
    draw | plot | paint | html | svg | page | pdf) near="; perhaps picture is meant" ;;
    verify | prove-plan | audit) near="; perhaps check is meant, which reads a dossier, or judge, which reads a plan" ;;
    validate | cost) near="; perhaps judge is meant" ;;
    plan | run | optimize | optimise | schedule) near="; perhaps solve is meant" ;;
    print | show | day | simulate) near="; perhaps play is meant, or picture" ;;
    generate | random | example | instance) near="; perhaps lot is meant" ;;
    continue | restart) near="; perhaps resume is meant" ;;
    update | rest | now) near="; perhaps replan is meant" ;;
    compare | diff) near="; perhaps changes is meant" ;;
    list | summary | report | days | csv) near="; perhaps table is meant" ;;
    man | manual | usage) near="; perhaps help is meant" ;;
    build | make) near="; perhaps prove is meant" ;;
  esac
  echo "$near"
}

# the option that is spelt nearly so, or that does what the word says, where the command takes it
perhaps_option() {
  local means=
  case ${1#--} in
    j | threads | jobs | cores | cpus) means=--workers ;;
    t | time | timeout | limit | time-limit | minutes) means=--seconds ;;
    seed | n) means=--number ;;
    steps | iterations) means=--nodes ;;
    output-file | outfile | save) means=-o ;;
    remove | withdraw | cancel | without) means=--drop ;;
    v | verbose) means=--progress ;;
    q | quiet | silent)
      echo "; 2> /dev/null silences what the script says"
      return
      ;;
    csv)
      echo "; examples/csv_of_report.awk makes a table of a report"
      return
      ;;
    f | i | file | input | plan | instance | lock)
      echo "; a file is named without an option"
      return
      ;;
  esac
  if [ -n "$means" ] && is_command "$command" && [[ " $(all_options) -o " == *" $means "* ]]; then
    echo "; perhaps $means is meant"
  else
    perhaps "$1" "$(all_options)"
  fi
}

# what a word may be that names no file
what_else() {
  [ ! -e "$1" ] || return 0
  if [ "$command" = replan ] && { is_time_of_day "$1" || [[ $1 =~ ^[0-9]+$ ]]; }; then
    echo "; the minute that it is follows --now"
  elif is_time_of_day "$1" && takes_clock "$command"; then
    echo "; a time of day follows --clock"
  elif [[ $1 =~ ^[0-9]+$ ]]; then
    echo "; a number follows its option"
  elif [ ${#drops[@]} = 0 ] && [ -z "$output" ]; then
    echo "; -o $1 writes the answer to that file"
  fi
}

# of a command that reads no file
what_takes() {
  if [ -f "$1" ]; then echo "./glock solve reads a file"; else echo "numbers follow their options, as in $command --number 1 --ships 12 --chambers 2"; fi
}

# the file that was perhaps meant: with the end of its name, or of a name near by
perhaps_file() {
  local folder= names end
  for end in lock plan report dossier; do
    if [ -f "$1.$end" ]; then echo "; perhaps $1.$end is meant"; return; fi
  done
  case $1 in */*) folder=${1%/*}/ ;; esac
  names=$(cd -- "${folder:-.}" 2>/dev/null && printf '%s\n' * | grep -v '[[:space:]]' | head -n 1000 | tr '\n' ' ')
  [ -z "$1" ] || perhaps "${1##*/}" "$names" | sed "s#perhaps #&$folder#"
}

# who names several ships behind one --drop
each_dropped() {
  local name
  for name in ${drops[@]+"${drops[@]}"}; do echo "; each ship has a --drop of its own, as in --drop $name --drop $1"; return; done
}

what_it_takes() {
  local options
  if ! is_command "$command"; then
    echo "./glock help tells them"
    return
  fi
  options="$(options_of "$command") $(own_options_of "$command" | tr '\n' ' ')"
  read -r -a options <<<"$options"
  printf -v options '%s, ' "${options[@]}"
  echo "$command takes ${options%, }"
}

the_commands() { echo "the commands are ${commands// /, }, and of the script ${own_commands// /, }"; }

all_options() { if is_command "$command"; then echo "$(options_of "$command") $(own_options_of "$command" | tr '\n' ' ') --output --help"; else echo "--help --version"; fi; }

# the word of some others that was perhaps meant
perhaps() {
  local near
  near=$(NEAREST_TO=$1 NEAREST_OF=$2 awk -f "$script/nearest.awk")
  if [ -n "$near" ]; then echo "; perhaps $near is meant"; fi
}

# what who names many files, as by *.lock, may have wanted
many_days() {
  [ "$command" = solve ] && [ -e "$1" ] || return 0
  if is_plan_or_report "$1"; then
    echo "; solve makes the plan, and judge, play, picture and replan read one"
    return
  fi
  echo "; to solve many days, name them one at a time, as in: for day in *.lock; do ./glock solve \"\$day\"; done (docs/using.md shows more, and ./glock table prints a line for each report)"
}

is_plan_or_report() { [ -f "$1" ] && [[ $(sed -n '/^[^#]/{p;q}' -- "$1" | tr -d '\0') =~ ^(plan$|optimal\ cost\ |open\ |legal\ cost\ ) ]]; }

missing_word() {
  if [ -z "$command" ]; then
    refuse "the command is missing; $(the_commands)"
  elif [ "$command" = replan ]; then
    case $seen in
      *" --from "*"--now "* | *" --now "*"--from "*) refuse "--from and --now can't stand together; --now is for the day itself" ;;
      *" --from "* | *" --now "*) ;;
      *) refuse "replan needs --now and the minute that it is, or --from and a minute of a day that was known beforehand" ;;
    esac
  fi
}
