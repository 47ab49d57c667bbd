# What a refused plan means.

explain_plan() {
  case $1 in
    "plan line "*)
      explain_line plan "$((${parts[2]} + $(end_of_instance)))" "${parts[4]}" "${parts[5]}"
      if [ "$command" = picture ] && [ "${parts[5]}" = NoMark ] && tail -n +"$(($(end_of_instance) + 1))" "$input" | grep -aq '^certificate'; then
        say "a dossier has one of these lines there: certificate, certificate 2, certificate 3, certificate 4, certificate open, certificate open 3, certificate open 4"
      fi
      if [ "$command" = replan ] && [ "${parts[5]}" = Unknown ]; then tell_withdrawn; fi
      ;;
    "illegal ship "*) explain_ship "${parts[2]}" "${parts[3]}" ;;
    "illegal lockage "*) explain_lockage "${parts[2]}" "${parts[3]}" "${parts[@]:4}" ;;
  esac
}

# a ship that is in two lockages or in none
explain_ship() {
  local ship berth lines=
  if [ "$2" = Double ]; then
    while read -r ship berth _; do
      if [ "$ship" = "$1" ]; then lines+="${lines:+ and }$(line_number "$berth")"; fi
    done < <(ships_of_plan)
  fi
  say_at "${second_name:-$first_name}" "ship $1 $2: $(break_sentence "$2" "$1")${lines:+ Its berths are in lines $lines.}"
}

# a lockage's number, its break and the ships that the break names
explain_lockage() {
  local line kept detail sentence
  IFS=$'\t' read -r line kept detail < <(awk -v number="$1" -v kind="$2" -v first="${3-}" -v second="${4-}" -v kept_before="${given_plan:+$rest_minute}" \
    -v begin="${clock:-${shown_clock-}}" -f "$script/time_of_day.awk" -f "$script/lockage.awk" "$input")
  sentence=$(break_sentence "${@:2}")
  if [ "$kept" = kept ]; then sentence=${sentence%%;*}.; fi
  say_at "$(place_of "$line")" "lockage $1 $2: $sentence${detail:+ ${detail% }}"
}

# the sentence of a break with the names of its ships
break_sentence() {
  local sentence
  sentence=$(sentence_of "break $1")
  sentence=${sentence//%1/${2-}}
  printf '%s' "${sentence//%2/${3-}}"
}
