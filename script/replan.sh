# What `replan` has beside the program: ships that are withdrawn, what has stood still in a day as it is lived, and what
# the new plan changes.

# For `replan` and `play`: makes the input that of the program. Sets given_plan for replan, with lived (true or false) and
# rest_minute; for play, lived is `told`.
take_rest() {
  local end
  given_plan=
  [[ $command = replan || $command = play ]] && [ -n "$input" ] && [ -z "$wrong" ] || return 0
  end=$(end_of_instance)
  [ -n "$end" ] || return 0
  tail -n +$((end + 1)) "$input" >"$room/given.plan"
  if [ "$command" = play ]; then
    lived=told rest_minute=0
  else
    given_plan=$room/given.plan
    take_rest_minute
    warn_of_later_plan
    may_drop || return
  fi
  if [ ${#drops[@]} -gt 0 ] || { [ $lived != false ] && has_notes; }; then change_input "$end"; fi
}

has_notes() { grep -Eq '^# (still|turned) ' "$room/given.plan"; }

take_rest_minute() {
  local i
  lived=false
  for ((i = 0; i < ${#program_words[@]}; i++)); do
    case ${program_words[i]} in
      --now*) lived=true ;;&
      --now=* | --from=*) rest_minute=$((10#${program_words[i]#*=})) ;;
      --now | --from) rest_minute=$((10#${program_words[i + 1]})) ;;
    esac
  done
}

# A plan text of replan tells of which minute it is.
warn_of_later_plan() {
  local later
  later=$(sed -n -E 's/^# .*, replanned at minute ([0-9]+)$/\1/p;q' "$given_plan")
  [ -n "$later" ] && [ "$later" -gt "$rest_minute" ] || return 0
  say_at "${second_name:-$first_name}" "warning: this plan is of $(shown_time "$later"), and is planned anew from $(shown_time "$rest_minute"), which is before that"
}

# the ships of the plan: name, line of its berth, line and start of its lockage, that it has begun or hasn't, how many
# ships the lockage has, and the ship's line in the lock's file, or 0
ships_of_plan() { awk -v minute="${rest_minute-0}" -f "$script/plan_ships.awk" "$input"; }

# whether each ship of --drop stands in the plan, not in the lock's file, and in no lockage that has begun
may_drop() {
  local name ship berth lockage start state many line table
  [ ${#drops[@]} -gt 0 ] || return 0
  table=$(ships_of_plan)
  for name in "${drops[@]}"; do
    ship=
    while read -r ship berth lockage start state many line; do [ "$ship" != "$name" ] || break; done <<<"$table"
    if [ "$ship" != "$name" ]; then
      say "--drop $name: the plan has no ship $name$(perhaps "$name" "$(cut -d ' ' -f 1 <<<"$table" | tr '\n' ' ')")"
    elif [ "$state" = begun ]; then
      say_begun "$name" "$lockage" "$start" "$line"
    elif [ "$line" != 0 ]; then
      say_at "$(place_of "$line")" "$name is still among the ships; where $name is withdrawn take this line out too, since every ship of this file is planned"
    else
      continue
    fi
    return 2
  done
}

# a ship's lockage that has begun: its name, the line and start of the lockage, and the ship's line or 0
say_begun() {
  local back=
  [ "$4" != 0 ] || back="; put the line of $1 back into $first_name"
  say_at "$(place_of "$2")" "the lockage of $1 has begun: it starts at $(shown_time "$3"), before $(shown_time "$rest_minute"), so $1 can't be withdrawn$back"
}

shown_time() {
  local all begin=${clock:-${shown_clock-}}
  if [ -z "$begin" ]; then echo "minute $1"; return; fi
  all=$(($(minutes_of_time "$begin") + 10#$1))
  if [ $all -ge 1440 ]; then printf '+%d ' $((all / 1440)); fi
  printf '%02d:%02d\n' $((all % 1440 / 60)) $((all % 60))
}

# the ships of the plan that the lock's file hasn't
tell_withdrawn() {
  local ship berth lockage start state many line lines table
  table=$(ships_of_plan)
  if [ -n "$table" ] && ! grep -qv ' 0$' <<<"$table"; then
    say_at "${second_name:-$first_name}" "none of its ships is in $first_name; perhaps it is the plan of another lock or day"
    return
  fi
  while read -r ship berth lockage start state many line; do
    if [ "$line" != 0 ]; then continue; fi
    if [ "$state" = begun ]; then say_begun "$ship" "$lockage" "$start" 0; continue; fi
    lines="line $(line_number "$berth")"
    if [ "$many" = 1 ]; then lines="lines $(line_number "$lockage") and $(line_number "$berth")"; fi
    say "$ship is in the plan and not in $first_name. Where $ship is withdrawn say --drop $ship, or take $lines out of" \
      "${second_name:-$first_name}$(keep_turn "$many")"
  done <<<"$table"
}

line_number() { local place; place=$(place_of "$1"); echo "${place##*:}"; }

# With --now the lockage of a ship that is withdrawn may have turned its chamber.
keep_turn() {
  if [ $lived = true ] && [ "$1" = 1 ]; then printf ' (the second alone, where the chamber was turned for this lockage)'; fi
}

# Takes ships out, and makes of the notes of a plan text what they mean; sets closures_at and closures_added.
change_input() {
  closures_at=$1
  awk -v minute="$rest_minute" -v lived=$lived -v dropped="${drops[*]}" -v count="$room/closures" -f "$script/lived.awk" "$input" >"$room/changed"
  read -r closures_added <"$room/closures"
  input=$room/changed
}

# The lines of closures that were added stand before the line end of the instance.
line_before_closures() {
  if [ "$1" -lt $((closures_at + closures_added)) ] && [ "$1" -ge "$closures_at" ]; then
    echo "$closures_at"
  else
    echo $(($1 - ($1 >= closures_at ? closures_added : 0)))
  fi
}

# whether the answer is a whole new plan
is_replanned() { [ -n "${given_plan-}" ] && [ "$status" -le 1 ] && ! is_dossier; }

# the new plan as a text in minutes, with notes of what no plan tells; and what the chambers do empty
make_new_plan() {
  is_replanned || return 0
  awk -f "$top/examples/plan_of_report.awk" "$answer" >"$room/bare.plan" || return
  head -n "$(end_of_instance)" "$input" >"$room/lived.lock"
  tail -n +"$(($(end_of_instance) + 1))" "$input" >"$room/lived.plan"
  grep -E '^# (still|turned) ' "$given_plan" >"$room/notes"
  awk -v minute="$rest_minute" -v lived=$lived -v begin="$clock" -v notes="$room/new.notes" -f "$script/time_of_day.awk" -f "$script/turns.awk" \
    part=lock "$room/lived.lock" part=old "$room/lived.plan" part=new "$room/bare.plan" part=notes "$room/notes" >"$room/turns"
  {
    printf '# %s, replanned at minute %s\n' "$(head -n 1 "$answer")" "$rest_minute"
    sed 1q "$room/bare.plan"
    cat "$room/new.notes"
    sed 1d "$room/bare.plan"
  } >"$room/new.plan"
}

# what the new plan changes, ship by ship, and the empty turns that are to be made; of a day that is played, the turns that
# it doesn't tell
tell_rest() {
  if [ "$command" = play ] && [ "$status" = 0 ]; then tell_turned; fi
  is_replanned || return 0
  awk -v first="$given_plan" -v second="$room/bare.plan" -v in_short=1 -v begin="$clock" -f "$script/time_of_day.awk" -f "$script/changes.awk" </dev/null >&2
  cat "$room/turns" >&2
  if ! $as_plan_text && [ -s "$room/new.notes" ]; then
    say "this report doesn't tell since when a chamber has stood still or turned; for a later --now keep the plan by --plan-text"
  fi
}

tell_turned() {
  local chamber way back rest
  [ -n "$input" ] && has_notes || return 0
  while read -r _ _ chamber way back rest; do
    if [ "$back" != - ]; then rest=", and is turned back at $(shown_time "$back")"; else rest=; fi
    say "$chamber stands turned for ships going $way$rest; no lockage needs this, so the day doesn't tell it"
  done < <(grep '^# turned ' "$room/given.plan")
}
