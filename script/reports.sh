# A report or a dossier in the place of a plan: the program gets the plan of it.

# Where one follows the instance, the input becomes the instance with its plan; plan_begin is then the line after which that plan
# stands, and lines_of_plan the file that tells from which line of the report or dossier each of its lines came.
take_report() {
  local end what
  plan_begin= closures_at=0 closures_added=0
  reads_plan "$command" && [ -n "$input" ] && [ -z "$wrong" ] && ! $goes_on || return 0
  end=$(end_of_instance)
  [ -n "$end" ] || return 0
  what=$(what_follows "$end")
  case $what in
    report) ;;
    # Of one file the picture reads a dossier itself; behind a dossier nothing follows.
    dossier) if [ -n "$second_name" ]; then ! has_certificate "${files[0]}" || return 0; else [ "$command" != picture ] || return 0; fi ;;
    *) return 0 ;;
  esac
  lines_of_plan=$room/lines
  head -n "$end" "$input" >"$room/instance"
  if tail -n +$((end + 1)) "$input" | awk -v lock="$room/instance" -v begin="$plan_clock" -v lines="$lines_of_plan" \
    -f "$top/examples/plan_of_$what.awk" >"$room/plan" 2>"$room/why"; then
    cat "$room/instance" "$room/plan" >"$room/with_plan" && input=$room/with_plan plan_begin=$end
    [ ! -s "$room/why" ] || say_at "${second_name:-$first_name}" "$(sed 's/^plan_of_[a-z]*: //;q' "$room/why")"
  else
    say_at "${second_name:-$first_name}" "this $what can't be read as a plan: $(sed 's/^plan_of_[a-z]*: //;q' "$room/why")"
  fi
}

# `report` or `dossier`, by the first line with words after this one; of a second file a dossier begins with its own instance
what_follows() {
  awk -v last="$1" '{ sub(/\r$/, "") }
    NR > last && NF && !first { first = $1; if ($1 ~ /^(optimal|open|legal)$/ && $(NF - 1) == "cost") { print "report"; exit } }
    first && first != "glock" && first != "certificate" { exit }
    NR > last && $1 == "certificate" { print "dossier"; exit }' "$input"
}

# the line of the text as it was given, for a line of what the program reads
given_line() {
  local line
  line=$(line_before_closures "$1")
  if [ -n "$plan_begin" ] && [ "$line" -gt "$plan_begin" ]; then
    echo $((plan_begin + $(sed -n "$((line - plan_begin))p" "$lines_of_plan")))
  else
    echo "$line"
  fi
}
