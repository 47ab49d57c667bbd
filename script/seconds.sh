# `solve` and `resume` with --seconds: runs of more and more steps, each from the start, until one ends the search or the time is
# over. A run that is at work then is stopped, and the cheapest plan of the others is the answer.

may_take_seconds() { takes_seconds "$command" && in_range "$seconds" 1 86400 && ! names_option --nodes; }

# The steps of each run. A search of up to 1,000 steps goes without prices, so it is what lies beyond them that grows; `resume`
# adds its steps to those that were made before.
steps_of_runs() {
  local before=1000 beyond
  echo 1
  if [ "$command" = resume ]; then before=0; else echo $before; fi
  for ((beyond = 100; before + beyond < 1000000; beyond *= 4)); do echo $((before + beyond)); done
  echo 1000000
}

# sets answer and status
run_for_seconds() {
  local until=$((SECONDS + seconds)) words=("${program_words[@]}") whole best= steps
  keep_dossier || return
  for steps in $(steps_of_runs); do
    run_steps "$steps"
    [ "$status" = 1 ] || break
    keep_cheapest
    time_is_left && ! is_out_of_turns || break
    leave_unproved_run || break
  done
  if [ -n "$best" ] && [ "$status" != 0 ]; then answer=$best status=1 numbers=; fi
  program_words=("${words[@]}")
}

# A dossier on standard input is read by each run.
keep_dossier() {
  [ -z "$input" ] && [ -z "$wrong" ] || return 0
  input=$room/dossier
  cat >"$input" || { say "write fault: $(temporary_folder) may be full, so the dossier can't be kept"; exit 5; }
}

# The first run has all the time that it takes, so that there is an answer.
run_steps() {
  whole=("${run[@]}")
  if [ -n "$best" ]; then run=(timeout --foreground $((until - SECONDS)) "${run[@]}"); fi
  program_words=("${words[@]}" --nodes "$1")
  run_program
  run=("${whole[@]}")
}

time_is_left() { [ $((until - SECONDS)) -ge 1 ]; }

keep_cheapest() {
  [ -z "$best" ] || [ "$(cost_in "$answer")" -le "$(cost_in "$best")" ] || return 0
  best=$room/best
  mv -f "$answer" "$best"
}

# of a report or of a dossier
cost_in() { sed -n -E '1s/.* cost ([0-9]+)$/\1/p; s/.*"cost":([0-9]+).*/\1/p' "$1"; }

# then more steps are of no use
is_out_of_turns() { [[ $(head -c 10 "$best" | tr -d '\0') == "open turns" ]]; }

# The program that the kit's run has built makes the later runs.
leave_unproved_run() {
  is_unproved_run || return 0
  kit_gave_answer || exit 70
  [ -x "$(kept_program "$sources")" ] && run=("$(kept_program "$sources")")
}
