# Checks of the built program, run as its users run it. `.ci/run` reads this file.

# the checker accepts the dossiers of lots, with the cost that the report names
dossiers_are_accepted() {
  local ships chambers text answer report
  for ships in 6 8 10 12 14 16; do
    for chambers in 1 2 3; do
      text=$(./glock lot --number $ships --ships $ships --chambers $chambers) || return 1
      report=$(./glock solve --nodes 1000000 <<<"$text" | head -n 1)
      answer=$(./glock solve --nodes 1000000 --dossier <<<"$text" | ./glock check) || return 1
      [ "${report/optimal/accepted}" = "$answer" ] || { echo "$ships ships, $chambers chambers: $report, $answer"; return 1; }
    done
  done
}

# a dossier whose cost is one less isn't accepted
a_cheaper_claim_is_rejected() {
  local dossier cost answer status
  dossier=$(./glock solve --dossier <examples/evening.lock) || return 1
  cost=$(sed -n 's/.*"cost":\([0-9]*\).*/\1/p' <<<"$dossier")
  answer=$(sed "s/\"cost\":$cost/\"cost\":$((cost - 1))/" <<<"$dossier" | ./glock check) && status=0 || status=$?
  [ "$status" = 7 ] && [ "$answer" = "rejected cost reason 2 CostWrong" ]
}

# a day of 96 ships, whose root a sweep closes, since missing ships count at their soonest
a_long_day_is_solved() {
  local day report answer
  day=$(./glock lot --number 2 --ships 96 --chambers 2) || return 1
  report=$(./glock solve <<<"$day" | head -n 1)
  answer=$(./glock solve --dossier <<<"$day" | ./glock check) || return 1
  [ "$report" = "optimal cost 3397" ] && [ "$answer" = "accepted cost 3397" ]
}

# the second checker judges the dossier of the longest queue within a minute of a processor
second_checker_is_in_time() {
  local dossier=out/queue-24.dossier answer
  mkdir -p out && ./glock solve examples/queue-24.lock --dossier -o "$dossier" || return 1
  answer=$(./glock check "$dossier") || return 1
  [ "$answer" = "$(ulimit -t 60 && python3 checker/check_dossier.py "$dossier")" ] && rm "$dossier"
}

# each example is solved, by one worker and by two alike
examples_are_solved() {
  local example one two
  for example in examples/*.lock; do
    one=$(./glock solve --workers 1 <"$example") && two=$(./glock solve --workers 2 <"$example") || { echo "$example"; return 1; }
    [ "$(head -n 1 <<<"$one")" = "$(head -n 1 <<<"$two")" ] || { echo "$example"; return 1; }
  done
}

# the stack that README names is enough, also for as many ships as there may be and all workers; the environment lies on it too,
# and is left out
stack_is_enough() {
  local run=(env -i crates/lock_main/out/lock_main) dossier=out/queue-24.dossier lot answer status
  mkdir -p out && (ulimit -s 256 && "${run[@]}" solve --dossier <examples/queue-24.lock >"$dossier") || return 1
  answer=$(ulimit -s 64 && "${run[@]}" check <"$dossier") && rm "$dossier" || return 1
  [[ $answer = "accepted cost "* ]] || return 1
  lot=$("${run[@]}" lot --number 1 --ships 96 --chambers 2) || return 1
  answer=$(ulimit -s 256 && "${run[@]}" solve --nodes 2000 --workers 8 <<<"$lot") && status=0 || status=$?
  [ $status = 0 ] && [[ $answer = "optimal cost "* ]] || return 1
  cat examples/evening.lock examples/evening.plan | (ulimit -s 64 && "${run[@]}" judge >/dev/null) &&
    cat examples/evening.lock examples/evening.plan | (ulimit -s 64 && "${run[@]}" play >/dev/null)
}

# whether a command has four threads at a time, with this input, in one of many short runs
has_four_threads() {
  local program threads
  for _ in {1..100}; do
    crates/lock_main/out/lock_main "${@:2}" <"$1" >/dev/null &
    program=$!
    while threads=$(sed -n 's/^Threads:[[:space:]]*//p' "/proc/$program/status" 2>/dev/null) && [ -n "$threads" ]; do
      [ "$threads" -lt 4 ] || { wait; return 0; }
    done
  done
  return 1
}

# what searches has a thread for each of three workers, beside the caller's
workers_have_threads() {
  local lock=examples/queue-24.lock open=out/threads.open empty=out/threads.plan search=(--nodes 1000 --workers 3)
  mkdir -p out && { cat "$lock" && printf 'plan\nend\n'; } >"$empty" || return 1
  ./glock solve --nodes 1 --keep <"$lock" >"$open" 2>/dev/null
  has_four_threads "$lock" solve "${search[@]}" || return 1
  has_four_threads "$open" resume "${search[@]}" || return 1
  has_four_threads "$empty" replan --from 0 "${search[@]}" && rm "$open" "$empty"
}
