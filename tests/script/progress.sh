# How far a search is: shown where standard error is a terminal or --progress asks for it, and never else.

# a program that tells numbers where it is asked for them, says something else too, and takes some seconds
cat >"$room/slow" <<'PROGRAM'
#!/usr/bin/env bash
if [ -n "${GLOCK_PROGRESS-}" ]; then printf 'nodes 1 cost 500 low 0\nnodes 12 cost 400 low 391\n' >&2; fi
echo "said beside" >&2
sleep "${TAKES:-3}"
echo "optimal cost 400"
PROGRAM
chmod +x "$room/slow"
shown="steps 12, cost 400, low 391, gap 2.25 %"
lacks() { [[ $1 != *"$2"* ]]; }

slow_progress() {
  GLOCK_PROGRESS=1 GLOCK_PROGRAM=$room/slow call $1
  check "progress: $1" gives 0 "optimal cost 400" "$2"
  check "progress: $1, what is said beside" holds "$err" "said beside"
}
rows slow_progress <<ROWS
solve --progress evening.lock | min, $shown
trial --progress | min, $shown
replan evening.lock evening.plan --from 150 --progress | min, $shown
ROWS
check "progress: what the program tells isn't shown as it is" lacks "$err" nodes
GLOCK_PROGRESS=1 GLOCK_PROGRAM=$room/slow call solve evening.lock
check "progress: nobody asks" [ "$status $out $err" = "0 optimal cost 400 said beside" ]

# The program tells its numbers at once, and prints the same.
plain() { "$GLOCK_PROGRAM" solve --workers 1 <"$room/two-chambers.lock" 2>"$room/err"; }
wanted=$(plain)
check "progress: a program that isn't asked" [ ! -s "$room/err" ]
check "progress: the same answer" [ "$(GLOCK_PROGRESS=1 plain)" = "$wanted" ]
check "progress: the program's numbers" grep -Eqx 'nodes [0-9]+ cost [0-9]+ low [0-9]+' "$room/err"
check "progress: its numbers, and at the end those of the whole search" [ "$(grep -Evx 'nodes [0-9]+ cost [0-9]+ low [0-9]+' "$room/err" | grep -Ecx 'ended nodes [0-9]+ rounds [0-9]+ cuts [0-9]+ first low [0-9]+')" = 1 ]
check "progress: nothing else" [ "$(grep -Evcx '(nodes [0-9]+ cost [0-9]+ low|ended nodes [0-9]+ rounds [0-9]+ cuts [0-9]+ first low) [0-9]+' "$room/err")" = 0 ]

# --stats says at the end what the search took, and shows nothing before; what is printed stays the same.
stats() {
  TAKES=1 GLOCK_PROGRAM=$room/slow call $1
  check "stats: $1" gives 0 "optimal cost 400" "of the processor "
  check "stats: $1, by the clock" grep -Eq '^glock: stats seconds [1-9][0-9]*[.][0-9]{2} of the processor [0-9]+[.][0-9]{2} workers' "$room/err"
  check "stats: $1, workers and numbers" holds "$err" "workers $2; exact: cost 400 low 400; up to a second before the end: steps 12"
  check "stats: $1, nothing else" [ "$(wc -l <"$room/err")" = 2 ]
}
rows stats <<'ROWS'
solve --stats evening.lock | 2
solve evening.lock --workers 3 --stats | 3
solve --workers=8 --stats evening.lock --clock 17:00 | 8
trial --stats | 1
ROWS
call solve evening.lock --workers 1 --dossier
wanted=$out
call solve evening.lock --workers 1 --dossier --stats
check "stats: of a dossier" gives 0 "$wanted" "glock: stats ships       9"
check "stats: its cuts by names" holds "$err" "glock: stats cut 0       side row cora dina"
call solve two-chambers.lock --workers 1 --nodes 50 --stats
check "stats: an open report's numbers are exact" gives 1 "open nodes 50" "workers 1; exact: steps 50 rounds "
for workers in 1 2 4; do
  call solve two-chambers.lock --workers $workers --nodes 50 --stats
  check "stats: all steps of $workers workers" holds "$err" "workers $workers; exact: steps 50 rounds "
done
call solve two-chambers.lock --workers 1 --nodes 50 --keep --stats
check "stats: of an open dossier" gives 1 "certificate open" "glock: stats dossier     open"
check "stats: its steps, and no report's cost" grep -Eq 'workers 1; exact: steps 50 rounds [0-9]+ cuts [0-9]+ first low [0-9]+$' "$room/err"
call solve --stats --seconds 1 --workers 1 long.lock
check "stats: of an end by the clock" gives 1 "open nodes" "glock: stats seconds "
check "stats: not of the run that was stopped" lacks "$err" "before the end"
check "stats: the steps, cost and low of the report" holds "$err" "workers 1; exact: steps "
call solve --stats bad.lock
check "stats: of a refusal" gives 3 "fault" "glock: stats seconds "

# On a terminal the line is drawn over, and is gone at the end and after an interrupt.
on_terminal() { typed=$(cd "$room" && GLOCK_PROGRAM=$room/slow script -qec "$1" /dev/null </dev/null | tr -d '\0\n'); }
if script -qec true /dev/null >/dev/null 2>&1; then
  on_terminal "$top/glock solve evening.lock >/dev/null"
  check "progress: on a terminal" holds "${typed/0:0[2-9] min/0:02 min}" $'\r\033[Kglock: 0:02 min, '"$shown"
  check "progress: gone at the end" holds "$typed" $'%\r\033[Ksaid beside\r'
  TAKES=30 on_terminal "timeout --foreground -s INT 9 $top/glock solve evening.lock"
  check "progress: gone after an interrupt" holds "$typed" $'%\r\033[Ksaid beside\r'
fi
