# `replan`: times of day for its minute, what it says of the new plan, ships that are withdrawn, plan texts with notes, and
# an afternoon with three replans in a row.

sed 's/ 240 / 262 /' "$room/evening.lock" >"$room/now.lock"
"$top/glock" solve --workers 1 --clock 17:00 "$room/evening.lock" >"$room/1700.report"
sed '/^ship gull/d' "$room/now.lock" >"$room/less.lock"
sed '/^ship gull/d; /^ship cora/d' "$room/now.lock" >"$room/fewer.lock"
sed '/^ship eddy/d' "$room/now.lock" >"$room/early.lock"
sed '1s/1/2/; 3s/$/\nclose side 130 400/' "$room/evening.lock" >"$room/shut.lock"
sed '/^chamber side/d' "$room/evening.lock" >"$room/gone.lock"
replanned() {
  call $1
  check "replan: $1" gives "$2" "$3" "${4-}"
}
rows replanned <<'ROWS'
replan now.lock evening.plan --now 150 | 0 | optimal cost 277 | gull: side 240 -> side 262
replan now.lock evening.plan --now 150 | 0 | optimal cost 277 | hero: side 280 -> side 287
replan now.lock evening.plan --now 150 | 0 | optimal cost 277 | dina: as before
replan now.lock evening.plan --now 19:30 --clock 17:00 | 0 | start 21:22 end 21:47 | gull: side 21:00 -> side 21:22
replan --now=19:30 --clock=17:00 now.lock 1700.report | 0 | start 21:22 end 21:47 | gull: side 21:00 -> side 21:22
replan now.lock evening.plan --from 19:30 --clock 17:00 | 0 | start 21:22 end 21:47 | gull: side 21:00 -> side 21:22
replan now.lock evening.plan --now +1 01:00 --clock 17:00 | 10 | illegal lockage 6 Early | gull arrives at 21:22
replan now.lock evening.plan --now=0 --clock 17:00 | 0 | optimal cost 277 | gull: 
replan now.lock evening.plan --now 0150 --clock 17:00 | 0 | optimal cost 277 | warning: --now 0150 is minute 150, which is 19:30; the time of day is written 01:50
replan now.lock evening.plan --now 250 --clock 17:00 | 10 | illegal lockage 6 Early | the lockage starts before all its ships have arrived. It starts at 21:00; gull arrives at 21:22. It starts before 21:10, so it has begun and stays
replan shut.lock evening.plan --now 130 | 10 | illegal lockage 3 Shut | side is closed from 130 to 400. It starts before minute 130, so it has begun and stays; a closure may begin at minute 155, where it ends.
replan gone.lock evening.plan --now 130 | 10 | plan line 5 fault 7 Unknown | there is no chamber named side above. A chamber that fails keeps its line
replan evening.lock 1700.report --now 19:30 --clock 16:00 | 0 | optimal cost 270 | 1700.report: warning: by its ships' arrivals minute 0 is 17:00 in this report, and not 16:00
replan less.lock evening.plan --now 150 | 10 | plan line 15 fault 7 Unknown | gull is in the plan and not in less.lock. Where gull is withdrawn say --drop gull, or take lines 14 and 15 out of evening.plan (the second alone, where the chamber was turned for this lockage)
replan two-chambers.lock evening.plan --now 150 | 10 | plan line 3 fault 7 Unknown | evening.plan: none of its ships is in two-chambers.lock; perhaps it is the plan of another lock or day
replan less.lock evening.plan --from 150 | 10 | plan line 15 fault 7 Unknown | or take lines 14 and 15 out of evening.plan
replan less.lock 1700.report --from 150 | 10 | fault 7 Unknown | out of 1700.report
replan less.lock evening.plan --now 250 | 10 | plan line 15 fault 7 Unknown | evening.plan:14: the lockage of gull has begun: it starts at minute 240, before minute 250, so gull can't be withdrawn; put the line of gull back into less.lock
replan less.lock evening.plan --now 150 --drop gull | 0 | optimal cost 245 | gull: gone, was side 240
replan less.lock evening.plan --now 150 --drop=gull | 0 | optimal cost 245 | side: empty turn at 225, for the lockage of 280
replan less.lock evening.plan --from 150 --drop gull | 0 | optimal cost 245 | side: empty turn at 225, for the lockage of 280
replan less.lock evening.plan --now 19:30 --clock 17:00 --drop gull | 0 | start 21:40 | side: empty turn at 20:45, for the lockage of 21:40
replan less.lock 1700.report --now 150 --drop gull | 0 | optimal cost 245 | gull: gone
replan fewer.lock evening.plan --now 110 --drop gull --drop cora | 0 | optimal | cora: gone
replan less.lock evening.plan --now 250 --drop gull | 2 | | evening.plan:14: the lockage of gull has begun: it starts at minute 240, before minute 250
replan less.lock evening.plan --now 21:10 --clock 17:00 --drop gull | 2 | | it starts at 21:00, before 21:10, so gull can't be withdrawn; put the line of gull back
replan now.lock evening.plan --now 150 --drop gull | 2 | | now.lock:10: gull is still among the ships
replan now.lock evening.plan --now 150 --drop gill | 2 | | --drop gill: the plan has no ship gill; perhaps gull is meant
replan early.lock evening.plan --now 110 --drop eddy | 0 | optimal | eddy: gone
ROWS
check "no file of -o is made where a ship can't be withdrawn" [ -z "$(ls "$room" | grep part)" ]

# A chamber that an empty lockage has turned, and one that stood still. alva goes up from 0 to 35; bob was to go up at 60.
cat >"$room/alone.lock" <<'LOCK'
glock 1
chamber c1 2000 232 10 20 5 4 30 15 low 0
ship alva up 1100 114 0 5
ship dora up 1100 114 100 5
end
LOCK
sed 's/dora up 1100 114 100/dora down 1100 114 55/' "$room/alone.lock" >"$room/reverse.lock"
printf 'plan\nlockage c1 up 0\nberth alva 10 0 left *\nend\n' >"$room/alone.plan"
printf 'plan\nlockage c1 up 0\nberth alva 10 0 left *\nlockage c1 up 60\nberth bob 10 0 left *\nend\n' >"$room/bob.plan"
call replan alone.lock alone.plan --now 100 --plan-text -o still.plan
check "a chamber that has stood still" gives 0 "" "c1: empty turn at 100, for the lockage of 115"
check "its note" grep -qx '# still c1 35 100' "$room/still.plan"
call replan alone.lock alone.plan --now 100 -o still.report
check "a report has no notes" gives 0 "" "for a later --now keep the plan by --plan-text"
call replan reverse.lock bob.plan --now 55 --drop bob --plan-text -o turned.plan
check "a chamber that has turned" gives 0 "" "c1: the empty turn of 35 is made, for ships going up"
check "its note" grep -qx '# turned c1 up 55 35 70' "$room/turned.plan"
sed '1s/1/2/; 2s/$/\nclose c1 20 21/' "$room/alone.lock" >"$room/shut.lock"
rows replanned <<'ROWS'
judge alone.lock still.plan | 0 | legal cost 85
play alone.lock still.plan | 0 | 100 c1 turn
play alone.lock still.plan --clock 06:00 | 0 | 07:40 c1 turn
play alone.lock still.report | 0 | 35 c1 turn
replan alone.lock still.plan --now 105 | 0 | optimal cost 85 | c1: the empty turn of 100 is made, for ships going up
replan alone.lock still.report --now 105 | 0 | optimal cost 75 | c1: the empty turn of 35 is made
replan alone.lock still.plan --from 105 | 0 | optimal cost 75 | c1: empty turn at 35, for the lockage of 105
play reverse.lock turned.plan | 0 | 70 c1 moor dora | c1 stands turned for ships going up, and is turned back at minute 55; no lockage needs this
replan reverse.lock turned.plan --now 60 | 0 | optimal cost 85 | dora: as before
replan alone.lock still.plan --now 90 | 0 | optimal cost 75 | still.plan: warning: this plan is of minute 100, and is planned anew from minute 90, which is before that
play shut.lock still.plan | 10 | illegal lockage 1 Shut | still.plan:4: lockage 1 Shut
ROWS

# An afternoon: gull is late, a new ship reports and iris is withdrawn, and main fails while a lockage is in it. Each plan can
# be carried out from the one before: before the minute both days are the same.
begun_by() { awk -v minute="$1" '$1 ~ /^[0-9]+$/ && $1 + 0 < minute && $3 != "done"' "$room/$2"; }
goes_on() {
  (cd "$room" && "$top/glock" play "$2" "$3" >day.before && "$top/glock" play "$4" "$5" >day.after) || return 1
  [ "$(begun_by "$1" day.before)" = "$(begun_by "$1" day.after)" ]
}
call replan now.lock evening.plan --now 150 --plan-text -o one.plan
check "the first replan" gives 0 "" "gull: side 240 -> side 262"
check "it goes on" goes_on 150 evening.lock evening.plan now.lock one.plan
sed 's/^ship iris.*/ship juno up 800 90 230 5/' "$room/now.lock" >"$room/second.lock"
call replan second.lock one.plan --now 235 --drop iris --plan-text -o two.plan
check "the second replan" gives 0 "" "iris: gone, was side 330"
check "the new ship" holds "$err" "juno: new, main 235"
check "it goes on" goes_on 235 now.lock one.plan second.lock two.plan
sed '1s/1/2/; 3s/$/\nclose main 270 400/' "$room/second.lock" >"$room/third.lock"
call replan third.lock two.plan --now 245 --plan-text -o three.plan
check "the third replan" gives 0 "" "juno: as before"
check "it goes on" goes_on 245 second.lock two.plan third.lock three.plan
call judge third.lock three.plan
check "the plan after three replans" gives 0 "legal cost" ""
sed 's/close main 270/close main 260/' "$room/third.lock" >"$room/shut.lock"
call replan shut.lock two.plan --now 245
check "a closure before the end of the lockage" gives 10 "Shut" "main is closed from 260 to 400"
