# Tables of days, changes between plans, what stands in dossiers, tables of other programs, and many days at once.
# (After install.sh, whose installed program solves the days.)

mkdir "$room/days"
cp "$room/evening.lock" "$room/days/monday.lock"
cp "$room/two-chambers.lock" "$room/days/tuesday.lock"
cp "$room/bad.lock" "$room/days/friday.lock"

# Each way to solve many days leaves these reports; a day with a mistake leaves none.
solved_days() {
  rm -f "$room"/days/*.report
  (cd "$room" && GLOCK=$room/moved/bin/glock && export GLOCK && unset GLOCK_PROGRAM && eval "$2") >"$room/out" 2>"$room/err"
  status=$? out=$(<"$room/out") err=$(<"$room/err")
  check "$1" [ "$(cd "$room/days" && head -qn 1 *.report | cut -d ' ' -f 1,2 | tr '\n' ' ')" = "optimal cost open nodes " ]
}
solved_days "days by xargs" 'ls days/*.lock | sed "s/\.lock$//" | xargs -P 4 -I DAY $GLOCK solve DAY.lock -o DAY.report --workers 1 --nodes 50'
solved_days "days by make -j" 'make -k -j 4 -f "$top/examples/days.mk" DAYS=days GLOCK=$GLOCK OPTIONS="--nodes 50"'
solved_days "days by a Slurm array" 'for SLURM_ARRAY_TASK_ID in 1 2 3; do export SLURM_ARRAY_TASK_ID; OPTIONS="--nodes 50" bash "$top/examples/days.sbatch" days; done'
if command -v parallel >/dev/null; then
  solved_days "days by GNU parallel" 'parallel -j 4 $GLOCK solve {} -o {.}.report --workers 1 --nodes 50 ::: days/*.lock'
else
  echo "left out: GNU parallel isn't here, so days by it weren't tried"
fi

# a dossier with white space, other orders of keys, and leaves of all kinds of numbers
sed '6,$d' "$room/two.dossier" >"$room/spaced.dossier"
cat >>"$room/spaced.dossier" <<'DOSSIER'
certificate  open 4 # here
{ "tree" : [0, 0, 6, 1, 4, 0,
 3], "prices" : [[8400,
8400], [3600, 3600] ],
"plan":[{"way":0,"chamber":0,"ships":[0],"spots":[[10,0,0,0]],"start":0},{"chamber":0,"ships":[1],"spots":[[10,0,0,0]],"start":50,"way":0}],
"cuts":[ {"why":[1, 0, 1], "ships":[0,1], "chamber":0} ], "cost":120 }
DOSSIER

# A table goes by the locks, and has a line for a day without a report too.
tabled() {
  call $1
  check "table: $1" gives "$2" "$3" "${4-}"
}
"$GLOCK_PROGRAM" judge <<<"$(cat "$room/evening.lock" "$room/evening.plan")" >"$room/judged.report"
sed 's/"prices":\[/"prices":[[0,0,0],/; s/500\]\]}\]/500],[0,1,95,3]]},[1,2,3]]/' "$top/tests/checker/triples.dossier" >"$room/triples.dossier"
rows tabled <<'ROWS'
table days | 1 | days/friday.lock   no report
table days | 1 | days/monday.lock   optimal
table --csv days | 1 | days/monday.lock,optimal,270,270,0.0,9,8,10,brio
table --csv days | 1 | days/tuesday.lock,open,506,280,44.7,10,8,
table --csv days | 1 | days/friday.lock,no report,,,,,,,
table --csv days/monday.lock 2350.report judged.report | 0 | 2350.report,optimal,270,270,0.0,9,8,10,brio
table --csv judged.report | 0 | judged.report,legal,270,,,9,8,10,brio
table --csv cut.report | 1 | cut.report,no report | cut.report: warning: no whole report
table | 2 | | table needs a folder with files such as monday.lock
table --scv days | 2 | | table takes --csv, and the names of folders and files, and not "--scv"
table nodays | 2 | | there is no file "nodays"
changes evening.plan evening-early.plan | 0 | cora: start 125 to 124
changes evening.plan evening-early.plan | 0 | 7 ships unchanged
changes plain.report plain.report | 0 | 9 ships unchanged
changes evening.plan | 2 | | changes needs two reports or plans
changes evening.plan noplan | 2 | | there is no file "noplan"
changes evening.plan evening.lock | 10 | | evening.lock: this is no report and no plan: it has no lockage
changes evening.lock evening.plan | 10 | | evening.lock: this is no report and no plan: it has no lockage
changes evening.plan 1700.report | 10 | | one of evening.plan and 1700.report has times of day and the other minutes
stats two.dossier | 0 | dossier     whole, version 1
stats two.dossier | 0 | cut 0       c1 row s1 s2
stats spaced.dossier | 0 | bytes       418
stats spaced.dossier | 0 | price lists 2
stats spaced.dossier | 0 | nodes       5
stats spaced.dossier | 0 | open      2
stats spaced.dossier | 0 | cut 0       c1 row s1 s2
stats triples.dossier | 0 | price lists 3
stats triples.dossier | 0 | triples     2
stats triples.dossier | 0 | nodes       1
stats two.open | 0 | dossier     open, version 2
stats plain.report | 7 | | plain.report: this is no dossier
stats cut.dossier | 7 | | cut.dossier: this dossier is damaged or cut off
stats two.open two.open | 2 | | stats takes the name of one dossier
stats --csv | 2 | | stats takes the name of one dossier
stats nodossier | 2 | | there is no file "nodossier"
stats days | 66 | | days can't be read
help table | 0 | ./glock table [--csv] FOLDER
changes --help | 0 | ./glock changes OLD NEW
changes -h | 0 | ./glock changes OLD NEW
table days --help | 0 | ./glock table [--csv] FOLDER
ROWS
sed '/^berth iris/d' "$room/evening.plan" >"$room/less.plan"
call changes "$room/evening.plan" "$room/less.plan"
check "a ship that is gone" gives 0 "iris: gone, was " ""
call changes "$room/less.plan" "$room/evening.plan"
check "a new ship" gives 0 "iris: new, " ""
touch -d '2 days ago' "$room/days/monday.report"
call table days
check "an older report" gives 1 "optimal" "days/monday.report: warning: older than days/monday.lock"

# A table of ships becomes a lock's file, and a report a table.
table_of_ships() {
  printf "$1" >"$room/ships.csv"
  (cd "$room" && awk -v lock=evening.lock -v begin=17:00 -f "$top/examples/lock_of_csv.awk" ships.csv) >"$room/out" 2>"$room/err"
  status=$? out=$(<"$room/out") err=$(<"$room/err")
  check "ships: $1" gives "$2" "$3" "${4-}"
}
rows table_of_ships <<'ROWS'
name,way,length,width,arrival,handling\nalva,up,110,11.4,17:25,5\n | 0 | ship alva up 1100 114 25 5
\xef\xbb\xbfName;Way;Length;Width;Arrival\r\nalva;UP;110,0;11,4;17:25\r\n | 0 | ship alva up 1100 114 25 0
name,way,length,width,arrival\nalva,up,"110,05",11,12\n | 0 | ship alva up 1101 110 12 0
width\tlength\tway\tname\tarrival\n9\t85\tdown\tMS Grüße\t9:05\n | 0 | ship MS_Gruesse down 850 90 965 0
name,way,length,width,arrival\nalva,up,110,11,0\nalva,up,110,11,0\n | 0 | ship alva-1 up 1100 110 0 0
name,way,length,width,arrival,class\nalva,up,110,11,0,2\nbrio,up,110,11,0,\n | 0 | ship alva up 1100 110 0 0 2
name,length,width,arrival\nalva,110,11,0\n | 1 | | lock_of_csv: the first line names no column way
name,way,length,width,arrival\nalva,north,110,11,0\n | 1 | | line 2: the way must be up or down, and not "north"
name,way,length,width,arrival\nalva,up,long,11,0\n | 1 | | line 2: the length must be metres, and not "long"
name,way,length,width,arrival\nalva,up,110,11,noon\n | 1 | | line 2: the arrival must be HH:MM or a minute, and not "noon"
name,way,length,width,arrival\nalva,up,110,11,17:65\n | 1 | | line 2: the arrival must be HH:MM or a minute, and not "17:65"
name,way,length,width,arrival\nalva,up,110,11,17:25:30\n | 0 | ship alva up 1100 110 26 0
name,way,length_m,width (m),arrival,handling [min]\nalva,up,110,11,17:25,5\n | 0 | ship alva up 1100 110 25 5
name,way,length of stay,width,arrival\nalva,up,110,11,17:25\n | 1 | | the first line names no column length
name,way,length,width,arrival\nÎle de Ré,up,110,11,17:25,,\n | 0 | ship Ile_de_Re up 1100 110 25 0
name,way,length,width,arrival\nalva,up,110,5,11,4,17:25\n | 1 | | line 2 has 7 cells, and the first line 5; a comma in a cell wants quotes
name,way,length,width,arrival,handling\nalva,up,110,11,17:25,5.5\n | 1 | | line 2: the handling must be a whole number up to 1000000, and not "5.5"
name,way,length,width,arrival,class\nalva,up,110,11,17:25,ADN\n | 1 | | line 2: the class must be a whole number up to 9, and not "ADN"
name,way,length,width,arrival\ralva,up,110,11,17:25\r | 1 | | its lines end in carriage returns alone
ROWS
echo name,way,length,width,arrival >"$room/ships.csv"
printf 'name,way,length,width,arrival\nalva,up,110,11,0\n' >"$room/alva.csv"
wrong_call() {
  out=$(cd "$room" && awk $1 -f "$top/examples/$2" "$3" 2>err)
  status=$? err=$(<"$room/err")
  check "$2 $3 $1" gives "$4" "${6-}" "$5"
}
rows wrong_call <<'ROWS'
-v lock=evening.lock -v begin=1700 | lock_of_csv.awk | ships.csv | 1 | begin must be a time of day such as 17:00, and not "1700"
-v lock=nolock | lock_of_csv.awk | alva.csv | 1 | the lock's file nolock can't be read
| csv_of_report.awk | evening.plan | 1 | csv_of_report: this is no whole report | lockage,chamber
| csv_of_report.awk | cut.report | 1 | this is no whole report: it has no line end | lockage,chamber
| plan_of_dossier.awk | evening.lock | 1 | plan_of_dossier: no plan stands in it
| plan_of_dossier.awk | cut.dossier | 1 | its plan is damaged or cut off | berth
| plan_of_dossier.awk | evening.dossier | 0 | | lockage main up 0
| plan_of_report.awk | evening.lock | 1 | plan_of_report: this is no report: it has no lockage
| plan_of_report.awk | 1700.report | 1 | give the lock's file, as -v lock=evening.lock, or the time of minute 0, as -v begin=17:00 | plan
| plan_of_report.awk | evening.plan | 1 | line 3 is no line of a report; perhaps this is a plan text already
ROWS
{ echo name,way,length,width,arrival; printf 's%s,up,50,6,0\n' {1..25}; } >"$room/ships.csv"
awk -v lock="$room/evening.lock" -f "$top/examples/lock_of_csv.awk" "$room/ships.csv" >"$room/ships.lock"
check "a table of 25 ships" [ "$(head -n 1 "$room/ships.lock")" = "glock 3" ]
printf 'name;way;length;width;arrival\nalva;up;110,0;11,4;17:25\n' >"$room/ships.csv"
awk -v lock="$room/evening.lock" -v begin=17:00 -f "$top/examples/lock_of_csv.awk" "$room/ships.csv" >"$room/ships.lock"
call solve ships.lock
check "a lock's file of a table" gives 0 "optimal cost 20" ""

table_of_report() {
  out=$(awk $1 -f "$top/examples/csv_of_report.awk" "$room/$2") err= status=0
  check "a table of $2" gives 0 "$3" ""
}
rows table_of_report <<'ROWS'
| plain.report | lockage,chamber,way,start,end,ship,x_m,y_m,rank,moored_at,flow,wait
| plain.report | 1,main,up,0,35,alva,1.0,0.0,left,quay,35,0
| 1700.report | 1,main,up,17:00,17:35,alva,1.0,0.0,left,quay,35,0
-v separator=; -v decimal=, | 1700.report | 2;side;up;17:10;17:35;brio;1,0;0,0;left;quay;35;10
-v decimal=, | plain.report | 1,main,up,0,35,alva,"1,0","0,0",left,quay,35,0
ROWS

# The chambers of the next day, of a report with minutes, one with times of day, and a plan.
sed '1s/1/2/;3s/$/\nclose side 290 400\nclose main 10 20/' "$room/evening.lock" >"$room/closed.lock"
next_day() {
  out=$(cd "$room" && awk $1 -f "$top/examples/next_day.awk" $2 2>err)
  status=$? err=$(<"$room/err")
  check "the day after: $1 $2" gives "$3" "$4" "${5-}"
}
rows next_day <<'ROWS'
-v lock=evening.lock -v minute=300 | plain.report | 0 | chamber side 1360 160 10 20 5 4 20 10 low 55
-v lock=evening.lock -v minute=300 | 1700.report | 0 | chamber side 1360 160 10 20 5 4 20 10 low 55
-v lock=evening.lock -v minute=300 | evening.plan | 0 | chamber side 1360 160 10 20 5 4 20 10 low 55
-v lock=evening.lock -v minute=300 | crlf.report | 0 | chamber main 2000 240 10 20 5 6 30 15 low 0
-v lock=evening.lock | plain.report | 0 | chamber side 1360 160 10 20 5 4 20 10 low 0
-v lock=closed.lock -v minute=300 | plain.report | 0 | close side 0 100
| plain.report | 1 | | next_day: name the lock's file of the day, as -v lock=monday.lock
-v lock=nolock | plain.report | 1 | | next_day: the lock's file nolock can't be read
-v lock=evening.lock -v minute=x | plain.report | 1 | | minute must be a whole number, and not "x"
-v lock=two-chambers.lock | plain.report | 1 | | line 2: there is no chamber main in two-chambers.lock
-v lock=evening.lock | evening.lock | 1 | | it has no lockage
-v lock=evening.lock | cut.report | 1 | | it has no line end
ROWS
printf 'name,way,length,width,arrival\nalva,down,110,11.4,0\n' >"$room/ships.csv"
(cd "$room" && awk -v lock=evening.lock -v minute=150 -f "$top/examples/next_day.awk" plain.report >half.lock &&
  awk -v lock=half.lock -f "$top/examples/lock_of_csv.awk" ships.csv >late.lock)
call solve late.lock
check "a day after with ships of a table" gives 0 "optimal cost" ""
