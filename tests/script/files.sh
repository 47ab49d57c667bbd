# Files in the place of standard input, -o, two files, warnings, times of day, help.

# The program's text and status are passed on as they are.
passes_on() {
  local words=$1 input=$room/$2 wanted
  wanted=$("$GLOCK_PROGRAM" $words <"$input"; echo "$?")
  [ "$("$top/glock" $words <"$input" 2>"$room/err"; echo "$?")" = "$wanted" ] || return 1
  [ "$("$top/glock" $words "$input" 2>"$room/err"; echo "$?")" = "$wanted" ]
}
sed '9s/ 5$//' "$room/evening.lock" >"$room/bad.lock"
"$GLOCK_PROGRAM" solve --nodes 50 --keep <"$room/two-chambers.lock" >"$room/two.open"
cat "$room/evening.lock" "$room/evening-early.plan" >"$room/early.both"
passed_on() { check "passed on: $1 < $2" passes_on "$1" "$2"; }
rows passed_on <<'ROWS'
solve --workers 1 | evening.lock
--nodes 50 --workers 1 solve | two-chambers.lock
solve --dossier --workers 1 | evening.lock
solve | bad.lock
check | two.dossier
check | two.open
lower | two.open
resume --workers 1 | two.open
judge | early.both
ROWS

# Two files are joined, also where the first has no last line feed; the plan's lines are counted in its own file.
printf %s "$(<"$room/evening.lock")" >"$room/cut.lock"
sed '5s/$/\n\n# later\n/' "$room/evening-early.plan" >"$room/late.plan"
printf '\n# after the end\n' | cat "$room/evening.lock" - >"$room/tail.lock"
sed '$d' "$room/evening.lock" >"$room/endless.lock"
{ cat "$room/evening.plan"; yes '# later' | head -n 20000; echo later; } >"$room/long.plan"
head -c 16777217 /dev/zero >"$room/huge.plan"
joined() {
  call $1
  check "joined: $1" gives "$2" "$3" "${4-}"
}
rows joined <<'ROWS'
judge evening.lock evening.plan | 0 | legal cost 270
judge cut.lock evening.plan | 0 | legal cost 270
play evening.lock evening.plan | 0 | 10 side moor brio
picture evening.lock evening.plan | 0 | <h1>legal, total flow time 270 minutes</h1>
picture evening.lock evening-early.plan | 10 | illegal lockage 3 Early | evening-early.plan:7: lockage 3 Early
replan evening.lock evening.plan --from 150 | 0 | optimal cost 270 | alva: as before
judge tail.lock late.plan | 10 | illegal lockage 3 Early | late.plan:10: lockage 3 Early
judge evening.lock evening-early.plan | 10 | illegal lockage 3 Early | evening-early.plan:7: lockage 3 Early
judge endless.lock evening.plan | 3 | line 14 fault 3 Word | evening.plan:2: fault 3 Word: endless.lock has no line end
judge tail.lock bad.lock | 10 | plan line 3 fault 2 NoMark | bad.lock:1: fault 2 NoMark
judge evening.lock long.plan | 3 | too long 131072 | evening.lock and long.plan together may have 131072 bytes at most
picture evening.lock long.plan | 10 | fault 3 Word | fault 3 Word: the line end is in line 20, and nothing may follow it
picture evening.lock huge.plan | 66 | | huge.plan has more than 16777216 bytes; join the two files and give one
ROWS

# A picture of a dossier says what the dossier shows.
sed '7s/120/119/' "$room/two.dossier" >"$room/cheap.dossier"
sed '3s/1100/11oo/' "$room/two.dossier" >"$room/typo.dossier"
drawn() {
  call picture $1
  check "picture: $1" gives "$2" "$3" "${4-}"
}
rows drawn <<'ROWS'
two.dossier | 0 | <h1>optimal, total flow time 120 minutes</h1>
two.dossier --clock 06:00 | 0 | <p class="sub">from 06:00 to
evening.lock evening.plan --now 19:30 --clock 17:00 | 0 | <a href="#l3"><title>lockage 3 down, begun, from 19:00 to 19:35: dina</title>
evening.lock evening.plan --now=150 | 0 | y="9">now 150</text>
two.dossier | 0 | <p class="sub"><b>two.dossier, 20
evening.lock evening.plan | 0 | <title>evening.lock, evening.plan, 20
evening.lock evening.plan --title=Tuesday&<\1> | 0 | <title>Tuesday&amp;&lt;\1&gt;: legal, total flow time 270 minutes</title>
evening.lock evening.plan --title=Tuesday | 0 | <p class="sub"><b>Tuesday</b></p>
two.open | 0 | <h1>open, total flow time 506 minutes; no plan takes less than 280 minutes</h1>
cheap.dossier | 7 | rejected cost reason 2 CostWrong | cheap.dossier: rejected at cost: its plan does not cost what the dossier says.
typo.dossier | 7 | dossier fault 1 Instance line 3 fault 5 Number | typo.dossier:3: fault 5 Number: "11oo" stands for the length
ROWS
long_dossier() { head -n 6 "$room/two.dossier"; head -c 140000 /dev/zero | tr '\0' ' '; tail -n 1 "$room/two.dossier"; }
call picture <(long_dossier)
check "the picture of a long dossier from a pipe" gives 0 "<h1>optimal, total flow time 120 minutes</h1>" ""

# A byte order mark at the beginning of a file or a pipe is left out.
for name in evening.lock evening.plan evening-early.plan two.dossier two.open; do
  { printf '\xef\xbb\xbf'; cat "$room/$name"; } >"$room/marked-$name"
done
marked() {
  call $1
  check "with a byte order mark: $1" gives "$2" "$3" "${4-}"
}
rows marked <<'ROWS'
solve marked-evening.lock | 0 | optimal cost 270
judge evening.lock marked-evening.plan | 0 | legal cost 270
judge marked-evening.lock marked-evening-early.plan | 10 | illegal lockage 3 Early | marked-evening-early.plan:7: lockage 3 Early
check marked-two.dossier | 0 | accepted cost 120
lower marked-two.open | 1 | lower 280 cost 506 | this plan costs 506
picture marked-two.dossier | 0 | <h1>optimal, total flow time 120 minutes</h1>
ROWS
out=$("$top/glock" solve <"$room/marked-evening.lock" 2>"$room/err")
check "a byte order mark on standard input" holds "$out" "optimal cost 270"
err=$("$top/glock" check <"$room/marked-two.dossier" 2>&1 >"$room/out")
check "a byte order mark before a dossier on standard input" holds "$err" "or one that begins with a byte order mark"
{ printf '\xef\xbb\xbf'; cat "$room/evening.lock"; yes '# later' | head -c 131073; } >"$room/marked-long.lock"
call solve marked-long.lock
check "a byte order mark before too many bytes" gives 3 "too long 65536" "marked-long.lock: too long: marked-long.lock may have 65536 bytes at most"
out=$(cd "$room" && cat marked-long.lock | "$top/glock" judge 2>&1)
check "a byte order mark before too many bytes on standard input" holds "$out" "too long 131072"

# A dossier may be as long as memory allows, and a source without end takes no more than that.
printf '#!/usr/bin/env bash\nulimit -S -d\n' >"$room/limit" && chmod +x "$room/limit"
out=$(GLOCK_PROGRAM=$room/limit "$top/glock" check "$room/two.dossier")
check "the memory that is free bounds what a dossier takes" test "$out" -gt 0
out=$(ulimit -S -d 200000; yes | GLOCK_PROGRAM=$room/limit "$top/glock" check)
check "a bound that is there already stays" test "$out" = 200000
err=$({ ulimit -S -d 200000; yes | "$top/glock" check; } 2>&1)
check "a dossier without end" holds "$err" "and see that what check reads comes to an end"
call check /dev/zero
check "a device without end" gives 66 "" "/dev/zero is a device, which need not end; a dossier is read from a file or a pipe"
err=$("$top/glock" lower 2>&1 </dev/zero)
check "a device without end on standard input" holds "$err" "standard input is a device, which need not end"
out=$("$top/glock" check 2>"$room/err" </dev/null)
check "an empty device" holds "$out" "dossier fault 1 Instance"

# But for its title a page is the program's.
untitled() { sed '/^<p class="sub"><b>Tuesday<\/b><\/p>$/d; s/^<title>Tuesday: /<title>glock: /' "$room/out" | cmp -s - "$room/program.html"; }
cat "$room/evening.lock" "$room/evening.plan" | "$GLOCK_PICTURE" picture >"$room/program.html"
call picture evening.lock evening.plan --title Tuesday
check "the page but for its title" untitled

# A pipe in the place of a file is read once.
call solve <(cat "$room/evening.lock")
check "a pipe as a file" gives 0 "optimal cost 270" ""
call judge <(cat "$room/evening.lock") <(cat "$room/evening-early.plan")
check "two pipes as files" gives 10 "illegal lockage 3 Early" ":7: lockage 3 Early"
call check <("$GLOCK_PROGRAM" solve --dossier <"$room/evening.lock")
check "a dossier from a pipe" gives 0 "accepted cost 270" ""

# -o: what is written, what is left alone
written() {
  printf 'old\n' >"$room/old"
  call $1 -o old
  check "written: $1" gives "$2" "$3" "$4"
  check "the file after: $1" holds "$(head -n 1 "$room/old")" "$5"
  check "nothing else is left by: $1" holds "$(ls "$room" | grep part)" ""
}
rows written <<'ROWS'
solve evening.lock | 0 | | | optimal cost 270
solve two-chambers.lock --nodes 50 | 1 | | isn't proved cheapest; what is proved is that no plan costs less than | open nodes 50 low 
solve bad.lock | 3 | line 9 fault 4 Count | bad.lock:9: fault 4 Count | old
solve --nodes x | 2 | bad words | --nodes takes | old
solve evening.lock --dossier | 0 | | | glock 1
solve two-chambers.lock --nodes 50 --dossier | 1 | open nodes 50 | old is not written | old
solve two-chambers.lock --nodes 50 --keep | 1 | | this open dossier keeps it | glock 1
solve evening.lock --keep | 0 | | holds the report of a cheapest plan | optimal cost 270
check two.dossier | 0 | | | accepted cost 120
check two.open | 7 | dossier fault 2 NoMark | This is an open dossier | old
lot | 0 | | | glock 1
ROWS

for words in "--output old" --output=old -oold; do
  call solve evening.lock $words
  check "written by $words" gives 0 "" ""
done

no_file() {
  call $1
  check "refused: $1" gives "$2" "" "${3-}"
}
mkdir "$room/folder"
: >"$room/folder/day.lock"
rows no_file <<'ROWS'
solve evening.lock -o evening.lock | 73 | evening.lock is read, so -o must name another file
solve evening.lock -o folder | 73 | is a folder
solve evening.lock -o nofolder/x | 73 | there is no folder
solve folder | 66 | folder is a folder; one file at a time is read, such as folder/day.lock
solve evening.lock -o /dev/null | 0 |
solve evening.lock -o /dev/full | 5 | evening.lock: write fault: not all of the answer could be written to /dev/full: No space left on device
ROWS
(cd "$room" && "$top/glock" solve evening.lock -o /dev/stdout 2>err | cat >out)
status=$? out=$(<"$room/out") err=$(<"$room/err")
check "standard output as the file of -o, in a pipe" gives 0 "optimal cost 270" ""

# A file keeps its mode and its other names.
echo old >"$room/one" && ln "$room/one" "$room/other" && echo old >"$room/mine" && chmod 640 "$room/mine" && ln -s mine "$room/linked"
call solve evening.lock -o one
check "other names" holds "$(head -n 1 "$room/other")" "optimal cost 270"
call solve evening.lock -o linked
check "a mode and a link" [ "$(stat -c %a "$room/mine") $(readlink "$room/linked") $(head -n 1 "$room/mine")" = "640 mine optimal cost 270" ]

# A file without permission to write stays as it is. (Root may write all, so nobody is asked.)
as_nobody() { if [ "$(id -u)" = 0 ]; then setpriv --reuid=65534 --regid=65534 --clear-groups "$@"; else "$@"; fi; }
mkdir "$room/open" && chmod 777 "$room/open" && chmod 711 "$room" && echo old >"$room/open/locked" && chmod 444 "$room/open/locked"
if as_nobody test -r "$top/script/say.sh" -a -x "$GLOCK_PROGRAM" 2>/dev/null; then
  as_nobody "$top/glock" lot -o "$room/open/locked" >"$room/out" 2>"$room/err"
  status=$? out=$(<"$room/out") err=$(<"$room/err")
  check "no permission" gives 73 "" "locked can't be written: no permission"
  check "it stays" [ "$(<"$room/open/locked")" = old ]
else
  echo "left out: nobody may not read $top, so a file without permission wasn't tried"
fi

TMPDIR=$room/nowhere call solve evening.lock
check "no folder for temporary files" gives 73 "" "the folder for temporary files ($room/nowhere, which TMPDIR names) can't be written in"
check "the device is still there" [ -c /dev/null ]

# an edit of evening.lock, and a part of the warning or of the message
warned() {
  sed "$1" "$room/evening.lock" >"$room/x.lock"
  call solve x.lock
  check "sizes: $1" gives "$2" "$3" "$4"
}
rows warned <<'ROWS'
4s/1100 114/110 11/ | 0 | optimal | x.lock:4: warning: ship alva is 110 long and 11 wide, which looks like metres
4s/1100 114/114 150/ | 0 | optimal | x.lock:4: warning: ship alva is wider (150) than long (114)
4,12s/\([0-9]\)[0-9] \([0-9]*\)[0-9] \([0-9]* 5\)$/\1 \2 \3/ | 0 | optimal | such lines
4s/1100 114/95 800/ | 8 | ship alva fits no chamber | x.lock:4: alva is 95 long and 800 wide, in decimetres; main takes ships up to 1980 by 240, side takes ships up to 1340 by 160. Its length and width look swapped
2s/ 10 20 / 1 2 / | 0 | optimal | x.lock:2: warning: in chamber main the clearance at the ends is 1, which looks like metres
2s/ 10 20 / 10 2 / | 0 | optimal | x.lock:2: warning: in chamber main the gap along the chamber is 2, which looks like metres
4s/ 5$/ 300/ | 0 | optimal | x.lock:4: warning: ship alva has a handling of 300 minutes, which looks like seconds; times are minutes, and 300 seconds are 5.
4,12s/ [0-9]* 5$/ 1725 5/ | 0 | optimal | x.lock:4: warning: all arrivals look like times of day (1725 as 17:25); they are minutes from one moment: after midnight 17:25 is minute 1045.
2,3s/[0-9] / /;2s/240/24/;3s/160/16/ | 8 | ship alva fits no chamber | The chambers look as if given in metres
4s/1100 114/11000 1140/ | 8 | ship alva fits no chamber | The ship looks as if given in centimetres
ROWS

# The plan text of a report is the report's plan; the script reads the report itself, also one with times of day.
of_report() {
  call $1 -o x.report
  awk ${2:+-v $2} -f "$top/examples/plan_of_report.awk" "$room/x.report" >"$room/x.plan" 2>"$room/err"
  call judge evening.lock x.plan
  check "the plan of the report: $1, $2" gives "$3" "$4" "${5-}"
}
rows of_report <<'ROWS'
solve evening.lock | | 0 | legal cost 270
judge evening.lock evening.plan | | 0 | legal cost 270
solve evening.lock --clock 17:00 | begin=17:00 | 0 | legal cost 270
solve evening.lock --clock 17:00 | | 10 | plan line 2 fault 11 NoEnd | x.plan:2: fault 11 NoEnd
ROWS
"$GLOCK_PROGRAM" solve --workers 1 <"$room/evening.lock" >"$room/plain.report"
for clock in 06:00 17:00 23:50; do
  "$top/glock" solve --workers 1 --clock $clock "$room/evening.lock" >"$room/${clock/:/}.report"
done
sed 's/$/\r/' "$room/1700.report" >"$room/crlf.report"
cat "$room/evening.lock" "$room/2350.report" >"$room/both"
sed '$d' "$room/1700.report" >"$room/cut.report"
sed '/start 125/s/125/124/' "$room/plain.report" >"$room/early.report"
sed 's/ 240 / 262 /' "$room/evening.lock" >"$room/now.lock"
"$GLOCK_PROGRAM" solve --dossier --workers 1 <"$room/evening.lock" >"$room/evening.dossier"
head -c 900 "$room/evening.dossier" >"$room/cut.dossier"
as_plan() {
  call $1
  check "a report as a plan: $1" gives "$2" "$3" "${4-}"
}
rows as_plan <<'ROWS'
judge evening.lock plain.report | 0 | legal cost 270
judge evening.lock 1700.report | 0 | legal cost 270
judge evening.lock 0600.report | 0 | legal cost 270
judge evening.lock 2350.report | 0 | legal cost 270
judge evening.lock 2350.report --clock 17:00 | 0 | legal cost 270 | 2350.report: warning: by its ships' arrivals minute 0 is 23:50 in this report, and not 17:00
judge evening.lock crlf.report | 0 | legal cost 270
judge both | 0 | legal cost 270
play evening.lock 2350.report --clock 23:50 | 0 | 23:50 main moor alva
replan now.lock 1700.report --from 150 | 0 | optimal cost | gull: side 240 -> side 262
picture evening.lock 1700.report | 0 | <h1>legal, total flow time 270 minutes</h1>
judge evening.lock cut.report | 10 | NoMark | cut.report: this report can't be read as a plan: this is no whole report: it has no line end
judge evening.lock early.report | 10 | illegal lockage 4 Early | early.report:
judge evening.lock | 10 | NoMark | nothing follows the chambers and the ships; a plan is wanted too
judge evening.lock evening.lock | 10 | NoMark | here the chambers and the ships come a second time; the plan's file is wanted
judge evening.lock evening.dossier | 0 | legal cost 270
judge evening.dossier | 0 | legal cost 270
play evening.dossier --clock 17:00 | 0 | 17:00 main moor alva
play two.open | 0 | 0 north moor
replan now.lock evening.dossier --now 150 | 0 | optimal cost 277 | gull: side 240 -> side 262
picture evening.lock evening.dossier | 0 | <h1>legal, total flow time 270 minutes</h1>
judge now.lock evening.dossier | 10 | illegal lockage 6 Early | evening.dossier:15: lockage 6 Early
judge cut.dossier | 10 | NoMark | cut.dossier: this dossier can't be read as a plan: its plan is damaged or cut off
judge evening.dossier evening.plan | 10 | NoMark | evening.dossier:14: fault 2 NoMark: a certificate begins here and no plan; a dossier is given alone, or as the second file.
judge - - | 2 | | standard input can be read once
judge now.lock evening.plan --clock 17:00 | 10 | Early | It starts at 21:00; gull arrives at 21:22.
judge evening.plan evening.lock | 3 | NoHeader | a plan begins here; the file with the chambers and the ships comes first
ROWS

# A day of more than 24 ships.
call solve day-40.lock --clock 06:00 -o day.report
check "a day of 40 ships" gives 0 "" ""
rows as_plan <<'ROWS'
judge day-40.lock day.report | 0 | legal cost 1105
play day-40.lock day.report --clock 06:00 | 0 | 06:13 middle moor adler
replan day-40.lock day.report --now 12:00 --clock 06:00 | 0 | optimal cost 1105 | adler: as before
picture day-40.lock day.report --clock 06:00 | 0 | <h1>legal, total flow time 1105 minutes</h1>
ROWS

# - is standard input.
from_input() {
  (cd "$room" && "$top/glock" $1 <"$2" >out 2>err)
  status=$? out=$(<"$room/out") err=$(<"$room/err")
  check "standard input: $1" gives "$3" "$4" "${5-}"
}
rows from_input <<'ROWS'
solve - | evening.lock | 0 | optimal cost 270
solve - | bad.lock | 3 | line 9 fault 4 Count | standard input:9: fault 4 Count
judge evening.lock - | evening-early.plan | 10 | illegal lockage 3 Early | standard input:7: lockage 3 Early
judge - evening.plan | evening.lock | 0 | legal cost 270
judge - | both | 0 | legal cost 270
ROWS

timed() {
  call $1
  check "times of day: $1" gives "$2" "$3" ""
}
rows timed <<'ROWS'
solve evening.lock --clock 06:00 | 0 | start 08:00 end 08:35
solve evening.lock --clock=23:50 | 0 | start 23:50 end +1 00:25
judge evening.lock evening.plan --clock 17:00 | 0 | start 17:00 end 17:35
play evening.lock evening.plan --clock 17:00 | 0 | 17:10 side moor brio
resume two.open --clock 06:00 | 0 | start 06:00 end 06:27
picture evening.lock evening.plan --clock 17:00 | 0 | <p class="sub">from 17:00 to
ROWS

call solve evening.lock --clock 06:00
check "flow times stay minutes" holds "$out" "  A alva x 10 y 0 left quay flow 35"
call solve evening.lock --dossier --clock 06:00
check "a dossier has no times of day" holds "$out" '"start":120'

asked() {
  call $1
  check "help: $1" gives "$2" "$3" "${4-}"
}
rows asked <<'ROWS'
--help | 0 | glock plans a ship lock
help | 0 | glock plans a ship lock
help judge | 0 | ./glock judge [FILE PLAN]
replan --help | 0 | ./glock replan [FILE PLAN]
prove --help | 0 | ./glock prove
--version | 0 | proved with rattle-kit
-V | 0 | proved with rattle-kit
help nothing | 2 | | there is no help on "nothing"; there is on solve
help solv | 2 | | there is no help on "solv"; perhaps solve is meant
ROWS

# Each command has a help, and its example works.
for command in solve check lot trial judge play replan lower resume picture stats; do
  call help "$command"
  example=$(sed -n '/^Example/{n;s/^  //;p}' <<<"$out")
  check "the example of $command" eval "(cd '$top' && $example) >'$room/out' 2>'$room/err' || [ \$? = 1 ]"
done

# Answers that a test can't bring about with the program: a stand-in gives them.
cat >"$room/stand_in" <<'PROGRAM'
#!/usr/bin/env bash
[ "$ANSWER" = none ] || printf '%s\n' "$ANSWER"
exit "$ANSWER_STATUS"
PROGRAM
chmod +x "$room/stand_in"
stood_in() {
  GLOCK_PROGRAM=$room/stand_in ANSWER=$2 ANSWER_STATUS=$1 call solve evening.lock
  check "a program that says: $2" gives "$1" "${2/#none/}" "evening.lock: $3"
}
rows stood_in <<'ROWS'
1 | open turns 20000 chamber main ships alva low brio low 5 cost 9 | this plan costs 9 and isn't proved cheapest; what is proved is that no plan costs less than 5. Give more --turns
1 | open turns 200000 chamber main ships alva low brio low 5 cost 9 | this plan costs 9 and isn't proved cheapest; what is proved is that no plan costs less than 5. The named ships were too hard to place together, by as many tries
4 | read fault | read fault: evening.lock could not be read
5 | none | write fault: not all of the answer
6 | no memory | no memory: this machine has too little free memory
137 | none | the program ended with status 137 (killed, as where the machine has too little memory
139 | none | the program ended with status 139 (a fault of memory, as where ulimit -s allows less stack than 1024)
ROWS

# How many steps and tries the search gets where none are given: another stand-in says its words.
printf '#!/usr/bin/env bash\necho "$*"\n' >"$room/echo_words"
chmod +x "$room/echo_words"
sed 's/^glock 2/glock 3/; /^end/d' "$room/day-40.lock" >"$room/day-50.lock"
for ((i = 41; i <= 50; i++)); do echo "ship more$i up 500 60 $i 3"; done >>"$room/day-50.lock"
echo end >>"$room/day-50.lock"
echoes() {
  GLOCK_PROGRAM=$room/echo_words call $1
  check "the words of: $1" [ "$out" = "$2" ]
}
rows echoes <<'ROWS'
solve evening.lock | solve --turns 200000
solve day-40.lock | solve --nodes 4000 --turns 200000
solve day-50.lock --workers 1 | solve --workers 1 --nodes 1500 --turns 200000
solve day-50.lock --nodes=7 --turns=20 | solve --nodes=7 --turns=20
solve --nodes 7 day-40.lock --turns 20 | solve --nodes 7 --turns 20
replan day-40.lock evening.plan --from 3 | replan --from 3 --nodes 4000 --turns 200000
trial | trial
judge day-40.lock evening.plan | judge
ROWS

# A full disk or a reader that is gone is a write fault.
(cd "$room" && "$top/glock" solve evening.lock >/dev/full 2>err)
status=$? out= err=$(<"$room/err")
check "a full disk" gives 5 "" "write fault"

# An interrupt ends a loop of the shell too.
printf '#!/usr/bin/env bash\necho x >>"%s/started"; exec sleep 60\n' "$room" >"$room/sleeper"
chmod +x "$room/sleeper"
(cd "$room" && GLOCK_PROGRAM=$room/sleeper exec setsid env --default-signal=INT bash -c \
  'for day in 1 2 3; do "$0" lot; done' "$top/glock" >out 2>err) &
loop=$!
for _ in {1..200}; do [ ! -e "$room/started" ] || break; sleep 0.1; done
sleep 0.3
kill -s INT -- -$loop
wait $loop
status=$? out= err=$(<"$room/err")
check "an interrupt ends a loop" [ "$status $(wc -l <"$room/started")" = "130 1" ]
