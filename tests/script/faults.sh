# Each fault, break and reason has its sentence, with the file and the line.

cp "$room/evening.lock" "$room/-x.lock"

# words, and a part of the message
bad_words() {
  call $1
  check "words: $1" gives 2 "bad words" "$2"
}
rows bad_words <<'ROWS'
 | the command is missing
sovle | there is no command "sovle"; perhaps solve is meant; the commands are solve, check,
instal | there is no command "instal"; perhaps install is meant
moor | there is no command "moor"; the commands are
solve nofile | there is no file "nofile"
solve solve | there is no file "solve"
solve evening.lock evening.plan | one too many; solve makes the plan, and judge, play, picture and replan read one
solve evening.lock two-chambers.lock | solve reads one file, so "two-chambers.lock" is one too many; to solve many days
check evening.lock two-chambers.lock | check reads one file, so "two-chambers.lock" is one too many
judge evening.lock evening.plan evening.plan | one file too many
lot evening.lock | lot reads no file
solve --node 5 | there is no option --node; perhaps --nodes is meant; solve takes --nodes, --turns, --workers, --dossier, --keep, -o, --clock
check --outptu x | there is no option --outptu; perhaps --output is meant; check takes -o
solve -n 5 | "-n" is no option
lot --nodes 5 | --nodes is for solve, trial, replan and resume, and not for lot
solve --nodes 0 | from 1 to 1,000,000, and not "0"
solve --turns=200001 | from 1 to 200,000, and not "200001"
solve --workers 9 | from 1 to 8, and not "9"
lot --number 4294967296 | from 0 to 4,294,967,295
lot --ships x | from 1 to 96, and not "x"
lot --chambers | from 1 to 4
lot --ships 97 | from 1 to 96, and not "97"
solve --nodes 5 --nodes 5 | --nodes stands twice
solve --seconds 0 | --seconds takes a whole number from 1 to 86,400, and not "0"
solve --seconds | --seconds takes a whole number from 1 to 86,400
solve --seconds=x | from 1 to 86,400, and not "x"
resume --seconds 86401 | and not "86401"
solve --seconds 5 --nodes 5 | --seconds and --nodes can't stand together
solve --nodes=5 --seconds=5 | --seconds and --nodes can't stand together
solve --seconds 5 --seconds 5 | --seconds may stand once
check --seconds 5 | --seconds is for solve and resume, and not for check
replan --seconds 5 | --seconds is for solve and resume, and not for replan
solve --progress --progress | --progress stands alone and once
resume --progress=1 | --progress stands alone and once
check --progress | --progress is for solve, resume, replan and trial, and not for check
solve --stats --stats | --stats stands alone and once
trial --stats=1 | --stats stands alone and once
judge --stats | --stats is for solve, resume, replan and trial, and not for judge
solve --keep=1 | --keep stands alone
check --keep | --keep is for solve and resume, and not for check; check takes -o
replan evening.lock evening.plan | replan needs --now and the minute that it is, or --from
replan evening.lock evening.plan --now 5 --from 5 | --from and --now can't stand together
replan evening.lock evening.plan --from=5 --now=5 | --from and --now can't stand together
replan evening.lock evening.plan --now 19:30 | --now takes a whole number from 0 to 1,000,000, and not "19:30"; a time of day needs --clock
replan evening.lock evening.plan --clock 17:00 --now 08:00 | and not "08:00"; minute 0 is 17:00, and a time of the next day is written +1 08:00
replan evening.lock evening.plan --now 24:00 --clock 17:00 | from 0 to 1,000,000, and not "24:00"
replan evening.lock evening.plan --now 5 --drop | --drop needs the name of a ship
replan evening.lock evening.plan --now 5 --plan-text --plan-text | --plan-text stands alone and once
replan evening.lock evening.plan --now 5 --plan-text=1 | --plan-text stands alone and once
replan evening.lock evening.plan --now 5 --plan-text --dossier | --plan-text and --dossier can't stand together
solve evening.lock --now 5 | --now is for replan and picture, and not for solve
picture evening.lock evening.plan --now 1000001 | --now takes a whole number from 0 to 1,000,000, and not "1000001"
picture evening.lock evening.plan --clock 17:00 --now 08:00 | and not "08:00"; minute 0 is 17:00, and a time of the next day is written +1 08:00
picture evening.lock evening.plan --from 5 | --from is for replan, and not for picture; picture takes --now, -o, --clock
picture evening.lock evening.plan --title | --title needs a text after it, and may stand once
picture evening.lock evening.plan --title=a --title b | --title needs a text after it, and may stand once
solve evening.lock --title=a | --title is for picture, and not for solve
solve evening.lock --drop gull | --drop is for replan, and not for solve
judge --plan-text | --plan-text is for replan, and not for judge
lot -o | -o needs the name of a file
lot --output | -o needs the name of a file
lot -ox --output=y | -o needs the name of a file after it, and may stand once
lot --clock 10:00 | --clock is for solve
solve --clock 24:00 | --clock needs a time of day after it, such as 06:00, from 00:00 to 23:59, and not "24:00"
solve --clock | --clock needs a time of day after it, such as 06:00, from 00:00 to 23:59
solve --clock 17:00 --clock 18:00 | --clock may stand once
check --clock 17:00 | --clock is for solve, resume, judge, play, replan and picture, and not for check
evening.lock | the command is missing before the file "evening.lock", as in ./glock solve evening.lock
version | perhaps --version is meant
res | perhaps resume is meant
solve evening | there is no file "evening"; perhaps evening.lock is meant
solve evenning.lock | there is no file "evenning.lock"; perhaps evening.lock is meant
solve evening.lock 17:00 | "17:00" is one too many; a time of day follows --clock
solve evening.lock --progress 1 | "1" is one too many; a number follows its option
solve evening.lock --csv | there is no option --csv; examples/csv_of_report.awk makes a table of a report
solve evening.lock --quiet | there is no option --quiet; 2> /dev/null silences what the script says
replan evening.lock evening.plan --now 150 --remove gull | there is no option --remove; perhaps --drop is meant
solve evening.lock --seconds 2m | --seconds takes a whole number from 1 to 86,400, and not "2m"; perhaps 120 is meant
solve evening.lock --dossier x | "x" is one too many; -o x writes the answer to that file
solve -clock 17:00 | "-clock" is no option; options begin with two dashes; perhaps --clock is meant
solve --out x | there is no option --out; perhaps --output is meant
solve -x.lock | "-x.lock" begins with a dash, as options do; ./-x.lock names the file
replan evening.lock evening.plan --now 9:30 --clock 06:00 | and not "9:30"; with --clock it takes a time of day too, such as 09:30
solve --clock 5pm | and not "5pm"; perhaps 17:00 is meant
solve --clock 17.30 | and not "17.30"; perhaps 17:30 is meant
solve --clock 0730 | and not "0730"; perhaps 07:30 is meant
solve --clock=7:30 | and not "7:30"; perhaps 07:30 is meant
solve --nodes 10,000 | and not "10,000"; perhaps 10000 is meant
solve --nodes=1e5 | and not "1e5"; perhaps 100000 is meant
solve --seconds 60s | and not "60s"; perhaps 60 is meant
solve --threads 4 | there is no option --threads; perhaps --workers is meant
trial --threads 4 | there is no option --threads; trial takes
resume --time-limit 60 | there is no option --time-limit; perhaps --seconds is meant
lot --seed 3 | there is no option --seed; perhaps --number is meant
solve -i evening.lock | "-i" is no option; options begin with two dashes; a file is named without an option
solve --hlep | there is no option --hlep; perhaps --help is meant
lot 3 12 2 | numbers follow their options, as in lot --number 1 --ships 12 --chambers 2
trial evening.lock | trial reads no file, so "evening.lock" is one word too many; ./glock solve reads a file
replan evening.lock evening.plan 150 | "150" is one file too many; the minute that it is follows --now
replan evening.lock evening.plan 19:30 | "19:30" is one file too many; the minute that it is follows --now
draw evening.lock | there is no command "draw"; perhaps picture is meant
verify evening.lock | perhaps check is meant, which reads a dossier, or judge, which reads a plan
replan evening.lock evening.plan --now 5 --drop gull iris | "iris" is one file too many; each ship has a --drop of its own, as in --drop gull --drop iris
ROWS

# an edit of evening.lock, the program's words, how the sentence begins, and a later part of it
faulty_instance() {
  local words
  sed "$1" "$room/evening.lock" >"$room/x.lock"
  read -r -a words <<<"$2"
  call solve x.lock
  check "instance: $2" gives 3 "$2" "x.lock:${words[1]}: fault ${words[3]} ${words[4]}: $3"
  [ -z "${4-}" ] || check "instance: $2, what to do" holds "$err" "$4"
}
rows faulty_instance <<'ROWS'
4s/alva/\xff/ | line 4 fault 1 NotUtf8 | this line holds a byte that is no text
1s/1/4/ | line 1 fault 2 NoHeader | "glock 4" stands where `glock 1` must stand, or `glock 2` where there are closures or cargo classes, or `glock 3` where there are more than 24 ships.
1s/^/# \n\xef\xbb\xbf/ | line 2 fault 2 NoHeader | this line begins with a hidden mark of three bytes
4s/ship/boat/ | line 4 fault 3 Word | no line may begin with "boat" here; lines begin with chamber, ship,
4s/ship/Ship/ | line 4 fault 3 Word | "Ship" must be written in small letters: ship
1s/.*/plan/ | line 1 fault 2 NoHeader | this is a plan; the file with the chambers and the ships is wanted, and no plan.
1s/.*/optimal cost 270/ | line 1 fault 2 NoHeader | this is a report
4s/up/north/ | line 4 fault 3 Word | "north" stands where up or down must stand.
4s/up/upstream/ | line 4 fault 3 Word | "upstream" stands where up or down must stand; perhaps up is meant.
3s/high/upper/ | line 3 fault 3 Word | "upper" stands where low or high must stand; perhaps high is meant.
4s/1100 114/1100x114/ | line 4 fault 4 Count | this line has 6 words | "1100x114" looks like two numbers; between them stands a space.
4s/$/ 3/ | line 4 fault 4 Count | this line has 8 words | The first line is `glock 1`, so no class is read; write `glock 2` there.
4s/114/11m/ | line 4 fault 5 Number | "11m" stands for the width, which must be a whole number: digits alone, no sign, point or unit. Sizes are decimetres: 11 metres are 110.
4s/alva/Grüße/ | line 4 fault 7 Name | "Grüße" can't be a name | digits, - or _; write ue where the letter is u with two dots
4s/up/Up/ | line 4 fault 3 Word | "Up" stands where up or down must stand; perhaps up is meant.
4s/ship/shp/ | line 4 fault 3 Word | no line may begin with "shp" here; lines begin with chamber, ship, close (with `glock 2` or `glock 3`) or end. Perhaps ship is meant.
3s/high/top/ | line 3 fault 3 Word | "top" stands where low or high must stand
4s/^/close main 1 2\n/ | line 4 fault 3 Word | a line close needs `glock 2` or `glock 3` as the first line
4s/ 5$// | line 4 fault 4 Count | this line has 6 words; a ship line has 7 words
3s/$/ 5/ | line 3 fault 4 Count | this line has 13 words; a chamber line has 12 words
4s/114/11.4/ | line 4 fault 5 Number | "11.4" stands for the width, which must be a whole number: digits alone, no sign, point or unit. Sizes are decimetres: 11.4 metres are 114.
2s/ 5 6 / 0,5 6 / | line 2 fault 5 Number | "0,5" stands for the gap across the chamber, which must be a whole number: digits alone, no sign, point or unit. Sizes are decimetres: 0.5 metres are 5.
4s/ 0 5$/ 17:25 5/ | line 4 fault 5 Number | "17:25" stands for the minute of arrival, which must be a whole number: digits alone, no sign, point or unit. Times are minutes from a moment
s/$/\r/;9s/ 5\r/\r/ | line 9 fault 4 Count | this line has 6 words
2s/ 6 / 9 / | line 2 fault 6 Range | 9 stands for the most ships of a lockage, which must be from 1 to 8
4s/alva/a.lva/ | line 4 fault 7 Name | "a.lva" can't be a name: a name has 1 to 12 letters A to Z and a to z, digits, - or _.
4s/alva/alva-and-brio/ | line 4 fault 7 Name | "alva-and-brio" can't be a name: a name has 1 to 12 letters A to Z and a to z, digits, - or _, and this one has 13.
4s/alva/MS alva/ | line 4 fault 4 Count | this line has 8 words; a ship line has 7 words: ship, name, up or down, length, width, arrival, handling; with `glock 2` or `glock 3` a cargo class may follow. A name is one word, such as MS_alva.
5s/brio/alva/ | line 5 fault 8 Twice | the name alva is given in line 4 already
2s/30 15/15 30/ | line 2 fault 9 TurnOverPass | the empty turn of 30 minutes is longer than the passage of 15
1s/1/1.0/ | line 1 fault 2 NoHeader | "glock 1.0" stands where `glock 1` must stand
1s/glock/GLOCK/ | line 1 fault 2 NoHeader | "GLOCK" must be written in small letters: glock.
1d | line 1 fault 2 NoHeader | "chamber main .." stands where `glock 1` must stand
d | line 1 fault 2 NoHeader | there is nothing to read but empty lines and notes.
s/.*/#/ | line 14 fault 2 NoHeader | there is nothing to read but empty lines and notes.
1s/.*/name,way,length,width,arrival/ | line 1 fault 2 NoHeader | this is a table of ships; examples/lock_of_csv.awk makes a lock's file of it.
4s/ /;/g | line 4 fault 3 Word | no line may begin with "ship;alva;up;1100;114;0;5" here; lines begin with chamber, ship, close (with `glock 2` or `glock 3`) or end. Words are separated by spaces.
$s/$/\nship late up 500 60 0 5/ | line 14 fault 3 Word | the line end is in line 13, and nothing may follow it; put this line before.
$s/$/\nplan/ | line 14 fault 3 Word | a plan begins here, which judge, play, picture and replan read
$s/$/\nglock 1/ | line 14 fault 3 Word | a second lock's file begins here
$s/$/\ncertificate/ | line 14 fault 3 Word | a certificate begins here, so this is a dossier
$s/end/plan/ | line 13 fault 3 Word | the plan begins here, and the line end before it is missing.
1s/1/2/;4s/^/close main 10 30\nclose main 20 40\n/ | line 5 fault 14 Overlap | the closure shares minutes with that in line 4, from 10 to 30
4s/ship/lockage/ | line 4 fault 3 Word | no line may begin with "lockage" here
4s/alva/alva,/ | line 4 fault 7 Name | "alva," can't be a name | words are separated by spaces alone.
4s/alva up 1100/alva;up;1100;/ | line 4 fault 4 Count | this line has 5 words; a ship line has 7 words: ship, name, up or down, length, width, arrival, handling; with `glock 2` or `glock 3` a cargo class may follow. Words are separated by spaces.
2,3d | line 11 fault 10 NoChamber | the lock has no chamber
4,12d | line 4 fault 11 NoShip | there is no ship
13d | line 13 fault 12 NoEnd | the text stops without its last line
1s/$/\nclose main 1 2/;1s/1/2/ | line 2 fault 13 Unknown | there is no chamber named main above; write its chamber line first.
1s/1/2/;4s/^/close mian 1 2\n/ | line 4 fault 13 Unknown | there is no chamber named mian above; perhaps main is meant.
1s/1/2/;4s/^/close main 9 2\n/ | line 4 fault 14 Overlap | the closure begins at minute 9 and ends at minute 2
ROWS

# Files that are no lock's file: how the bytes are made, the program's words, and the sentence.
printf 'PK\003\004\024\000\377\376\n' >"$room/x.xlsx"
printf '%%PDF-1.4\n\342\343\n' >"$room/x.pdf"
printf '\037\213\010\000\377\n' >"$room/x.gz"
{ printf '\377\376'; sed 's/./&\x00/g;s/$/\x00/' "$room/evening.lock"; } >"$room/marked.lock"
sed 's/./&\x00/g;s/$/\x00/' "$room/evening.lock" >"$room/wide.lock"
sed 's/ /\xc2\xa0/g' "$room/evening.lock" >"$room/stiff.lock"
sed '4s/ship /ship\xc2\xa0/' "$room/evening.lock" >"$room/stiff-ship.lock"
echo '{"ships":[]}' >"$room/x.json"
call solve two-chambers.lock --nodes 50 -o x.report
echo '<!DOCTYPE html><html>' >"$room/x.html"
other_file() {
  call $1
  check "no lock's file: $1" gives 3 "line" "$2"
}
rows other_file <<'ROWS'
solve x.xlsx | x.xlsx:1: fault 1 NotUtf8: this is a spreadsheet or an archive; save its table as CSV
solve x.pdf | x.pdf:2: fault 1 NotUtf8: this is a PDF, and a plain text is wanted.
solve x.gz | x.gz:1: fault 1 NotUtf8: this file is compressed; unpack it first.
solve marked.lock | marked.lock:1: fault 1 NotUtf8: this file is UTF-16; save it as plain text (UTF-8).
solve wide.lock | wide.lock:1: fault 2 NoHeader: this file is UTF-16; save it as plain text (UTF-8).
solve stiff.lock | stiff.lock:1: fault 2 NoHeader: between the words stand no-break spaces; write plain ones.
solve stiff-ship.lock | stiff-ship.lock:4: fault 3 Word: between the words stand no-break spaces; write plain ones.
solve x.json | x.json:1: fault 2 NoHeader: this is JSON; the file with the chambers and the ships is wanted
solve x.html | x.html:1: fault 2 NoHeader: this is a page, as picture makes one, and no text
play x.report evening.lock | x.report:1: fault 2 NoHeader: a report begins here; the file with the chambers and the ships comes first
ROWS
call judge evening.lock x.html
check "a page in a plan's place" gives 10 "plan line 1 fault 2 NoMark" "x.html:1: fault 2 NoMark: this is a page, as picture makes one; the plan's text or its report is wanted."

# a format, a number of ships for the chambers of the evening, the program's words, and a part of the sentence
many_ships() {
  local words
  { echo "glock $1"; sed -n 2,3p "$room/evening.lock"; seq -f 'ship s%g up 500 60 0 5' "$2"; echo end; } >"$room/x.lock"
  read -r -a words <<<"$3"
  call solve x.lock
  check "ships under glock $1: $2" gives 3 "$3" "x.lock:${words[1]}: fault ${words[3]} ${words[4]}: $4"
}
rows many_ships <<'ROWS'
1 | 25 | line 28 fault 6 Range | there may be at most 24 ship lines under `glock 1` and `glock 2`; write `glock 3` in the first line for up to 96 ships.
2 | 96 | line 28 fault 6 Range | there may be at most 24 ship lines under `glock 1` and `glock 2`; write `glock 3` in the first line for up to 96 ships.
3 | 97 | line 100 fault 6 Range | there may be at most 96 ship lines.
ROWS

# an edit of evening.plan, the program's words, and a part of the sentence
faulty_plan() {
  local words
  sed "$1" "$room/evening.plan" >"$room/x.plan"
  read -r -a words <<<"$2"
  call judge evening.lock x.plan
  check "plan text: $2" gives 10 "$2" "x.plan:${words[2]}: fault ${words[4]} ${words[5]}: $3"
}
rows faulty_plan <<'ROWS'
4s/alva/\xff/ | plan line 4 fault 1 NotUtf8 | this line holds a byte that is no text
2d | plan line 2 fault 2 NoMark | "lockage" stands where the line `plan` must stand, after the instance's line end; of two files the plan's is the second.
2s/plan/legal cost 270/ | plan line 2 fault 2 NoMark | this is a report, of which no plan could be made
2s/plan/glock 1/ | plan line 2 fault 2 NoMark | here the chambers and the ships come a second time
2s/plan/Plan/ | plan line 2 fault 2 NoMark | "Plan" must be written in small letters: plan.
2s/^/\xef\xbb\xbf/ | plan line 2 fault 2 NoMark | this line begins with a hidden mark of three bytes
2s/plan/lockage main up 0/ | plan line 2 fault 2 NoMark | "lockage" stands where the line `plan` must stand
4s/berth/ship/ | plan line 4 fault 3 Word | no line may begin with "ship" here; lines begin with lockage, berth or end.
4s/\*/quay/ | plan line 4 fault 7 Unknown | "quay" is no ship; write * for the quay.
$s/$/\nlockage main up 900/ | plan line 21 fault 3 Word | the line end is in line 20, and nothing may follow it
2s/plan/certificate/ | plan line 2 fault 2 NoMark | a certificate begins here and no plan
3s/lockage/passage/ | plan line 3 fault 3 Word | no line may begin with "passage" here; lines begin with lockage,
4s/left/port/ | plan line 4 fault 3 Word | "port" stands where left or right must stand
4s/ \*$// | plan line 4 fault 4 Count | this line has 5 words; a berth line has 6 words
3s/ 0$/ noon/ | plan line 3 fault 5 Number | "noon" stands for the minute of the start
4s/10/100001/ | plan line 4 fault 6 Range | 100001 stands for the place along the chamber, which must be from 0 to 100,000
3s/main/mian/ | plan line 3 fault 7 Unknown | there is no chamber named mian above; perhaps main is meant.
3s/main/north/ | plan line 3 fault 7 Unknown | there is no chamber named north above, but main, side.
3s/main/Main/ | plan line 3 fault 7 Unknown | there is no chamber named Main above; perhaps main is meant.
4s/alva/alwa/ | plan line 4 fault 7 Unknown | there is no ship named alwa in the instance; perhaps alva is meant.
9s/cora/kora/ | plan line 9 fault 7 Unknown | there is no ship named kora
4p | plan line 5 fault 8 Twice | alva has a berth in this lockage already, in line 4; leave one of the two.
3d | plan line 3 fault 9 Loose | a berth comes before the first lockage
9s/cora/brio/ | plan line 9 fault 10 Host | brio has no berth in this lockage, and eddy is to moor at it
20d | plan line 20 fault 11 NoEnd | the plan stops without its last line
ROWS

# a format, a number of ships, and a part of the sentence on the first lockage too many
many_lockages() {
  local most=$(($2 > 24 ? $2 : 24))
  { echo "glock $1"; sed -n 2,3p "$room/evening.lock"; seq -f 'ship s%g up 500 60 0 5' "$2"; echo end; } >"$room/x.lock"
  { echo plan; seq -f 'lockage main up %g' 0 $most; echo end; } >"$room/x.plan"
  call judge x.lock x.plan
  check "lockages under glock $1: $2 ships" gives 10 "plan line $((most + 2)) fault 6 Range" "x.plan:$((most + 2)): fault 6 Range: $3"
}
rows many_lockages <<'ROWS'
1 | 9 | there may be at most 24 lockages.
3 | 24 | there may be at most 24 lockages.
3 | 25 | there may be at most 25 lockages, as many as there are ships.
3 | 96 | there may be at most 96 lockages, as many as there are ships.
ROWS

# an edit of the evening with its plan, which is then on standard input, the program's words, and a part of the message
broken_plan() {
  cat "$room/evening.lock" "$room/evening.plan" | sed "$1" >"$room/x.both"
  call judge x.both
  check "plan: $2" gives 10 "$2" "$3"
}
rows broken_plan <<'ROWS'
16s/up/down/ | illegal lockage 1 Shape | x.both:16: lockage 1 Shape: the lockage has no ship, more ships than its chamber takes, or a ship that goes the other way. alva goes up
17d | illegal lockage 1 Shape | It has no ship
3s/ 4 20/ 1 20/ | illegal lockage 3 Shape | It has 2 ships, and side takes 1
20s/125/124/ | illegal lockage 3 Early | x.both:20: lockage 3 Early: the lockage starts before all its ships have arrived; start it later. It starts at minute 124; eddy arrives at minute 125
17s/10/5/ | illegal lockage 1 Outside alva | It covers x 5 to 1105 and y 0 to 114; in main x may go from 10 to 1990 and y from 0 to 240.
22s/100/50/ | illegal lockage 3 Touching cora eddy | x.both:22: lockage 3 Touching: cora and eddy lie too close or on one another; leave the gap along the chamber or the gap across it between them. Along the chamber they overlap by
17s/ 0 / 10 / | illegal lockage 1 Adrift alva | x.both:17: lockage 1 Adrift: alva is to lie at the quay and does not; in the left rank y is 0, in the right rank y and its width together are the chamber's width. Its y is 10.
22s/100/110/ | illegal lockage 3 BadHost eddy cora | eddy has y 110, and beside cora y 100 is wanted.
1s/1/2/;6s/$/ 1/;8s/$/ 2/ | illegal lockage 3 Clash cora eddy | put them into different ones. cora has class 1, eddy class 2.
18s/10/9/ | illegal lockage 2 Soon | It starts at minute 9; side is ready at minute 10: it opens at minute 0 at high, and the empty turn takes 10.
1s/1/2/;3s/$/\nclose main 10 20/ | illegal lockage 1 Shut | It lasts from minute 0 to 35; main is closed from 10 to 20.
32s/iris/gull/ | illegal ship gull Double | x.both: ship gull Double: gull is in more than one lockage; leave it in one of them. Its berths are in lines 28 and 32.
31,32d | illegal ship iris Missing | x.both: ship iris Missing: iris is in no lockage
ROWS

sed 's/ up 1100 114 0 / up 1100 114 999999 /' "$top/examples/one-ship.lock" >"$room/x.lock"
printf 'plan\nlockage c1 up 999999\nberth s1 10 0 left *\nend\n' >"$room/x.plan"
call replan x.lock x.plan --from 1000000
check "plan: Late" gives 10 "illegal lockage 1 Late" "x.plan:2: lockage 1 Late: this lockage is kept"

cat >"$room/two.dossier" <<'DOSSIER'
glock 1
chamber c1 2000 232 10 20 5 4 30 15 low 0
ship s1 up 1100 114 0 5
ship s2 up 1100 114 0 5
end
certificate
{"cost":120,"cuts":[{"chamber":0,"ships":[0,1],"why":[1,0,1]}],"plan":[{"chamber":0,"ships":[0],"spots":[[10,0,0,0]],"start":0,"way":0},{"chamber":0,"ships":[1],"spots":[[10,0,0,0]],"start":50,"way":0}],"tree":[0,0,100,1,1]}
DOSSIER

# what is no dossier
no_dossier() {
  call $1
  check "no dossier: $1" gives 7 "dossier fault 1 Instance" "$2"
}
rows no_dossier <<'ROWS'
resume x.report | x.report:1: fault 2 NoHeader: this is a report, and resume reads a dossier: ./glock solve --keep writes an open one
check x.report | x.report:1: fault 2 NoHeader: this is a report, and check reads a dossier: ./glock solve --dossier writes one.
lower evening.plan | evening.plan:2: fault 2 NoHeader: this is a plan, and lower reads a dossier: ./glock solve --keep
ROWS

# an edit of a dossier, the program's words, and a part of the message
bad_dossier() {
  sed "$1" "$room/two.dossier" >"$room/x.dossier"
  call check x.dossier
  check "dossier: $2" gives 7 "$2" "x.dossier$3"
}
rows bad_dossier <<'ROWS'
3s/1100/11oo/ | dossier fault 1 Instance line 3 fault 5 Number | :3: fault 5 Number: "11oo" stands for the length
6s/$/ open/ | dossier fault 2 NoMark | : fault 2 NoMark: after the instance's line end check wants a line `certificate`, `certificate 2`, `certificate 3` or `certificate 4`. This is an open dossier
6,7d | dossier fault 2 NoMark | : fault 2 NoMark: after the instance's line end check wants a line `certificate`, `certificate 2`, `certificate 3` or `certificate 4`. Nothing follows that line
7s/}$// | dossier fault 3 Json | : fault 3 Json: what follows
7s/"cost"/"price"/ | dossier fault 4 Shape part 1 | : fault 4 Shape: the certificate must have the four entries
7s/120/-1/ | dossier fault 4 Shape part 2 | : fault 4 Shape: the entry cost
7s/1,0,1/9/ | dossier fault 4 Shape part 3 | : fault 4 Shape: the entry cuts
7s/"way":0/"way":2/ | dossier fault 4 Shape part 4 | : fault 4 Shape: the entry plan
7s/\[0,0,100/[0,7,100/ | dossier fault 4 Shape part 5 | : fault 4 Shape: the entry tree
7s/"start":50/"start":49/ | rejected plan reason 1 PlanIllegal | : rejected at plan: its plan breaks a rule
7s/120/119/ | rejected cost reason 2 CostWrong | : rejected at cost: its plan does not cost
7s/"chamber":0/"chamber":3/ | rejected cut 0 reason 3 CutShape | : rejected at cut 0: this cut names no ship
7s/\[1,0,1\]/[0]/ | rejected cut 0 reason 4 CutUnproved | : rejected at cut 0: this cut's reason
7s/,1,1\]}/,1]}/ | rejected tree 4 reason 5 TreeShort | : rejected at tree 4: its tree of cases stops
7s/,1,1\]}/,1,1,1]}/ | rejected tree 5 reason 6 TreeLong | : rejected at tree 5: its tree of cases goes on
7s/100,1,1/0,1,1/ | rejected tree 2 reason 7 SplitFull | : rejected at tree 2: its tree splits
7s/\[0,0,100,1,1\]/[1]/ | rejected tree 0 reason 8 BoundLow | : rejected at tree 0: a case is closed as too costly
7s/100,1,1/101,1,1/ | rejected tree 2 reason 9 CutMisses | : rejected at tree 2: a case is closed by a cut
7s/\[0,0,100,1,1\]/[2]/ | rejected tree 0 reason 10 ThroughputLow | : rejected at tree 0: a case is closed by what the lock can pass
7s/\[0,0,100,1,1\]/[10]/ | rejected tree 0 reason 11 ProbeWrong | : rejected at tree 0: a case is closed by trying one more ship
6s/$/ 3/;7s/"tree.*/"prices":[[-1]],"tree":[4,0]}/ | dossier fault 4 Shape part 6 | : fault 4 Shape: the entry prices
6s/$/ 3/;7s/"tree.*/"prices":[[8500]],"tree":[4,0]}/ | rejected prices 0 reason 12 PricesShape | : rejected at prices 0: these prices are not
6s/$/ 3/;7s/"tree.*/"prices":[[8400,8400]],"tree":[4,0]}/ | rejected tree 0 reason 13 PriceLow | : rejected at tree 0: a case is closed by prices
6s/$/ 4/;7s/"tree.*/"prices":[[8500,8500]],"tree":[5,1]}/ | rejected tree 0 reason 14 SweptWrong | : rejected at tree 0: a case is closed by a sweep
ROWS
