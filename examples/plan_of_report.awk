# Makes a plan text of a report that `solve`, `judge`, `replan` or `resume` printed:
#   awk -f examples/plan_of_report.awk evening.report > evening.plan
# `play`, `picture`, `judge` and `replan` read such a text, and by ./glock the report itself too. `./glock replan --plan-text`
# writes one at once, with what no report tells.
# A report with times of day, made by --clock, wants the time of minute 0, or the lock's file, whose arrivals tell it:
#   awk -v begin=17:00 -f examples/plan_of_report.awk evening.report
#   awk -v lock=evening.lock -f examples/plan_of_report.awk evening.report
# With -v lines=FILE it writes to that file, for each line of the plan, the line of the report that it came from.

BEGIN { if (lock != "") read_arrivals() }

{ sub(/\r$/, "") }

$1 == "lockage" {
  if (NF < 9 || $3 != "chamber" || $6 != "start") fail("line " NR " is no line of a report" (NF == 4 ? "; perhaps this is a plan text already" : ""))
  lockages++
  head[lockages] = $4 " " $5
  row[lockages] = NR
  start[lockages] = time_at(7)
  ends = time_at(7 + ($7 ~ /^\+/) + 2)
}

# a ship's line, such as `  B eddy x 10 y 100 left at A flow 30`
$1 ~ /^[A-H]$/ && $3 == "x" && lockages {
  ships++
  lockage_of[ships] = lockages
  row_of[ships] = NR
  name[lockages $1] = $2
  berth[ships] = "berth " $2 " " $4 " " $6 " " $7
  host[ships] = $8 == "at" ? $9 : ""
  if (ends ~ /:/ && $2 in arrival) votes[minutes(ends) - arrival[$2] - $NF]++
}

NF == 1 && $1 == "end" { is_whole = 1 }

END {
  if (failed) exit 1
  if (!is_whole) fail("this is no whole report: it has no line end")
  if (!lockages) fail("this is no report: it has no lockage")
  first = minute_of_begin()
  write("plan", 1)
  for (i = 1; i <= lockages; i++) {
    if (start[i] ~ /:/ && first == "") fail("line " row[i] " has a time of day; give the lock's file, as -v lock=evening.lock, or the time of minute 0, as -v begin=17:00")
    minute = start[i] ~ /:/ ? minutes(start[i]) - first : start[i]
    if (minute !~ /^[0-9]+$/) fail("line " row[i] " starts before minute 0")
    write("lockage " head[i] " " minute, row[i])
    # The letter of a host may come after its guest's, so berths wait for the report's end.
    for (s = 1; s <= ships; s++)
      if (lockage_of[s] == i) write(berth[s] " " (host[s] == "" ? "*" : name[i host[s]]), row_of[s])
  }
  write("end", NR)
}

function read_arrivals(    parts, text) {
  while ((getline text < lock) > 0) {
    sub(/\r$/, "", text)
    split(text, parts, " ")
    if (parts[1] == "ship") arrival[parts[2]] = parts[6]
  }
}

# `125`, `17:00` or `+1 08:00`, from this word of the line on
function time_at(word) { return $word ~ /^\+/ ? $word " " $(word + 1) : $word }

# the minutes of a time of day from the midnight before minute 0
function minutes(text,    days, parts) {
  days = text ~ /^\+/ ? text + 0 : 0
  sub(/.* /, "", text)
  split(text, parts, ":")
  return days * 1440 + parts[1] * 60 + parts[2]
}

# The time of minute 0 as most ships tell it: their arrival and their flow time make their end. One that was given
# holds where some ship agrees, or none tells.
function minute_of_begin(    vote, most, found, given) {
  given = found = begin == "" ? "" : minutes(begin)
  if (found != "" && found in votes) return found
  for (vote in votes)
    # subscripts are texts, which awk compares letter by letter
    if (vote + 0 >= 0 && vote + 0 < 1440 && votes[vote] > most) {
      most = votes[vote]
      found = vote
    }
  if (given != "" && found != given)
    warn("by its ships\047 arrivals minute 0 is " sprintf("%02d:%02d", int(found / 60), found % 60) " in this report, and not " begin)
  return found
}

function write(text, from) {
  print text
  if (lines != "") print from > lines
}

function warn(why) { print "plan_of_report: warning: " why > "/dev/stderr" }

function fail(why) {
  print "plan_of_report: " why > "/dev/stderr"
  failed = 1
  exit 1
}
