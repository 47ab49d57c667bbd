# Makes of a day's lock and its report or plan the chambers of the next day: where each one stands, from when on it is free,
# and closures that go on; the ships are to be written before the line end, or come from a table by lock_of_csv.awk:
#   awk -v lock=monday.lock -f examples/next_day.awk monday.report > tuesday.lock
# Minute 0 of the next day is minute 1440 of this one, or that of -v minute=N. A report may have times of day.

BEGIN {
  if (lock == "") fail("name the lock's file of the day, as -v lock=monday.lock")
  if (minute == "") minute = 1440
  if (minute !~ /^[0-9]+$/) fail("minute must be a whole number, and not \"" minute "\"")
  read_lock()
}

{ sub(/\r$/, ""); sub(/#.*/, "") }

# `lockage 4 chamber side down start 125 end 155` of a report, `lockage side down 125` of a plan
$1 == "lockage" {
  is_plan = NF == 4
  chamber = is_plan ? $2 : $4
  if (!(chamber in opens)) fail("line " NR ": there is no chamber " chamber " in " lock)
  way = is_plan ? $3 : $5
  ends = is_plan ? $4 + pass[chamber] : 0
  lockages++
  if (is_plan) note_end(ends)
}

$1 == "berth" && lockages { know($2); ends += handling[$2]; note_end(ends) }

# `  A cora x 10 y 0 left quay flow 35`: it ends so many minutes after the ship's arrival.
$1 ~ /^[A-H]$/ && $3 == "x" && lockages { know($2); note_end(arrival[$2] + $NF) }

NF == 1 && $1 == "end" { is_whole = 1 }

END {
  if (failed) exit 1
  if (!lockages || !is_whole) fail("this is no whole report and no plan: it has no " (lockages ? "line end" : "lockage"))
  print "glock " (closures == "" ? 1 : 2)
  for (i = 1; i <= chambers; i++) {
    $0 = line[i]
    print $1, $2, $3, $4, $5, $6, $7, $8, $9, $10, stands[$2], (opens[$2] > minute ? opens[$2] - minute : 0)
  }
  printf "%s", closures
  print "end"
}

# A chamber's later lockages end later.
function note_end(end) {
  if (end < opens[chamber]) return
  opens[chamber] = end
  stands[chamber] = way == "up" ? "high" : "low"
}

function know(ship) { if (!(ship in arrival)) fail("line " NR ": there is no ship " ship " in " lock) }

function read_lock(    status) {
  while ((status = (getline < lock)) > 0) {
    sub(/\r$/, ""); sub(/#.*/, "")
    if ($1 == "chamber") { line[++chambers] = $0; pass[$2] = $9; stands[$2] = $11; opens[$2] = $12 }
    if ($1 == "ship") { arrival[$2] = $6; handling[$2] = $7 }
    if ($1 == "close" && $4 > minute) closures = closures "close " $2 " " ($3 > minute ? $3 - minute : 0) " " $4 - minute "\n"
  }
  if (status < 0) fail("the lock's file " lock " can't be read")
}

function fail(why) {
  print "next_day: " why > "/dev/stderr"
  failed = 1
  exit 1
}
