# Looks for numbers that are allowed and yet look wrong: sizes in metres, times of day, seconds. Prints a line number, a
# tab and a warning for each, three at most.

{ sub(/\r$/, ""); sub(/#.*/, "") }

NF == 1 && $1 == "end" { exit }
$1 == "chamber" && NF == 12 { look($1, $2, $3, $4); look_at_gaps() }
$1 == "ship" && (NF == 7 || NF == 8) { look($1, $2, $4, $5); look_at_times() }

# Few vessels that pass a lock are under five metres long or under two metres wide.
function look(what, name, long, wide) {
  if (long !~ /^[0-9]+$/ || wide !~ /^[0-9]+$/ || long * wide == 0) return
  if (long < 50 || wide < 20)
    warn(what " " name " is " long " long and " wide " wide, which looks like metres; sizes are decimetres, ten to a metre.")
  else if (wide + 0 > long + 0)
    warn(what " " name " is wider (" wide ") than long (" long "); perhaps the two are swapped.")
}

# Under three decimetres at the ends or between ships one behind the other is less than a fender takes.
function look_at_gaps() {
  if ($3 < 50 || $4 < 20 || $5 !~ /^[0-9]+$/ || $6 !~ /^[0-9]+$/) return
  if ($5 > 0 && $5 < 3) gaps("the clearance at the ends", $5)
  else if ($6 > 0 && $6 < 3) gaps("the gap along the chamber", $6)
}

function gaps(what, much) { warn("in chamber " $2 " " what " is " much ", which looks like metres; sizes are decimetres, so " much " is a hand's breadth or two.") }

# Handling of four hours and more is rare, and a whole number of minutes in seconds is common.
function look_at_times() {
  if ($7 ~ /^[0-9]+$/ && $7 >= 240 && $7 % 60 == 0)
    warn("ship " $2 " has a handling of " $7 " minutes, which looks like seconds; times are minutes, and " $7 " seconds are " $7 / 60 ".")
  if ($6 !~ /^[0-9]+$/) return
  arrivals++
  if ($6 >= 100 && $6 < 2400 && $6 % 100 < 60) like_clock++
  else if ($6 != 0) unlike_clock++
  if (!clock_line && $6 >= 600) { clock_line = NR; clock_text = $6 }
  if ($6 >= 1440) past_a_day = 1
}

function warn(text) {
  warnings++
  line = NR
  if (warnings <= 3) print NR "\t" text
}

END {
  # Six minutes all look so by chance in one of twenty lots, three past the minutes of a day more seldom.
  if (like_clock >= (past_a_day ? 3 : 6) && !unlike_clock && clock_line) {
    at = sprintf("%02d:%02d", int(clock_text / 100), clock_text % 100)
    print clock_line "\tall arrivals look like times of day (" clock_text " as " at "); they are minutes from one moment: after midnight " at " is minute " int(clock_text / 100) * 60 + clock_text % 100 "."
  }
  if (warnings > 3) print line "\tthis is the last of " warnings " such lines."
}
