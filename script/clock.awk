# Prints the minutes of a report or of a day as times of day (with time_of_day.awk).
# Costs, flow times and the lower bound are lengths of time, so they stay minutes.

# lockage <number> chamber <name> <way> start <minute> end <minute>
$1 == "lockage" && NF == 9 {
  $7 = time_of_day($7)
  $9 = time_of_day($9)
}

# <minute> <chamber> turn, and so on: a line of a day
/^[0-9]/ { $1 = time_of_day($1) }

{ print }
