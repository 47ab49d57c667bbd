# One line of the table of days, of the report of a day: verdict, cost, low, gap, ships, lockages, longest wait and its
# ship, with tabs between them. Nothing of what is no whole report.

{ sub(/\r$/, "") }

NR == 1 {
  if (($1 != "optimal" && $1 != "open" && $1 != "legal") || $(NF - 1) != "cost") exit
  verdict = $1
  cost = $NF
  low = $1 == "optimal" ? cost : $1 == "open" ? $(NF - 2) : "-"
}

$1 == "lockage" {
  lockages++
  from = $7 ~ /^\+/ ? 8 : 7
  begin = minutes(7)
  lasts = minutes(from + 2) - begin
}

# a ship's line ends with its flow time, from its arrival to the end of its lockage
$1 ~ /^[A-H]$/ && $3 == "x" {
  ships++
  if ($NF - lasts > wait || waiter == "") { wait = $NF - lasts; waiter = $2 }
}

NF == 1 && $1 == "end" { is_whole = 1 }

END {
  if (!is_whole || verdict == "") exit
  gap = low == "-" ? "-" : sprintf("%.1f", cost > 0 ? (cost - low) * 100 / cost : 0)
  print verdict "\t" cost "\t" low "\t" gap "\t" ships "\t" lockages "\t" wait "\t" waiter
}

# the minute at this word: `125`, `17:00` or `+1 08:00`
function minutes(word,    parts, days) {
  if ($word ~ /^\+/) { days = $word + 0; word++ }
  if ($word !~ /:/) return $word
  split($word, parts, ":")
  return days * 1440 + parts[1] * 60 + parts[2]
}
