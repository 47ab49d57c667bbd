# Finds lockage `number` of the plan after the instance (with time_of_day.awk): its line, or that of the berth that its break names;
# `kept` where it starts before minute `kept_before`, else -; and what a sentence on the break may add, with the numbers that are
# wanted and found. Tabs stand between the three. `first` and `second` are the ships that the break names.

{ sub(/\r$/, ""); sub(/#.*/, "") }

!in_plan && $1 == "chamber" {
  long[$2] = $3 + 0; wide[$2] = $4 + 0; clear[$2] = $5 + 0; gap[$2] = $6 + 0; side[$2] = $7 + 0
  takes[$2] = $8 + 0; pass[$2] = $9 + 0; turn[$2] = $10 + 0; stands[$2] = $11; opens[$2] = $12 + 0
}
!in_plan && $1 == "ship" {
  length_of[$2] = $4 + 0; width_of[$2] = $5 + 0
  way[$2] = $3; arrival[$2] = $6 + 0; handling[$2] = $7 + 0; class[$2] = $8 + 0
}
!in_plan && $1 == "close" { closures[$2]++; from[$2, closures[$2]] = $3 + 0; to[$2, closures[$2]] = $4 + 0 }
NF == 1 && $1 == "end" { in_plan = 1 }

in_plan && $1 == "lockage" {
  lockages++
  chamber_of[lockages] = $2; way_of[lockages] = $3; start_of[lockages] = $4 + 0; end_of[lockages] = $4 + pass[$2]
  if (lockages == number) { line = NR; chamber = $2; way_given = $3; start = $4 + 0 }
}

in_plan && $1 == "berth" { end_of[lockages] += handling[$2] }

in_plan && $1 == "berth" && lockages == number {
  ships++
  x[$2] = $3 + 0; y[$2] = $4 + 0; rank[$2] = $5; row[$2] = NR
  if (arrival[$2] > start) late = late "; " $2 " arrives at " at(arrival[$2])
  if (way[$2] != way_given) other = other ($2 " goes " way[$2] ". ")
}

END {
  if (kind == "Outside" || kind == "Adrift" || kind == "BadHost") line = row[first]
  if (kind == "Touching" || kind == "Clash") line = row[second]
  is_kept = kept_before != "" && start < kept_before && (kind == "Early" || kind == "Soon" || kind == "Shut")
  print line "\t" (is_kept ? "kept" : "-") "\t" added() (is_kept ? stays() : "")
}

# what has begun can't be moved
function stays() {
  return " It starts before " at(kept_before) ", so it has begun and stays" (kind == "Shut" ? "; a closure may begin at " at(end_of[number]) ", where it ends." : \
    kind == "Early" ? "; then the arrival, or the minute of replan, is wrong." : ".")
}

function at(minute) { return begin == "" ? "minute " minute : time_of_day(minute) }

function added() {
  if (kind == "Early") return "It starts at " at(start) late "."
  if (kind == "Shape" && ships > takes[chamber]) return "It has " ships " ships, and " chamber " takes " takes[chamber] "."
  if (kind == "Shape") return ships ? other : "It has no ship."
  if (kind == "Outside") return outside()
  if (kind == "Touching") return touching()
  if (kind == "Adrift") return adrift()
  if (kind == "BadHost") return bad_host()
  if (kind == "Clash") return first " has class " class[first] ", " second " class " class[second] "."
  if (kind == "Soon") return soon()
  return kind == "Shut" ? shut() : ""
}

function far(name) { return x[name] + length_of[name] }
function across(name) { return y[name] + width_of[name] }
function span(low, high) { return low " to " high }

function outside() {
  return "It covers x " span(x[first], far(first)) " and y " span(y[first], across(first)) "; in " chamber " x may go from " \
    span(clear[chamber], long[chamber] - clear[chamber]) " and y from " span(0, wide[chamber]) "."
}

function touching() {
  return "Along the chamber " apart(x[first], far(first), x[second], far(second)) ", where a gap of " gap[chamber] " is wanted; across it " \
    apart(y[first], across(first), y[second], across(second)) ", where one of " side[chamber] " is wanted."
}

# how far two spans lie from one another
function apart(low, high, other_low, other_high,    found) {
  found = low >= other_high ? low - other_high : other_low - high
  return found < 0 ? "they overlap by " (-found) : found " are between them"
}

function adrift() {
  if (rank[first] == "left") return "Its y is " y[first] "."
  return "Its y and its width are together " across(first) ", and " chamber " is " wide[chamber] " wide."
}

function bad_host(    wanted) {
  if (first == second) return ""
  if (rank[first] != rank[second]) return first " has the " rank[first] " rank, " second " the " rank[second] " rank."
  wanted = rank[first] == "left" ? across(second) + side[chamber] : y[second] - side[chamber] - width_of[first]
  if (y[first] != wanted) return first " has y " y[first] ", and beside " second " y " wanted " is wanted."
  return first " covers x " span(x[first], far(first)) ", and " second " x " span(x[second], far(second)) "."
}

# the lockage that comes before in its chamber, by start, or 0
function before_it(    i, found) {
  for (i = 1; i <= lockages; i++)
    if (chamber_of[i] == chamber && i != number && (start_of[i] < start || (start_of[i] == start && i < number)))
      if (!found || start_of[i] >= start_of[found]) found = i
  return found
}

function soon(    last, free, stood, needed, ready, why) {
  last = before_it()
  free = last ? end_of[last] : opens[chamber]
  stood = last ? (way_of[last] == "up" ? "high" : "low") : stands[chamber]
  needed = way_given == "up" ? "low" : "high"
  why = last ? "lockage " last " before it ends at " at(free) : "it opens at " at(free)
  ready = free
  if (stood != needed) {
    ready = free_from(free, turn[chamber]) + turn[chamber]
    why = why " at " stood ", and the empty turn takes " turn[chamber] (ready > free + turn[chamber] ? " and waits for a closure" : "")
  }
  return "It starts at " at(start) "; " chamber " is ready at " at(ready) ": " why "."
}

# the least minute from this one on at which so many minutes meet no closure
function free_from(minute, much,    i) {
  for (i = 1; much && i <= closures[chamber]; i++)
    if (minute < to[chamber, i] && from[chamber, i] < minute + much) { minute = to[chamber, i]; i = 0 }
  return minute
}

function shut(    i) {
  for (i = 1; i <= closures[chamber]; i++)
    if (start < to[chamber, i] && from[chamber, i] < end_of[number])
      return "It lasts from " at(start) " to " time_of_day(end_of[number]) "; " chamber " is closed from " time_of_day(from[chamber, i]) " to " time_of_day(to[chamber, i]) "."
  return ""
}
