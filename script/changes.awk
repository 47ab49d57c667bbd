# What differs between two reports or plan texts, `first` and `second`, ship by ship (with time_of_day.awk). With
# `in_short` a line for every ship tells chamber and start alone, by the clock where `begin` is given. The status is 1 or 2
# where that file has no lockage, and 3 where one has times of day and the other minutes.

BEGIN {
  read(first, 1)
  read(second, 2)
  if (!in_short) for (part = 1; part <= 2; part++) if (!lockages[part]) exit part
  if (has_times[1] != has_times[2]) exit 3
  for (i = 1; i <= ships; i++) if (in_short) tell_in_short(order[i]); else tell(order[i])
  if (!in_short) print same + 0 (same == 1 ? " ship" : " ships") " unchanged"
  exit
}

# keeps of each ship of a file where, when and in which place it goes
function read(file, part,    line, w, n, found, chamber, way, start) {
  while ((found = (getline line < file)) > 0) {
    sub(/\r$/, "", line)
    n = split(line, w, " ")
    if (w[1] == "lockage") { lockages[part]++; if (line ~ /:/) has_times[part] = 1 }
    if (w[1] == "lockage" && w[3] == "chamber") { chamber = w[4]; way = w[5]; start = w[7] ~ /^\+/ ? w[7] " " w[8] : w[7] }
    else if (w[1] == "lockage") { chamber = w[2]; way = w[3]; start = w[4] }
    else if (w[1] ~ /^[A-H]$/ && w[3] == "x") keep(part, w[2], chamber, way, start, w[4], w[6], w[7], w[n])
    else if (w[1] == "berth" && n == 6) keep(part, w[2], chamber, way, start, w[3], w[4], w[5], "")
  }
  close(file)
}

function keep(part, ship, chamber, way, start, x, y, rank, flow) {
  if (!(ship in known)) { known[ship] = 1; order[++ships] = ship }
  has[part, ship] = 1
  value[part, ship, 1] = chamber; value[part, ship, 2] = way; value[part, ship, 3] = start
  value[part, ship, 4] = x; value[part, ship, 5] = y; value[part, ship, 6] = rank; value[part, ship, 7] = flow
}

function tell(ship,    i, text, old, new) {
  split("chamber way start x y rank flow", what, " ")
  if (!has[1, ship]) { print ship ": new, " passage(2, ship); return }
  if (!has[2, ship]) { print ship ": gone, was " passage(1, ship); return }
  for (i = 1; i <= 7; i++) {
    old = value[1, ship, i]
    new = value[2, ship, i]
    # a plan text names no flow times
    if (old != new && old != "" && new != "") text = text (text == "" ? "" : ", ") what[i] " " old " to " new
  }
  if (text == "") same++
  else print ship ": " text
}

# where and when it goes, before and now
function tell_in_short(ship,    old, new, i, is_other) {
  old = value[1, ship, 1] " " time_of_day(value[1, ship, 3])
  new = value[2, ship, 1] " " time_of_day(value[2, ship, 3])
  for (i = 4; i <= 6; i++) if (value[1, ship, i] != value[2, ship, i]) is_other = 1
  if (!has[1, ship]) print ship ": new, " new
  else if (!has[2, ship]) print ship ": gone, was " old
  else if (old != new) print ship ": " old " -> " new
  else print ship ": as before" (is_other ? ", other berth" : "")
}

function passage(part, ship) { return value[part, ship, 1] " " value[part, ship, 2] " at " value[part, ship, 3] }
