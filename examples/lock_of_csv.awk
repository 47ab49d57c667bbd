# Makes a lock's file of a table (CSV) of ships, with the chambers and closures of another lock's file:
#   awk -v lock=examples/evening.lock -v begin=17:00 -f examples/lock_of_csv.awk ships.csv > today.lock
# The table's first line names its columns, in any order: name, way (up or down), length and width in metres, arrival
# (HH:MM, or minutes), and, where wanted, handling (minutes, else 0) and class. Commas, semicolons or tabs separate them;
# a byte order mark, carriage returns, quotes and decimal commas are understood. `begin` is the time of minute 0 (else
# midnight); an earlier time is one of the next day. A name that may not stand in a lock's file is changed, and a note
# on the line before tells it.

NR == 1 {
  sub(/^\357\273\277/, "")
  sub(/\r$/, "")
  if (/\r/) fail("its lines end in carriage returns alone; save it as CSV with line feeds")
  separator = /;/ ? ";" : /\t/ ? "\t" : ","
  columns = cells($0)
  for (i = 1; i <= columns; i++) column[without_unit(tolower(cell[i]))] = i
  n = split("name way length width arrival", wanted, " ")
  for (i = 1; i <= n; i++)
    if (!(wanted[i] in column)) fail("the first line names no column " wanted[i] "; name, way, length, width and arrival are wanted (in CSV UTF-8)")
  if (begin != "" && !is_time(begin)) fail("begin must be a time of day such as 17:00, and not \"" begin "\"")
  first = begin == "" ? 0 : minutes(begin)
  next
}

{ sub(/\r$/, "") }

/[^ ;,\t]/ {
  n = cells($0)
  while (n > columns && cell[n] == "") n--
  if (n > columns) fail("line " NR " has " n " cells, and the first line " columns "; a comma in a cell wants quotes round it, or semicolons between cells")
  ships++
  given = value("name")
  name = good_name(given)
  way = tolower(value("way"))
  if (way != "up" && way != "down") fail("line " NR ": the way must be up or down, and not \"" way "\"")
  class_of[ships] = whole("class", 9)
  if (class_of[ships] > 0) has_class = 1
  ship[ships] = (name == given ? "" : "# " given "\n") "ship " name " " way " " decimetres("length") " " decimetres("width") " " \
    arrival() " " whole("handling", 1000000)
}

END {
  if (failed) exit 1
  if (!ships) fail("there is no ship")
  read_chambers()
  print "glock " (ships > 24 ? 3 : has_class || closures != "" ? 2 : 1)
  printf "%s%s", chambers, closures
  for (i = 1; i <= ships; i++) print ship[i] (has_class ? " " class_of[i] : "")
  print "end"
}

# a column's name such as length_m or handling (min)
function without_unit(name) {
  sub(/([ _]+|[ _]*[[(])(m|metres|meters|min|minutes)[])]?$/, "", name)
  return name
}

function value(name) { return name in column ? cell[column[name]] : "" }

# splits a line into cells; a quoted cell may hold separators, and two quotes in it stand for one
function cells(line,    count, at, sign, text, is_quoted) {
  for (at = 1; at <= length(line) + 1; at++) {
    sign = substr(line, at, 1)
    if (is_quoted && sign == "\"" && substr(line, at + 1, 1) == "\"") { text = text sign; at++ }
    else if (sign == "\"") is_quoted = !is_quoted
    else if (at > length(line) || (sign == separator && !is_quoted)) {
      gsub(/^ +| +$/, "", text)
      cell[++count] = text
      text = ""
    } else text = text sign
  }
  for (at = count + 1; at <= 40; at++) cell[at] = ""
  return count
}

function decimetres(name,    text) {
  text = value(name)
  sub(/,/, ".", text)
  if (text !~ /^[0-9]+(\.[0-9]+)?$/) fail("line " NR ": the " name " must be metres, and not \"" value(name) "\"")
  # a ship is taken no smaller than it is
  text = text * 10
  return int(text + 0.0001) < text - 0.0001 ? int(text) + 1 : int(text + 0.0001)
}

# a whole number up to the most; an empty cell is 0
function whole(name, most,    text) {
  text = value(name)
  if (text !~ /^[0-9]*$/ || text + 0 > most) fail("line " NR ": the " name " must be a whole number up to " most ", and not \"" text "\"")
  return text + 0
}

# Spreadsheets write seconds too; a minute that has begun counts.
function arrival(    text, minute) {
  text = value("arrival")
  if (text ~ /^[0-9]+$/) return text
  if (!is_time(text)) fail("line " NR ": the arrival must be HH:MM or a minute, and not \"" text "\"")
  minute = minutes(text) - first
  return minute < 0 ? minute + 1440 : minute
}

function is_time(text) { return text ~ /^([01]?[0-9]|2[0-3]):[0-5][0-9](:[0-5][0-9])?$/ }

function minutes(text,    parts) {
  split(text, parts, ":")
  return parts[1] * 60 + parts[2] + (parts[3] > 0)
}

# 1 to 12 letters, digits, - and _, and no name twice
function good_name(text,    short, number, pairs, n, i) {
  n = split("ä ae ö oe ü ue ß ss Ä Ae Ö Oe Ü Ue å aa Å Aa ø oe Ø Oe æ ae Æ Ae œ oe á a à a â a ã a ą a é e è e ê e ë e ę e ě e í i ì i î i ï i " \
    "ó o ò o ô o õ o ő o ú u ù u û u ů u ű u ç c ć c č c ď d ł l ñ n ń n ň n ř r ś s š s ť t ý y ź z ż z ž z " \
    "Á A À A Â A É E È E Ê E Í I Î I Ó O Ô O Ú U Ç C Ć C Č C Ł L Ř R Ś S Š S Ź Z Ż Z Ž Z", pairs, " ")
  for (i = 1; i < n; i += 2) gsub(pairs[i], pairs[i + 1], text)
  gsub(/ /, "_", text)
  gsub(/[^A-Za-z0-9_-]/, "", text)
  if (text == "") text = "ship"
  text = substr(text, 1, 12)
  short = text
  while (text in taken) { number++; text = substr(short, 1, 12 - length(number) - 1) "-" number }
  taken[text] = 1
  return text
}

function read_chambers(    line, parts, found) {
  if (lock == "") fail("name a lock's file with the chambers, as -v lock=examples/evening.lock")
  while ((found = (getline line < lock)) > 0) {
    sub(/\r$/, "", line)
    split(line, parts, " ")
    if (parts[1] == "chamber") chambers = chambers line "\n"
    if (parts[1] == "close") closures = closures line "\n"
  }
  if (found < 0) fail("the lock's file " lock " can't be read")
  if (chambers == "") fail("there is no chamber in " lock)
}

function fail(why) {
  print "lock_of_csv: " why > "/dev/stderr"
  failed = 1
  exit 1
}
