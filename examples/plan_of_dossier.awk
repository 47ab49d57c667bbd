# Makes a plan text of a dossier, whole or open, as glock writes it; what it says isn't checked:
#   awk -f examples/plan_of_dossier.awk evening.dossier > evening.plan
# `play`, `judge` and `replan` read such a text, and by ./glock the dossier itself too. A certificate without its chambers and
# ships wants them: -v lock=FILE. With -v lines=FILE it writes to that file, for each line of the plan, the line of the
# certificate.

BEGIN { while (lock != "" && (getline line < lock) > 0) { split(line, parts, " "); keep(parts[1], parts[2]) } }

!is_certificate {
  sub(/\r$/, ""); sub(/#.*/, "")
  keep($1, $2)
  is_certificate = $1 == "certificate"
  next
}

{ text = text $0; if (!row) row = NR }

END {
  gsub(/[ \t\r]/, "", text)
  if (!match(text, /"plan":\[/)) fail("no plan stands in it")
  text = substr(text, RSTART + RLENGTH)
  write("plan")
  while (match(text, /^,?\{[^}]*\}/)) {
    lockage = substr(text, RSTART, RLENGTH)
    text = substr(text, RSTART + RLENGTH)
    tell(lockage)
  }
  if (text !~ /^\]/ || !lockages) fail("its plan is damaged or cut off")
  write("end")
}

function keep(word, name) {
  if (word == "chamber") chamber[chambers++] = name
  if (word == "ship") ship[ships++] = name
}

function tell(lockage,    parts, numbers, spots, n, i, moor) {
  lockages++
  write("lockage " name_of(chamber, one(lockage, "chamber")) " " (one(lockage, "way") == 0 ? "up" : "down") " " one(lockage, "start"))
  n = split(list(lockage, "ships"), numbers, ",")
  spots = list(lockage, "spots")
  gsub(/[][]/, "", spots)
  split(spots, parts, ",")
  for (i = 1; i <= n; i++) {
    moor = parts[4 * i]
    write("berth " name_of(ship, numbers[i]) " " parts[4 * i - 3] " " parts[4 * i - 2] " " (parts[4 * i - 1] == 0 ? "left" : "right") " " \
      (moor == 0 ? "*" : name_of(ship, numbers[moor])))
  }
}

# what stands behind a key: a number, or the numbers of a list between their brackets
function one(text, key) { return match(text, "\"" key "\":[0-9]+") ? substr(text, RSTART + length(key) + 3, RLENGTH - length(key) - 3) : "?" }

function list(text, key,    at) {
  at = index(text, "\"" key "\":[")
  if (!at) return ""
  text = substr(text, at + length(key) + 4)
  return substr(text, 1, match(text, /\](\]|,"|\})/) - 1)
}

function name_of(names, number) { return number in names ? names[number] : "?" }

function write(line) {
  print line
  if (lines != "") print row > lines
}

function fail(why) {
  print "plan_of_dossier: " why > "/dev/stderr"
  exit 1
}
