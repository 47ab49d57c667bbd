# Makes a table (CSV) of a report, a line for each ship, lengths in metres and times as the report has them:
#   awk -f examples/csv_of_report.awk evening.report > evening.csv
# For a spreadsheet that wants semicolons and decimal commas: -v separator=';' -v decimal=,

BEGIN {
  if (separator == "") separator = ","
  if (decimal == "") decimal = "."
  print joined("lockage chamber way start end ship x_m y_m rank moored_at flow wait")
}

{ sub(/\r$/, "") }

$1 == "lockage" && $3 == "chamber" {
  flush()
  number = $2
  second = $7 ~ /^\+/ ? 9 : 8
  start = second == 9 ? $7 "_" $8 : $7
  end = $(second + 1) ~ /^\+/ ? $(second + 1) "_" $(second + 2) : $(second + 1)
  head = number " " $4 " " $5 " " start " " end
  lasts = minutes(end) - minutes(start)
}

$1 ~ /^[A-H]$/ && $3 == "x" {
  ships++
  name[$1] = $2
  host[ships] = $8 == "at" ? $9 : ""
  before[ships] = head " " $2 " " metres($4) " " metres($6) " " $7
  behind[ships] = $NF " " $NF - lasts
}

NF == 1 && $1 == "end" { is_whole = 1 }

END {
  flush()
  if (!number || !is_whole) {
    print "csv_of_report: this is no whole report" (number ? ": it has no line end" : "") > "/dev/stderr"
    exit 1
  }
}

# The letter of a host may come after its guest's, so a lockage's ships wait for its last one.
function flush(    i) {
  for (i = 1; i <= ships; i++) print joined(before[i] " " (host[i] == "" ? "quay" : name[host[i]]) " " behind[i])
  ships = 0
}

function metres(decimetres) { return int(decimetres / 10) decimal decimetres % 10 }

function minutes(text,    parts, days) {
  if (text ~ /^\+/) days = text + 0
  sub(/.*_/, "", text)
  if (text !~ /:/) return text
  split(text, parts, ":")
  return days * 1440 + parts[1] * 60 + parts[2]
}

# words with the separator between them; a number with a decimal comma is quoted where commas separate
function joined(words,    parts, n, i, text) {
  n = split(words, parts, " ")
  for (i = 1; i <= n; i++) {
    gsub(/_/, i == 4 || i == 5 ? " " : "_", parts[i])
    if (index(parts[i], separator)) parts[i] = "\"" parts[i] "\""
    text = text (i > 1 ? separator : "") parts[i]
  }
  return text
}
