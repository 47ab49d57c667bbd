# Lays out the rows of a table of days, as text or, with csv, as comma-separated values.

BEGIN {
  n = split("file verdict cost low gap_percent ships lockages longest_wait waiting_ship", title, " ")
  if (csv == "true") for (i = 1; i <= n; i++) printf "%s%s", title[i], i < n ? "," : "\n"
  else for (i = 1; i <= n; i++) { cell[0, i] = title[i]; gsub(/_/, " ", cell[0, i]); widest(cell[0, i], i) }
}

csv == "true" {
  for (i = 1; i <= n; i++) printf "%s%s", quoted($i == "-" ? "" : $i), i < n ? "," : "\n"
  next
}

{ for (i = 1; i <= n; i++) { cell[NR, i] = $i; widest($i, i) } }

END {
  if (csv == "true") exit
  for (row = 0; row <= NR; row++) {
    line = ""
    # words stand at the left of their column, numbers at its right
    for (i = 1; i <= n; i++) line = line (i > 1 ? "  " : "") sprintf("%" (i < 3 || i == n ? "-" : "") width[i] "s", cell[row, i])
    sub(/ +$/, "", line)
    print line
  }
}

function widest(text, i) { if (length(text) > width[i]) width[i] = length(text) }

function quoted(text) {
  if (text !~ /[",\n]/) return text
  gsub(/"/, "\"\"", text)
  return "\"" text "\""
}
