# What stands in a dossier: its nodes by reason, its lists of prices, and its cuts by ships' names. The instance is read line by line,
# and the certificate behind it comma by comma.

BEGIN {
  split("area row column cases spots clash berths", reasons, " ")
  split("split bound throughput open prices sweep open", marks, " ")
  kinds = split("split bound throughput probe cut prices sweep open other", kind_names, " ")
}

{ bytes += length($0) + 1 }

!is_certificate {
  sub(/\r$/, ""); sub(/#.*/, "")
  if (is_instance_over && NF) take_heading()
  else if ($1 == "chamber") chamber_names[chambers++] = $2
  else if ($1 == "ship") ship_names[ships++] = $2
  else if ($1 == "end" && NF == 1) is_instance_over = 1
  next
}

# the keys of a part, each with what stands before it, and at most one number behind them
{
  gsub(/[ \t\r\n]/, "")
  while (match($0, /"[a-z]+":/)) {
    count_lists(substr($0, 1, RSTART - 1))
    if (index(substr($0, 1, RSTART), "{")) begin_object()
    take_key(substr($0, RSTART + 1, RLENGTH - 3))
    $0 = substr($0, RSTART + RLENGTH)
  }
  count_lists($0)
  gsub(/[^0-9]/, "")
  if ($0 != "") take_number($0)
}

function take_heading() {
  if ($1 != "certificate") exit
  is_open = $2 == "open"
  version = $NF ~ /^[0-9]+$/ ? $NF : 1 + is_open
  is_certificate = 1
  RS = ","
}

function begin_object() {
  if (section == "cuts") cuts++
  if (section == "plan") lockages++
  if (section == "prices") lists++
}

# lists of prices, and the triples of an object with such a list
function count_lists(text) {
  if (section != "prices") return
  if (field == "prices") lists += gsub(/\[/, "[", text)
  if (field == "triples") triples += gsub(/\[/, "[", text)
  if (text ~ /}/) field = "prices"
}

function take_key(key) {
  if (key ~ /^(cost|cuts|plan|prices|tree)$/) { section = key; keys++ }
  # the list of all lists isn't one of them, nor that of all triples
  if (key == "prices") lists--
  if (key == "triples") triples--
  field = key
}

function take_number(number) {
  if (field == "cost") cost = number
  else if (section == "tree") take_mark(number)
  else if (section == "cuts") take_of_cut(number)
}

function take_of_cut(number) {
  if (field == "chamber") cut_chamber[cuts] = chamber_names[number]
  else if (field == "ships") cut_ships[cuts] = cut_ships[cuts] " " ship_names[number]
  else if (field == "why" && !(cuts in cut_reason)) cut_reason[cuts] = reasons[number + 1]
}

# the second number of a mark says which prices
function take_mark(number) {
  if (is_second) { is_second = 0; return }
  nodes++
  count[kind_of(number)]++
  is_second = version > 2 && number >= 4 && number <= 6
}

function kind_of(number) {
  if (number <= 6) return marks[number + 1]
  if (number >= (ships > 24 ? 1000 : 100)) return "cut"
  return number >= 10 ? "probe" : "other"
}

function tell(what, text) { printf "%-11s %s\n", what, text }

END {
  if (keys < 4) exit is_certificate ? 2 : 1
  tell("dossier", (is_open ? "open" : "whole") ", version " version)
  # no comma follows the last part
  tell("bytes", bytes - 1)
  tell("ships", ships)
  tell("chambers", chambers)
  tell("lockages", lockages + 0)
  tell("cost", cost)
  tell("price lists", lists + 0)
  if (triples) tell("triples", triples)
  tell("cuts", cuts + 0)
  tell("nodes", nodes + 0)
  for (k = 1; k <= kinds; k++) if (kind_names[k] in count) tell("  " kind_names[k], count[kind_names[k]])
  for (c = 1; c <= cuts; c++) tell("cut " c - 1, cut_chamber[c] " " cut_reason[c] cut_ships[c])
}
