# Says what is wrong with one line of an instance or a plan text, where its words tell it; else nothing.
# `number` is the line, `kind` the name of its fault, and `part` the text in which it is: instance or plan. Other lines of the
# text that a sentence names stand between two signs of code 1.

BEGIN {
  # the words of each kind of line, after its first one
  form["chamber"] = "name length width end gap side most pass turn stand opens"
  form["ship"] = "name way length width arrival handling class"
  form["close"] = "chamber from to"
  form["lockage"] = "chamber way start"
  form["berth"] = "ship x y rank host"

  count["chamber"] = "a chamber line has 12 words: chamber, name, length, width, end, gap, side, most, pass, turn, low or high, opens"
  count["ship"] = "a ship line has 7 words: ship, name, up or down, length, width, arrival, handling; with `glock 2` or `glock 3` a cargo class may follow"
  count["close"] = "a close line has 4 words: close, chamber, from, to"
  count["end"] = "the line end holds nothing else"
  count["plan"] = "the line plan holds nothing else"
  count["lockage"] = "a lockage line has 4 words: lockage, chamber, up or down, start"
  count["berth"] = "a berth line has 6 words: berth, ship, x, y, left or right, and a ship's name or * for the quay"

  # the words that are numbers: what they mean, and from where to where they may go
  number_word("length", "the length", 1, 100000)
  number_word("width", "the width", 1, 100000)
  number_word("end", "the clearance at the ends", 0, 10000)
  number_word("gap", "the gap along the chamber", 0, 10000)
  number_word("side", "the gap across the chamber", 0, 10000)
  number_word("most", "the most ships of a lockage", 1, 8)
  number_word("pass", "the minutes of a passage", 1, 1000000)
  number_word("turn", "the minutes of an empty turn", 0, 1000000)
  number_word("opens", "the minute of opening", 0, 1000000)
  number_word("arrival", "the minute of arrival", 0, 1000000)
  number_word("handling", "the minutes of handling", 0, 1000000)
  number_word("class", "the cargo class", 0, 9)
  number_word("from", "the first minute of the closure", 0, 1000000)
  number_word("to", "the minute at which the closure ends", 0, 1000000)
  number_word("x", "the place along the chamber", 0, 100000)
  number_word("y", "the place across the chamber", 0, 100000)
  number_word("start", "the minute of the start", 0, 1000000000)

  choice["way"] = "up or down"
  choice["stand"] = "low or high"
  choice["rank"] = "left or right"

  beginnings["instance"] = "chamber, ship, close (with `glock 2` or `glock 3`) or end"
  beginnings["plan"] = "lockage, berth or end"
  words["instance"] = "chamber ship close end"
  words["plan"] = "lockage berth end"

  few = 24
  many["chamber"] = "4 chamber lines"
  many["ship"] = few " ship lines under `glock 1` and `glock 2`; write `glock 3` in the first line for up to 96 ships"
  many["close"] = "8 close lines for a chamber"
  many["lockage"] = few " lockages"
  many["berth"] = "8 berths in a lockage"
}

function number_word(name, means, from, to) {
  meaning[name] = means
  least[name] = from
  most[name] = to
}

{ sub(/\r$/, ""); sub(/#.*/, "") }

wants_certificate { if ($1 == "certificate") is_dossier = 1; next }
NR < number && NF == 1 && $1 == "end" { ends++; last = NR }
NR < number && $1 == "close" { closures++; chamber_of[closures] = $2; from[closures] = $3 + 0; to[closures] = $4 + 0; row[closures] = NR }
NR < number && $1 == "lockage" { lockage = NR }
NR < number && $1 == "berth" { berth_of[lockage " " $2] = NR }
NR < number && $1 == "glock" { version = $2 }
NR < number && $1 == "glock" && $2 == 3 { many["ship"] = "96 ship lines" }
NR < number && $1 == "ship" && ++ships > few { many["lockage"] = ships " lockages, as many as there are ships" }
NR < number && ($1 == "chamber" || $1 == "ship") {
  line_of[$1 " " $2] = NR
  names_of[$1] = names_of[$1] " " $2
}
# What follows tells a dossier from a lock's file that is given twice.
NR == number && kind == "NoMark" && $1 == "glock" { wants_certificate = 1; next }
NR == number { print sentence(); exit }

# the text ends before the line that is wanted
END {
  if (wants_certificate) print is_dossier ? "here is a dossier, whose chambers and ships come a second time; give it alone." : twice_given()
  else if (NR < number && kind == "NoMark") print no_plan()
  else if (NR < number && kind == "NoHeader") print "there is nothing to read but empty lines and notes."
}

function at_line(line) { return "in line \001" line "\001" }

function twice_given() { return "here the chambers and the ships come a second time; the plan's file is wanted." }

function sentence() {
  if (kind == "NoHeader") return no_instance()
  if (kind == "NoMark") return no_plan()
  if (/\302\240/) return no_plain_spaces()
  if (kind == "Count" && $1 in count) return "this line has " NF (NF == 1 ? " word" : " words") "; " count[$1] "." name_of_two_words() two_numbers() class_of_format_1()
  if (kind == "Word") return first_wrong_choice()
  if (kind == "Number") return first_no_number()
  if (kind == "Range") return first_out_of_range()
  if (kind == "Name") return no_name($2)
  if (kind == "Twice" && ($1 " " $2) in line_of)
    return "the name " $2 " is given " at_line(line_of[$1 " " $2]) " already; each " $1 " has its own name."
  if (kind == "TurnOverPass")
    return "the empty turn of " $10 " minutes is longer than the passage of " $9 "; perhaps the two numbers are swapped."
  if (kind == "Twice" && part == "plan")
    return $2 " has a berth in this lockage already, " at_line(berth_of[lockage " " $2]) "; leave one of the two."
  if (kind == "Overlap") return overlap()
  if (kind == "Unknown") return first_unknown()
  if (kind == "Host") return $6 " has no berth in this lockage, and " $2 " is to moor at it; give it one, or write * for the quay."
  return ""
}

# where the instance must begin and something else does
function no_instance() {
  if ($1 ~ /^\357\273\277/) return hidden_mark()
  if (!NF) return "there is nothing to read but empty lines and notes."
  if (/\r/) return "the lines end in carriage returns alone; save the file with line feeds."
  if (/[,;\t].*[,;\t]/ && /[Ll]ength/) return "this is a table of ships; examples/lock_of_csv.awk makes a lock's file of it."
  if ($1 == "certificate") return "this is a certificate without its chambers and ships, which come first."
  if (command ~ /^(check|lower|resume)$/ && ($1 == "plan" || is_report())) return "this is a " ($1 == "plan" ? "plan" : "report") ", and " command " reads a dossier: " dossier_for()
  if ($1 == "plan" && !with_plan) return "this is a plan; the file with the chambers and the ships is wanted, and no plan."
  if ($1 == "plan") return "a plan begins here; the file with the chambers and the ships comes first, and the plan after it."
  if (is_report()) return with_plan ? "a report begins here; the file with the chambers and the ships comes first, and the plan after it." : "this is a report; the file with the chambers and the ships is wanted."
  if ($1 ~ /^</) return "this is a page, as picture makes one, and no text; the file with the chambers and the ships is wanted."
  if ($1 ~ /^[{\[]/) return "this is JSON; the file with the chambers and the ships is wanted, which begins with `glock 1`."
  if (/\302\240/) return no_plain_spaces()
  if (tolower($1) == "glock" && $1 != "glock") return "\"" $1 "\" must be written in small letters: glock."
  return "\"" $1 (NF > 1 ? " " $2 : "") (NF > 2 ? " .." : "") "\" stands where `glock 1` must stand, or `glock 2` where there are closures or cargo classes, or `glock 3` where there are more than 24 ships."
}

function dossier_for() {
  return command == "check" ? "./glock solve --dossier writes one." : "./glock solve --keep writes an open one where the search stops too early."
}

function no_plain_spaces() { return "between the words stand no-break spaces; write plain ones." }

function hidden_mark() { return "this line begins with a hidden mark of three bytes; save the file as UTF-8 without a byte order mark." }

# where the plan must begin and something else does
function no_plan() {
  if ($1 == "certificate") return "a certificate begins here and no plan; a dossier is given alone, or as the second file."
  if ($1 ~ /^\357\273\277/) return hidden_mark()
  if (tolower($1) == "plan" && NF == 1) return "\"" $1 "\" must be written in small letters: plan."
  if (is_report()) return "this is a report, of which no plan could be made."
  if ($1 ~ /^</) return "this is a page, as picture makes one; the plan's text or its report is wanted."
  if (NR == number && NF) return "\"" $1 "\" stands where the line `plan` must stand, after the instance's line end; of two files the plan's is the second."
  return "nothing follows the chambers and the ships; a plan is wanted too, as a second file (or - for standard input) or behind them."
}

# a closure that doesn't end after it begins, or the one above that it meets
function overlap(    i) {
  if ($3 + 0 >= $4 + 0) return "the closure begins at minute " $3 " and ends at minute " $4 "; it must end after it begins."
  for (i = 1; i <= closures; i++)
    if (chamber_of[i] == $2 && from[i] < $4 + 0 && $3 + 0 < to[i])
      return "the closure shares minutes with that " at_line(row[i]) ", from " from[i] " to " to[i] "; make one of the two."
}

function is_report() { return ($1 == "optimal" || $1 == "open" || $1 == "legal") && $(NF - 1) == "cost" }

# A name with a space in it is two words, of which the second stands for the way.
function name_of_two_words() {
  return $1 == "ship" && is_way($4) && !is_way($3) ? " A name is one word, such as " $2 "_" $3 "." : ""
}

# a length and a width in one word
function two_numbers(    i) {
  for (i = 2; i <= NF; i++) {
    if ($i ~ /^[0-9]+[x*,;\/][0-9]+$/) return " \"" $i "\" looks like two numbers; between them stands a space."
    if ($i ~ /[A-Za-z0-9][,;][A-Za-z0-9].*[,;]/) return " Words are separated by spaces."
  }
  return ""
}

function class_of_format_1() {
  return $1 == "ship" && NF == 8 && version == 1 && is_way($3) && $8 ~ /^[0-9]$/ ? " The first line is `glock 1`, so no class is read; write `glock 2` there." : ""
}

function is_way(word) { return word == "up" || word == "down" }

function no_name(word) {
  return "\"" word "\" can't be a name: a name has 1 to 12 letters A to Z and a to z, digits, - or _" \
    (word ~ /^[A-Za-z0-9_-]+$/ ? ", and this one has " length(word) "." : word ~ /^[A-Za-z0-9_-]+[,;]$/ ? "; words are separated by spaces alone." : word ~ /^[ -~]+$/ ? "." : "; write ue where the letter is u with two dots, and e for one with an accent.")
}

function first_wrong_choice(    names, i, parts) {
  if (ends && part == "instance") return after_end()
  if (ends > 1) return "the line end is " at_line(last) ", and nothing may follow it; put this line before."
  if ($1 == "plan" || $1 == "certificate") return "the " $1 " begins here, and the line end before it is missing."
  if (tolower($1) != $1 && tolower($1) in count) return "\"" $1 "\" must be written in small letters: " tolower($1) "."
  if ($1 == "") return ""
  if (index(" " words[part] " ", " " $1 " ") == 0) return "no line may begin with \"" $1 "\" here; lines begin with " beginnings[part] "." meant_line()
  split(form[$1], names, " ")
  for (i = 1; i < NF; i++)
    if (names[i] in choice) {
      split(choice[names[i]], parts, " or ")
      if ($(i + 1) != parts[1] && $(i + 1) != parts[2])
        return "\"" $(i + 1) "\" stands where " choice[names[i]] " must stand" perhaps(plain_choice($(i + 1), names[i]), parts[1] " " parts[2]) "." name_of_two_words()
    }
  return $1 == "close" ? "a line close needs `glock 2` or `glock 3` as the first line, and may not follow the line end." : ""
}

# upstream, downhill, lower, bottom and the like as the word that they mean
function plain_choice(word, name) {
  word = tolower(word)
  if (name == "way") return word ~ /^(up|auf|berg)/ ? "up" : word ~ /^(down|ab|tal)/ ? "down" : word
  if (name == "stand") return word ~ /^(low|bottom|down|unten)/ ? "low" : word ~ /^(high|top|up|oben)/ ? "high" : word
  return word
}

function first_no_number(    names, i) {
  split(form[$1], names, " ")
  for (i = 1; i < NF; i++)
    if (names[i] in meaning && $(i + 1) !~ /^[0-9]+$/)
      return "\"" $(i + 1) "\" stands for " meaning[names[i]] ", which must be a whole number: digits alone, no sign, point or unit." meant_number($(i + 1), names[i])
  return ""
}

# what a number with a point, or a time of day, may have been meant to be
function meant_number(word, name) {
  if (meaning[name] ~ /minute/)
    return word ~ /^[0-9]+:[0-9][0-9]$/ ? " Times are minutes from a moment that you choose: where it is 17:00, 17:25 is 25." : ""
  sub(/,/, ".", word)
  sub(/m$/, "", word)
  if (name != "most" && name != "class" && word ~ /^[0-9]+$/) return " Sizes are decimetres: " word " metres are " word "0."
  return name != "most" && name != "class" && word ~ /^[0-9]+\.[0-9]$/ ? " Sizes are decimetres: " word " metres are " word * 10 "." : ""
}

function first_out_of_range(    names, i, word) {
  split(form[$1], names, " ")
  for (i = 1; i < NF; i++) {
    word = names[i]
    if (word in meaning && ($(i + 1) + 0 < least[word] || $(i + 1) + 0 > most[word]))
      return $(i + 1) " stands for " meaning[word] ", which must be from " least[word] " to " with_commas(most[word]) "."
  }
  return $1 in many ? "there may be at most " many[$1] "." : ""
}

function with_commas(whole,    text) {
  text = sprintf("%d", whole)
  while (text ~ /[0-9][0-9][0-9][0-9]/) sub(/[0-9][0-9][0-9]($|,)/, ",&", text)
  return text
}

function first_unknown() {
  if ($1 == "close" || $1 == "lockage") return "there is no chamber named " $2 " above" perhaps_chamber() "." of_failure()
  if ($1 == "berth" && tolower($6) ~ /^(quay|left|right|-|none)$/ && ("ship " $2) in line_of) return "\"" $6 "\" is no ship; write * for the quay."
  if (!(("ship " $2) in line_of)) return "there is no ship named " $2 " in the instance" perhaps($2, names_of["ship"]) "."
  return $1 == "berth" ? "there is no ship named " $6 " in the instance" perhaps($6, names_of["ship"]) "." : ""
}

# the chamber that is spelt nearly so, or else all that there are
function perhaps_chamber(    near, names) {
  near = perhaps($2, names_of["chamber"])
  if (near != "" || of_failure() != "") return near
  names = substr(names_of["chamber"], 2)
  gsub(/ /, ", ", names)
  return names == "" ? "; write its chamber line first" : ", but " names
}

# of a chamber that is no more
function of_failure() {
  return $1 == "lockage" && command == "replan" ? " A chamber that fails keeps its line in the lock's file, and a line close says from when to when." : ""
}

function perhaps(word, list,    near) {
  near = nearest(word, list)
  return near == "" ? "" : "; perhaps " near " is meant"
}

# what follows the line end of a lock's file
function after_end() {
  if ($1 == "certificate") return "a certificate begins here, so this is a dossier; the chambers and the ships alone are wanted."
  if ($1 == "plan" || is_report()) return "a plan begins here, which judge, play, picture and replan read; the chambers and the ships alone are wanted."
  if ($1 == "glock") return "a second lock's file begins here, and one is wanted."
  return "the line end is " at_line(last) ", and nothing may follow it; put this line before."
}

function meant_line(    near) {
  if ($1 ~ /^[a-z]+[,;]/) return " Words are separated by spaces."
  near = nearest($1, words[part])
  return near == "" ? "" : " Perhaps " near " is meant."
}
