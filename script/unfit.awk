# Says why the ship `name` fits no chamber: the ship's line, a tab and a sentence with the measures.

{ sub(/\r$/, ""); sub(/#.*/, "") }

$1 == "chamber" {
  chambers++
  long[chambers] = $3 - 2 * $5
  wide[chambers] = $4 + 0
  clear[chambers] = $5 + 0
  takes = takes (takes == "" ? "" : ", ") $2 " takes ships up to " long[chambers] " by " wide[chambers]
}

$1 == "ship" && $2 == name && !line { line = NR; length_of = $4 + 0; width_of = $5 + 0 }
NF == 1 && $1 == "end" { exit }

END {
  print line "\t" name " is " length_of " long and " width_of " wide, in decimetres; " takes "." hint()
}

# whether a ship of this length and width would fit some chamber, were the chambers so many times as large
function fits(length_given, width_given, times,    c) {
  for (c = 1; c <= chambers; c++)
    if (length_given <= (long[c] + 2 * clear[c]) * times - 2 * clear[c] && width_given <= wide[c] * times) return 1
  return 0
}

function hint() {
  if (width_of > length_of && fits(width_of, length_of, 1)) return " Its length and width look swapped."
  if (fits(length_of, width_of, 10) && largest() < 500) return " The chambers look as if given in metres: write decimetres, ten to a metre."
  if (length_of > 3000 && fits(length_of / 10, width_of / 10, 1)) return " The ship looks as if given in centimetres: write decimetres, ten to a metre."
  return ""
}

function largest(    c, most) {
  for (c = 1; c <= chambers; c++) if (long[c] > most) most = long[c]
  return most
}
