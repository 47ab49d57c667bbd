# The instance and the plan as the program is to read them: without the ships `dropped`, and, of a day as it is lived, with
# what the notes of the plan say of times before `minute`. `lived` is true or false for `replan`; for `play` it is `told`,
# and only when chambers stood still plays a part. No line moves but by the closures that are added before the instance's
# line end; the file `count` gets their number.
# A note `still main 35 100` says that main stood still from 35 to 100: it is closed then. A note
# `turned main up 115 35 130` says that main, free since 35, stands turned for ships going up until 115, and is turned
# back until 130; with `-` for both minutes, that it stays turned.

BEGIN { n = split(dropped, parts, " "); for (i = 1; i <= n; i++) is_dropped[parts[i]] = 1 }

{ sub(/\r$/, ""); text[NR] = $0; bare = $0; sub(/#.*/, "", bare); $0 = bare }

!last && $1 == "glock" { head = NR }
!last && $1 == "close" { closures[$2]++; from[$2, closures[$2]] = $3 + 0; to[$2, closures[$2]] = $4 + 0; row[$2, closures[$2]] = NR }
!last && NF == 1 && $1 == "end" { last = NR; next }
!last { next }

$1 == "plan" { in_plan = 1 }
$1 == "lockage" { lockage = NR }
$1 == "berth" && $2 in is_dropped { text[NR] = ""; left_by[lockage] = 1; next }
$1 == "berth" { holds[lockage]++; if ($6 in is_dropped) sub(/[^ \t]+[ \t]*$/, "*", text[NR]) }
in_plan && lived != "false" { take_note(text[NR]) }

END {
  # The lockage of a ship that is withdrawn has perhaps turned its chamber, so an empty one stays where the day is lived.
  for (l in left_by) if (!holds[l] && lived == "false") text[l] = ""
  for (c in closures)
    for (i = 1; i <= closures[c]; i++) if (row[c, i] == -1) { closing = closing "close " c " " from[c, i] " " to[c, i] "\n"; added++ }
  for (i = 1; i <= NR; i++) {
    if (i == head && added) sub(/glock[ \t]+1/, "glock 2", text[i])
    if (i == last) printf "%s", closing
    print text[i]
  }
  print added + 0 > count
}

function take_note(note,    w) {
  split(note, w, " ")
  if (note ~ /^# still [^ ]+ [0-9]+ [0-9]+$/) close_span(w[3], w[4] + 0, lived == "told" || w[5] + 0 < minute ? w[5] + 0 : minute)
  if (lived == "told" || note !~ /^# turned [^ ]+ (up|down) (-|[0-9]+) [0-9]+ (-|[0-9]+)$/) return
  if (w[5] == "-" || minute <= w[5] + 0) text[NR] = "lockage " w[3] " " w[4] " " minute
  else close_span(w[3], w[6] + 0, w[7] + 0)
}

# a closure that takes in those which it meets; its row is -1, and that of one which is taken in 0
function close_span(chamber, low, high,    i, again) {
  if (low >= high) return
  for (again = 1; again;) {
    again = 0
    for (i = 1; i <= closures[chamber]; i++)
      if (row[chamber, i] && from[chamber, i] < high && low < to[chamber, i]) {
        if (from[chamber, i] < low) low = from[chamber, i]
        if (to[chamber, i] > high) high = to[chamber, i]
        if (row[chamber, i] > 0) text[row[chamber, i]] = ""
        row[chamber, i] = 0
        again = 1
      }
  }
  i = ++closures[chamber]
  from[chamber, i] = low; to[chamber, i] = high; row[chamber, i] = -1
}
