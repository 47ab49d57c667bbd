#!/usr/bin/env bash
# decks.sh FILE ..: asks each placer about the decks of six ships of these instance texts, with 20,000 turns, and prints how
# many decks there are, how many each leaves undecided, its processor time, and the least turns of the placer by berths, added.
# The program is that of measure.sh.
set -eu
[ $# -gt 0 ] && [ -r "$1" ] || { echo "usage: decks.sh FILE .., instance texts" >&2; exit 2; }
program=$("$(dirname "$0")/measure.sh")

# what a run counts, and the seconds of processor time that it takes
run() {
  local TIMEFORMAT=%U
  { time "$program" crowd "$@" 20000 <"$file"; } 2>&1 | paste -sd ' '
}

for file in "$@"; do
  echo "$file: decks, and seconds to list them: $(run nobody decks)"
  for placer in berths cases spots; do
    echo "$file: undecided by $placer, and seconds: $(run $placer undecided)"
  done
  echo "$file: turns by berths: $(run berths turns | cut -d' ' -f1)"
done
