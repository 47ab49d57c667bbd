#!/usr/bin/env bash
# Times the calls that benches/README.md has figures for. The program is that of measure.sh.
set -eu
cd "$(dirname "$0")/.."
program=$(benches/measure.sh)

text=$(mktemp)
queue=$(mktemp)
trap 'rm -f "$text" "$queue"' EXIT
{
  echo "glock 1"
  for i in $(seq 1 1072); do printf '# %058d\n' "$i"; done
  echo "chamber c1 2000 240 10 20 5 4 30 15 low 0"
  echo "ship s1 up 1100 114 0 5"
  echo "end"
} >"$text"

# 24 ships, of which no three fit the chamber
{
  echo "glock 1"
  echo "chamber c1 2000 232 10 20 5 4 30 15 low 0"
  for i in $(seq 1 24); do echo "ship s$i up 1100 114 0 5"; done
  echo "end"
} >"$queue"

# seconds that a run takes, as nanoseconds, less those of a run that does nothing
timed() {
  local start none
  start=$(date +%s%N)
  "$program" none </dev/null >/dev/null
  none=$(($(date +%s%N) - start))
  start=$(date +%s%N)
  counted=$("$program" "$@" <"$text")
  spent=$(($(date +%s%N) - start - none))
}

for ships in 12 16 20 24; do
  for chambers in 2 4; do
    timed bounds $ships $chambers 2000
    echo "$ships ships, $chambers chambers: $((spent / counted)) nanoseconds a bounded child ($counted of them)"
  done
done
timed spots 20
echo "spot values of eight ships in a chamber of 100,000: $((spent / 20 / 1000)) microseconds ($((counted / 20)) values)"
timed cases 20
echo "placing eight crowded ships by berths and relations: $((spent / counted)) nanoseconds a turn ($counted of them)"
timed spotcases 20
echo "the same by spots: $((spent / counted)) nanoseconds a turn ($counted of them)"
timed read 200
echo "an instance text of $(wc -c <"$text") bytes: $((spent / 200 / 1000)) microseconds a reading"
text=$queue timed closes 1000 1000000
echo "closing a slot by what was shown of it beside 1,000 cuts: $((spent / 1000000)) nanoseconds an event ($counted of them)"
