# Says in plain words, on standard error, what the program's answer means and what to mend.

explain_answer() {
  local first= subject=glock
  if [ ${#files[@]} -gt 0 ]; then subject=$first_name; fi
  IFS= read -r first <"$answer"
  read -r -a parts <<<"$first"
  case $status in
    0) explain_good ;;
    1) explain_open "$first" ;;
    2) say "${wrong:-these words are not understood; ./glock help tells what may be said}" ;;
    3) explain_refused "$first" ;;
    4) say_at "$subject" "read fault: $first_name could not be read to its end" ;;
    5) say_at "$subject" "write fault: not all of the answer could be written to $not_written" ;;
    6) say_at "$subject" "no memory: this machine has too little free memory for the work; close other programs$(fewer_nodes)$(an_end)" ;;
    7) explain_dossier "$first" ;;
    8) explain_unfit "${parts[1]}" ;;
    10) explain_plan "$first" ;;
    *) say_at "$subject" "the program ended with status $status$(signal_of "$status") and gave no answer; it may have been stopped from outside" ;;
  esac
}

# of a program that a signal ended
signal_of() {
  local name
  [ "$1" -gt 128 ] && name=$(kill -l $(($1 - 128)) 2>/dev/null) || return 0
  case $name in
    KILL) printf ' (killed, as where the machine has too little memory or a limit of time is over)' ;;
    SEGV) printf ' (a fault of memory, as where ulimit -s allows less stack than 1024)' ;;
    *) printf ' (signal %s)' "$name" ;;
  esac
}

fewer_nodes() { [[ " $(options_of "$command") " != *" --nodes "* ]] || printf ', or give fewer --nodes'; }

# of a source that isn't known to end
an_end() { reads_dossier "$command" && { [ -z "$input" ] || $goes_on; } && printf ', and see that what %s reads comes to an end' "$command"; }

# A file was asked for and another text came than its options may let one expect.
explain_good() {
  if has_word --dossier && ! is_dossier; then
    say_at "$subject" "no dossier: all ships are in lockages that are kept, so nothing was left to plan; the answer is the plan" \
      ${output:+"and $output is not written"}
  elif $is_written && has_word --keep && ! has_word --dossier; then
    say_at "$subject" "the search came to its end, so $output holds the report of a cheapest plan and no open dossier"
  fi
}

# open .. low <low> cost <cost>, lower <low> cost <cost>, or an open dossier
explain_open() {
  local bounds
  case $1 in
    glock*)
      say_at "$subject" "the search isn't over; this open dossier keeps it, and ./glock resume goes on from there"
      return
      ;;
    *" low "*" cost "*) bounds=${1##* low } ;;
    "lower "*) bounds=${1#lower } ;;
    *) return ;;
  esac
  [ "$command" != trial ] || return 0
  say_at "$subject" "this plan costs ${bounds##* } and isn't proved cheapest; what is proved is that no plan costs less than" \
    "${bounds%% *}. $(how_to_go_on "$1")"
  [ -z "$output" ] || $is_written || say_at "$subject" "a dossier is made for a cheapest plan alone, so $output is not written"
}

how_to_go_on() {
  local bound=--nodes
  [ -z "$seconds" ] || bound=--seconds
  case $1 in
    "open nodes"*) echo "Give more $bound$(about_prices "$1"), or keep the search with --keep and go on with resume" ;;
    "open turns 200000"*) echo "The named ships were too hard to place together, by as many tries as may be asked for" ;;
    "open turns"*) echo "Give more --turns: the named ships were too hard to place together" ;;
    *) echo "Go on with resume" ;;
  esac
}

# A search of few steps goes without prices.
about_prices() {
  local used
  read -r _ _ used _ <<<"$1"
  [ "$used" -gt 1000 ] || [ "$command" = resume ] || echo " (above 1,000 nodes the search goes by prices, which show far more)"
}

explain_refused() {
  case $1 in
    "too long "*) say_at "$subject" "too long: $first_name${second_name:+ and $second_name together} may have ${1##* } bytes at most" ;;
    *) explain_line instance "${parts[1]}" "${parts[3]}" "${parts[4]}" ;;
  esac
}

# a faulty line: the part of the text, the line of the whole input, the fault's number and kind
explain_line() {
  local sentence=
  if [ -n "$input" ] && [[ "$1 $4" =~ ^"instance "(NotUtf8|NoHeader)$ ]]; then sentence=$(no_plain_text); fi
  if [ -n "$input" ] && [ -z "$sentence" ]; then
    sentence=$(awk -v number="$2" -v kind="$4" -v part="$1" -v command="$command" -v with_plan="$(reads_plan "$command" && echo 1)" \
      -f "$script/nearest.awk" -f "$script/line.awk" "$input" 2>/dev/null)
    sentence=$(with_lines "$sentence")
  fi
  sentence=${sentence:-$(sentence_of "$1 $4")}
  if [ "$1" = instance ] && [ -n "$second_name" ] && [ "$2" -gt "$first_lines" ]; then
    sentence="$first_name has no line end, so the plan was read as a part of it."
  fi
  say_at "$(place_of "$2")" "fault $3 $4: $sentence"
}

# what a file is that isn't plain text, by how it begins
no_plain_text() {
  local LC_ALL=C first=
  IFS= read -r -d '' -n 4 first <"$input"
  case $first in
    $'PK\003'*) echo "this is a spreadsheet or an archive; save its table as CSV, of which examples/lock_of_csv.awk makes a lock's file." ;;
    %PDF) echo "this is a PDF, and a plain text is wanted." ;;
    $'\x1f\x8b'*) echo "this file is compressed; unpack it first." ;;
    *) if [[ $first == $'\xff\xfe'* || $first == $'\xfe\xff'* ]] || has_zero_byte; then echo "this file is UTF-16; save it as plain text (UTF-8)."; fi ;;
  esac
}

has_zero_byte() { [ "$(head -n 1 "$input" | tr -d -c '\0' | wc -c)" -gt 0 ]; }

# a sentence in which numbers of lines stand between two signs of code 1, with the lines as they were given
with_lines() {
  local sentence=$1
  while [[ $sentence =~ $'\001'([0-9]+)$'\001' ]]; do sentence=${sentence/"${BASH_REMATCH[0]}"/$(line_number "${BASH_REMATCH[1]}")}; done
  printf '%s' "$sentence"
}

explain_unfit() {
  local line sentence
  sentence="$1 is too long or too wide for every chamber."
  if [ -n "$input" ]; then
    IFS=$'\t' read -r line sentence < <(awk -v name="$1" -f "$script/unfit.awk" "$input")
    say_at "$(place_of "$line")" "$sentence"
  else
    say_at "$subject" "$sentence"
  fi
}
