# What the program reads: a file, two files joined, or standard input.

# more bytes than any instance with its plan and a byte order mark may have; and the most bytes of a file that is joined
# to another one where the program reads all
most_kept=131076
most_joined=16777216

# sets input, the file that the program reads, or nothing for standard input itself; goes_on, whether standard input
# goes on behind that file; first_name and second_name, what to call the parts in messages; and first_lines, the number
# of lines of the first of two files
take_input() {
  input= goes_on=false first_name="standard input" second_name= first_lines=0
  local file
  is_named=true
  if [ ${#files[@]} = 0 ]; then is_named=false; fi
  if [ "${files[*]}" = - ]; then files=(); fi
  if [ "${files[*]}" = "- -" ]; then say "standard input can be read once, so - may stand for one of the two files"; return 2; fi
  for file in "${files[@]}"; do
    [ "$file" != - ] || continue
    [ -d "$file" ] && { say "$file is a folder$(file_in_folder "${file%/}")"; return 66; }
    [ -r "$file" ] || { say "$file can't be read: no permission"; return 66; }
  done
  case ${#files[@]} in
    0) wait_for_keyboard; refuse_device && keep_standard_input ;;
    1) take_file ;;
    2) join_files ;;
  esac || return
  # What is kept of the input, where that is all of it.
  if [ -n "$input" ] && [ "${input%/*}" = "$room" ] && room_is_full; then
    say "write fault: $(temporary_folder) is full, so the input can't be kept"
    return 5
  fi
}

wait_for_keyboard() {
  if [ -t 0 ] && ! $is_named && [ -z "$wrong" ] && [ "$(most_files "$command")" -gt 0 ]; then
    tell_of_keyboard "$command"
  fi
}

tell_of_keyboard() { say "no file is named, so $1 reads what you type; end it with Ctrl-D, or stop with Ctrl-C and name a file"; }

# A pipe can be read once only, so it is taken as standard input is.
take_file() {
  first_name=${files[0]}
  if [ -f "$first_name" ]; then
    input=$first_name
    if begins_with_mark "$input"; then drop_mark "$input" >"$room/unmarked" && input=$room/unmarked; fi
  else
    exec <"$first_name"
    refuse_device && keep_standard_input
  fi
}

# A dossier may be as long as it likes, so one from a device such as /dev/zero would be read until memory is gone.
refuse_device() {
  reads_dossier "$command" && [ -c /dev/stdin ] && [ ! -t 0 ] && ! [ /dev/stdin -ef /dev/null ] || return 0
  say "$first_name is a device, which need not end; a dossier is read from a file or a pipe"
  return 66
}

# A byte order mark, which some editors write at the beginning of a file, is no part of a text.
begins_with_mark() { [ "$(head -c 3 -- "$1" | tr -d '\0')" = $'\xef\xbb\xbf' ]; }
drop_mark() { tail -c +4 -- "$1"; }

# The second file begins on a line of its own, also where the first doesn't end with a line feed.
join_files() {
  first_name=$(name_of "${files[0]}") second_name=$(name_of "${files[1]}") input=$room/joined
  : >"$input"
  join_file "${files[0]}" || return
  [ -z "$(tail -c 1 "$input" | tr -d '\n' | tr '\0' 'x')" ] || echo >>"$input"
  first_lines=$(wc -l <"$input")
  join_file "${files[1]}"
}

name_of() { if [ "$1" = - ]; then echo "standard input"; else echo "$1"; fi; }

# Appends a file to the input. What is over the program's limit is left out; a program that has none gets all or nothing.
join_file() {
  local most=$most_kept
  if reads_dossier "$command" || has_certificate "$1"; then most=$((most_joined + 1)); fi
  if [ "$1" = - ]; then head -c $most; else head -c $most "$1"; fi >"$room/part"
  if begins_with_mark "$room/part"; then drop_mark "$room/part"; else cat "$room/part"; fi >>"$input"
  if reads_dossier "$command" && [ "$(wc -c <"$room/part")" -eq $most ]; then
    say "$(name_of "$1") has more than $most_joined bytes; join the two files and give one"
    return 66
  fi
}

# Of a dossier in the place of a plan the program gets the plan alone.
has_certificate() { [ -f "$1" ] && reads_plan "$command" && grep -aq -m 1 '^certificate' "$1"; }

# An instance on standard input is kept, so that messages can speak of its lines. What is over the program's limit is
# left unread, as the program leaves it; only of a dossier the program reads what follows too. Where standard input fails
# the program is to say so itself.
keep_standard_input() {
  reads_instance "$command" && [ -z "$wrong" ] || return 0
  if head -c $most_kept >"$room/kept" 2>/dev/null || room_is_full; then input=$room/kept; fi
  if [ -n "$input" ] && reads_dossier "$command" && [ "$(wc -c <"$input")" -eq $most_kept ]; then goes_on=true; fi
  if [ -n "$input" ] && begins_with_mark "$input"; then drop_mark "$input" >"$room/unmarked" && input=$room/unmarked; fi
}

# where a line of the input stands, as file:line
place_of() {
  local line
  line=$(given_line "$1")
  if [ -n "$second_name" ] && [ "$line" -gt "$first_lines" ]; then
    echo "$second_name:$((line - first_lines))"
  else
    echo "$first_name:$line"
  fi
}

# of a folder that is given in a file's place
file_in_folder() {
  local file
  for file in "$1"/*.lock; do
    if [ -f "$file" ]; then echo "; one file at a time is read, such as $file"; return; fi
  done
}

# the number of the first line whose words are the one word `end`
end_of_instance() { awk '{ sub(/\r$/, ""); sub(/#.*/, "") } NF == 1 && $1 == "end" { print NR; exit }' "$input"; }

# Of a day of more than 24 ships the program's own number of steps may take hours: where none is given, the search gets as many as
# end after about a minute.
take_nodes() {
  local ships
  [ -n "$input" ] && [ -z "$wrong" ] && [[ " $(options_of "$command") " == *" --nodes "* ]] || return 0
  [ -z "$seconds" ] && ! names_option --nodes && ! has_word -- || return 0
  ships=$(ships_in "$input")
  if [ "$ships" -gt 48 ]; then
    program_words+=(--nodes 1500)
  elif [ "$ships" -gt 24 ]; then
    program_words+=(--nodes 4000)
  fi
}

# By the program's own number of tries some groups of six to eight small ships stay undecided, and searches open with them: where
# none is given, a search gets as many as there may be, which are seldom used up.
take_turns() {
  [ -z "$wrong" ] && [[ " solve resume replan " == *" $command "* ]] || return 0
  names_option --turns || has_word -- || program_words+=(--turns 200000)
}

names_option() { [[ " ${program_words[*]} " == *" $1"[=\ ]* ]]; }

ships_in() { awk '{ sub(/\r$/, ""); sub(/#.*/, "") } $1 == "ship" { ships++ } NF == 1 && $1 == "end" { exit } END { print ships + 0 }' "$1"; }

# a warning, never a refusal
warn_of_sizes() {
  local line text
  [ -n "$input" ] && reads_instance "$command" && [ -z "$wrong" ] || return 0
  while IFS=$'\t' read -r line text; do
    say_at "$(place_of "$line")" "warning: $text"
  done < <(awk -f "$script/sizes.awk" "$input" 2>/dev/null)
}
