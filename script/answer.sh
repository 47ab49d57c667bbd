# Hands on the program's answer: to standard output, or to the file of -o.

# before the program runs: whether the file of -o can be written; sets written_file to the file behind a link
output_is_free() {
  local file
  [ -n "$output" ] || return 0
  in_place=false written_file=$output
  ! is_stream || return 0
  written_file=$(readlink -m -- "$output")
  [ ! -d "$written_file" ] || { say "$output is a folder; -o needs the name of a file"; return 1; }
  [ -d "${written_file%/*}/" ] || { say "there is no folder for the file $output"; return 1; }
  [ ! -e "$written_file" ] || [ -w "$written_file" ] || { say "$output can't be written: no permission"; return 1; }
  for file in "${files[@]}"; do
    [ ! "$file" -ef "$written_file" ] || { say "$file is read, so -o must name another file"; return 1; }
  done
  if is_special; then return 0; fi
  if has_more_names; then in_place=true; return 0; fi
  # The answer is written beside the file and then moved, so that the file is whole or stays as it was.
  part_file=$written_file.part.$$
  : 2>/dev/null >"$part_file" || { part_file=; can_be_filled; }
}

# a stream that the script was given, such as /dev/stdout
is_stream() { [[ $written_file =~ ^(/dev/std(out|err)|(/dev|/proc/self)/fd/[0-9]+)$ ]]; }

# a device or a pipe, which is written as it is
is_special() { [ -e "$written_file" ] && [ ! -f "$written_file" ]; }

# A file that is known by other names too, or is another user's, keeps them, so what it holds is replaced in its place.
has_more_names() { [ -f "$written_file" ] && { [ "$(stat -c %h -- "$written_file")" -gt 1 ] || [ ! -O "$written_file" ]; }; }

# where nothing new can be made in a folder, a file that is there can still be filled
can_be_filled() {
  if [ -f "$written_file" ]; then in_place=true; else say "the folder of $output can't be written in"; return 1; fi
}

# sets is_written; an answer that can't be handed on whole is a write fault, as it is for the program
give_answer() {
  is_written=false not_written=
  # The program wrote into the script's own folder.
  if [ "$status" = 5 ]; then not_written="$(temporary_folder); it may be full"; fi
  if is_replanned && $as_plan_text; then
    answer=$room/new.plan
  elif [ -n "$clock" ]; then
    show_times_of_day
  elif [ "$command" = picture ]; then
    title_page
  fi
  if [ -n "$output" ] && is_what_was_asked; then
    write_output && is_written=true || fail_to_write "$output"
  else
    cat "$answer" 2>"$room/why" || fail_to_write "standard output"
  fi
}

fail_to_write() {
  status=5
  not_written="$1$(sed -n 's/.*: /: /p;q' "$room/why")"
}

write_output() {
  if is_stream; then
    fill_stream
  elif is_special || $in_place; then
    cat "$answer" >"$written_file"
  else
    cat "$answer" >"$part_file" && keep_mode && mv -f "$part_file" "$written_file" && part_file=
  fi 2>"$room/why"
}

fill_stream() {
  case $written_file in
    /dev/stdout) cat "$answer" ;;
    /dev/stderr) cat "$answer" >&2 ;;
    *) cat "$answer" >&"${written_file##*/}" ;;
  esac
}

keep_mode() { [ ! -e "$written_file" ] || chmod --reference="$written_file" "$part_file"; }

# A report is no dossier: where a dossier was asked for, and the search for it ended too early, no file is written.
is_what_was_asked() {
  case $status in
    0 | 1) ! has_word --dossier || has_word --keep || is_dossier ;;
    *) return 1 ;;
  esac
}

has_word() { [[ " ${program_words[*]} " == *" $1 "* ]]; }
is_dossier() { [ "$(head -c 6 "$answer" | tr -d '\0')" = "glock " ]; }

# the minutes of a report or of a day as times of day
show_times_of_day() {
  case $status in
    0 | 1) if ! is_dossier; then times_of_day; fi ;;
  esac
}

times_of_day() { awk -v begin="$clock" -f "$script/time_of_day.awk" -f "$script/clock.awk" "$answer" >"$room/clock" && answer=$room/clock; }
