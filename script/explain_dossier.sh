# What a refused or rejected dossier means.

explain_dossier() {
  case $1 in
    "dossier fault 1 "*)
      explain_line instance "${parts[5]}" "${parts[7]}" "${parts[8]}"
      # Of a pipe the script keeps no dossier to look at.
      [ -n "$input" ] || [ "${parts[8]}" != NoHeader ] || say "perhaps what stands before this command in the pipe made no dossier, or one that begins with a byte order mark"
      ;;
    "dossier fault 4 "*) say_at "$first_name" "fault 4 Shape: $(sentence_of "shape ${parts[5]}")" ;;
    "dossier fault "*)
      say_at "$first_name" "fault ${parts[2]} ${parts[3]}: $(sentence_of "dossier ${parts[3]}$(form_of_dossier)")$(other_kind)$(second_file)"
      ;;
    "rejected "*) explain_rejection "$1" ;;
  esac
}

# rejected <place> reason <number> <reason>
explain_rejection() {
  local place=${1#rejected } reason=${1##* }
  say_at "$first_name" "rejected at ${place%% reason *}: $(sentence_of "rejected $reason") Nothing is shown by this dossier."
}

# which form of a dossier the command reads, for the sentence on its line
form_of_dossier() {
  [ "${parts[3]}" != NoMark ] || { if [ "$command" = check ]; then echo " whole"; else echo " open"; fi; }
}

# what was read as a part of a dossier
second_file() {
  [ -z "$second_name" ] || printf ' A dossier is given alone, and %s was read as a part of it.' "$second_name"
}

# A whole dossier and an open one are easily mixed up, and an instance alone is none.
other_kind() {
  [ -n "$input" ] && [ "${parts[3]}" = NoMark ] || return 0
  if ends_with_instance; then
    printf ' Nothing follows that line: ./glock solve makes a dossier, by --dossier or --keep.'
    return
  fi
  if [ "$command" = check ] && grep -q '^certificate open' "$input"; then
    printf ' This is an open dossier: ./glock lower, resume or picture reads it.'
  elif [ "$command" != check ] && grep -Eq '^certificate( [0-9])?\s*$' "$input"; then
    printf ' This dossier is of a search that is over: ./glock check or picture reads it.'
  fi
}

# whether no line with words follows the instance
ends_with_instance() {
  awk -v last="$(end_of_instance)" '{ sub(/\r$/, ""); sub(/#.*/, "") } NR > last && NF { exit 1 }' "$input"
}
