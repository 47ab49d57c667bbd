# A line for each day of a folder, of the reports that lie beside the locks; what differs between two plans; and what stands in a
# dossier.

# table [--csv] FOLDER or FILES
table() {
  local is_csv=false file open=0
  local -a days=() rows=()
  for file in "$@"; do
    case $file in
      --csv) is_csv=true ;;
      -*) say "table takes --csv, and the names of folders and files, and not \"$file\""; return 2 ;;
      *) [ -e "$file" ] || { say "there is no file \"$file\""; return 2; }; add_days "$file" ;;
    esac
  done
  [ ${#days[@]} -gt 0 ] || { say "table needs a folder with files such as monday.lock and monday.report, or such files"; return 2; }
  for file in "${days[@]}"; do
    rows+=("$(row_of_day "$file")")
    [[ ${rows[-1]} =~ $'\t'(optimal|legal)$'\t' ]] || open=1
  done
  printf '%s\n' "${rows[@]}" | awk -F '\t' -v csv=$is_csv -f "$script/table_lines.awk" 2>/dev/null || { say "write fault: not all of the table could be written"; return 5; }
  return $open
}

# of a folder each lock, and each report that has no lock; else the file itself
add_days() {
  local file
  if [ ! -d "$1" ]; then days+=("$1"); return; fi
  for file in "${1%/}"/*.lock "${1%/}"/*.report; do
    if [ -e "$file" ] && { [[ $file == *.lock ]] || [ ! -e "${file%.report}.lock" ]; }; then days+=("$file"); fi
  done
}

# the day of a lock is its report, which lies beside it; any other file is a report itself
row_of_day() {
  local report=$1 row=
  if [[ $1 == *.lock ]]; then report=${1%.lock}.report; fi
  if [ -r "$report" ]; then row=$(awk -f "$script/table.awk" "$report"); fi
  if [ -z "$row" ] && [ -s "$report" ]; then
    say_at "$report" "warning: no whole report, so its day counts as one without"
  elif [ -n "$row" ] && [ "$1" -nt "$report" ]; then
    say_at "$report" "warning: older than $1"
  fi
  printf '%s\t%s' "$1" "${row:-no report$(printf '\t-%.0s' {1..7})}"
}

# changes OLD NEW
changes() {
  local file
  [ $# = 2 ] || { say "changes needs two reports or plans, the old one and the new one"; return 2; }
  for file in "$@"; do can_be_read "$file" || return; done
  awk -v first="$1" -v second="$2" -f "$script/time_of_day.awk" -f "$script/changes.awk" </dev/null
  case $? in
    0) return ;;
    1) say_at "$1" "this is no report and no plan: it has no lockage" ;;
    2) say_at "$2" "this is no report and no plan: it has no lockage" ;;
    3) say "one of $1 and $2 has times of day and the other minutes; make both reports with --clock, or both without" ;;
    *) return 5 ;;
  esac
  return 10
}

# stats DOSSIER; without it, or as -, standard input
stats() {
  local name="standard input"
  [ $# -le 1 ] && [[ ${1-} != -?* ]] || { say "stats takes the name of one dossier"; return 2; }
  if [ "${1--}" != - ]; then
    can_be_read "$1" || return
    name=$1
    exec <"$1"
  elif [ -t 0 ] && [ $# = 0 ]; then
    tell_of_keyboard stats
  fi
  LC_ALL=C awk -f "$script/stats.awk"
  case $? in
    0) ;;
    1) say_at "$name" "this is no dossier: no certificate follows the instance's line end"; return 7 ;;
    2) say_at "$name" "this dossier is damaged or cut off: its certificate has not all its parts"; return 7 ;;
    *) return 5 ;;
  esac
}

can_be_read() {
  [ -e "$1" ] || { say "there is no file \"$1\""; return 2; }
  [ ! -d "$1" ] && [ -r "$1" ] || { say "$1 can't be read"; return 66; }
}
