# What --stats says at the end, on standard error: the time that the program took, the numbers of its search, and what stands in
# a dossier that it printed.

# before the program runs, and after it
begin_stats() { note_times begun; }
end_stats() {
  note_times ended
  if $wants_stats; then exact=$(exact_numbers); fi
}

# A subshell has times of its own, so they are written to a file.
note_times() {
  $wants_stats || return 0
  times >"$room/$1"
  echo "${EPOCHREALTIME:-$SECONDS}" >>"$room/$1"
}

# from the first to the second file: milliseconds by the clock, and of the processor of all that the script started and that ended
times_between() {
  LC_ALL=C awk '
    { gsub(/,/, ".") }
    FNR == 2 { for (i = 1; i <= 2; i++) { split($i, part, "m"); cpu[FILENAME] += part[1] * 60000 + part[2] * 1000 } }
    FNR == 3 { wall[FILENAME] = $1 * 1000 }
    END { printf "%d %d\n", wall[ARGV[2]] - wall[ARGV[1]], cpu[ARGV[2]] - cpu[ARGV[1]] }' "$room/begun" "$room/ended"
}

tell_stats() {
  local wall cpu
  $wants_stats && [ -z "$wrong" ] || return 0
  read -r wall cpu < <(times_between)
  say "stats seconds $(as_seconds "$wall") of the processor $(as_seconds "$cpu") workers $(count_of_workers)$exact$(last_numbers)"
  if is_dossier; then LC_ALL=C awk -f "$script/stats.awk" "$answer" | sed 's/^/glock: stats /' >&2; fi
}

as_seconds() { printf '%d.%02d' $(($1 / 1000)) $(($1 % 1000 / 10)); }

# as the program's help gives them where none are asked for
count_of_workers() {
  local i
  for ((i = 0; i < ${#program_words[@]}; i++)); do
    case ${program_words[i]} in
      --workers) echo "${program_words[i + 1]}"; return ;;
      --workers=*) echo "${program_words[i]#*=}"; return ;;
    esac
  done
  if [ "$command" = trial ]; then echo 1; else echo 2; fi
}

# What the program told as it ended of its whole search: steps, rounds of prices, cuts, and the first low, before any price.
steps_of_search() {
  local ended
  ended=$([ -z "$numbers" ] || grep -a '^ended ' "$numbers" | tail -n 1)
  [ -z "$ended" ] || echo "${ended/ended nodes/ steps}"
}

# A report tells its cost and its low, and the steps of a search that used all of them.
exact_numbers() {
  local line steps
  steps=$(steps_of_search)
  IFS= read -r line < <(tr -d '\0' <"$answer")
  if [[ $line =~ ^optimal\ cost\ ([0-9]+)$ ]]; then
    echo "; exact:$steps cost ${BASH_REMATCH[1]} low ${BASH_REMATCH[1]}"
  elif [[ $line =~ ^open\ nodes\ ([0-9]+)\ low\ ([0-9]+)\ cost\ ([0-9]+)$ ]]; then
    echo "; exact:${steps:- steps ${BASH_REMATCH[1]}} cost ${BASH_REMATCH[3]} low ${BASH_REMATCH[2]}"
  elif [[ $line =~ ^open\ turns\ .*\ low\ ([0-9]+)\ cost\ ([0-9]+)$ ]]; then
    echo "; exact:$steps cost ${BASH_REMATCH[2]} low ${BASH_REMATCH[1]}"
  elif [ -n "$steps" ]; then
    echo "; exact:$steps"
  fi
}

# A program that was stopped told its numbers last up to a second before.
last_numbers() {
  local line
  [[ $exact != *steps* ]] || return 0
  line=$([ -z "$numbers" ] || grep -a '^nodes ' "$numbers" | tail -n 1)
  line=${line/nodes/steps}
  if [ -n "$exact" ]; then line=${line% cost *}; fi
  [ -z "$line" ] || echo "; up to a second before the end: $line"
}
