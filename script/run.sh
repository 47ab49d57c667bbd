# Runs the program and keeps its answer in a file; on a terminal, or where --progress asks for it, shows how long it has been
# at work, and how far a search is.

# Only who asks for the program's numbers gets them.
unset GLOCK_PROGRESS

# sets answer and status
run_program() {
  answer=$room/answer
  limit_memory
  # A program in the background has an empty standard input, unless it is given one: that of the script, by "<&0".
  if $goes_on; then
    exec < <(cat "$input" -)
  elif [ -n "$input" ]; then
    exec <"$input"
  fi
  if asks_numbers; then
    numbers=$room/numbers
    GLOCK_PROGRESS=1 "${run[@]}" "${program_words[@]}" <&0 >"$answer" 2>"$numbers" &
  else
    numbers=
    "${run[@]}" "${program_words[@]}" <&0 >"$answer" &
  fi
  running=$!
  start_watch
  trap 'stop_program INT' INT
  trap 'stop_program TERM' TERM
  trap 'stop_program HUP' HUP
  wait "$running" 2>/dev/null
  status=$?
  end_watch
  trap - INT TERM HUP
}

# A dossier may be as long as it likes. One that is too long for the memory that is free, or never ends, makes the program
# say so, before the system ends it or another one.
limit_memory() {
  local free given
  reads_dossier "$command" && ! has_address_checks || return 0
  free=$(free_memory) given=$(ulimit -S -d)
  [ -n "$free" ] && { [ "$given" = unlimited ] || [ "$given" -gt "$free" ]; } || return 0
  ulimit -S -d "$free" 2>/dev/null
}

# An unproved program keeps a note of each address, for which it asks more than any machine has.
has_address_checks() { is_unproved_run || [ "${run[-1]%/*}" = "$kept_folder" ] || { is_installed && ! has_proved_programs; }; }

# in KB: what the machine has free, and no more than what is left to the group of processes that the script is in
free_memory() {
  local most used free
  free=$(awk '/^(MemAvailable|SwapFree):/ { free += $2 } END { if (free) print int(free * 15 / 16) }' /proc/meminfo 2>/dev/null)
  if { read -r most </sys/fs/cgroup/memory.max && read -r used </sys/fs/cgroup/memory.current; } 2>/dev/null && [ "$most" != max ]; then
    most=$(((most - used) / 1024 * 15 / 16))
    if [ -z "$free" ] || [ "$most" -lt "$free" ]; then free=$most; fi
  fi
  echo "$free"
}

# The kit's run builds the program first, which is shown in their place.
asks_numbers() { searches "$command" && ! is_unproved_run && { shows_progress || $wants_stats; }; }
shows_progress() { $wants_progress || [ -t 2 ]; }

# Who stops the script stops the program, and the script ends by the same signal.
stop_program() {
  kill "$running" 2>/dev/null
  wait "$running" 2>/dev/null
  end_watch
  die_by "$1"
}

# Without traps: a watch that is stopped before it has begun would follow them, and take the script's folder away.
start_watch() {
  watch= begun=${begun:-$SECONDS}
  trap - EXIT
  if is_unproved_run; then
    watch_build &
    watch=$!
  elif shows_progress; then
    show_progress &
    watch=$!
  fi
  trap leave EXIT
  [ -z "$watch" ] || disown "$watch"
}

end_watch() {
  if [ -n "$watch" ]; then
    kill "$watch" 2>/dev/null
    watch=
    if [ -t 2 ] && [ $((SECONDS - begun)) -ge 1 ]; then printf '\r\033[K' >&2; fi
  fi
  # what the program said beside its numbers
  [ -z "$numbers" ] || grep -Eav '^(nodes|ended) ' "$numbers" >&2
}

# Who reads what the script writes doesn't wait for a last sleep.
show_progress() {
  sleep 2 >/dev/null 2>&1
  while :; do
    if [ -t 2 ]; then printf '\r\033[Kglock: %s' "$(progress)" >&2; else say "$(progress)"; fi
    sleep 1 >/dev/null 2>&1
  done
}

# The time gone, and the last numbers of the program, if there are any; the gap is rounded up, so that only a proof has 0.00.
progress() {
  local gone line gap=0
  gone=$(minutes $((SECONDS - begun)))
  line=$([ -z "$numbers" ] || grep -a '^nodes ' "$numbers" | tail -n 1)
  if ! [[ $line =~ ^nodes\ ([0-9]+)\ cost\ ([0-9]+)\ low\ ([0-9]+)$ ]]; then
    echo "at work for $gone"
    return
  fi
  local nodes=${BASH_REMATCH[1]} cost=${BASH_REMATCH[2]} low=${BASH_REMATCH[3]}
  if [ "$cost" -gt "$low" ]; then gap=$((((cost - low) * 10000 + cost - 1) / cost)); fi
  printf '%s, steps %d, cost %d, low %d, gap %d.%02d %%\n' "$gone" "$nodes" "$cost" "$low" $((gap / 100)) $((gap % 100))
}
