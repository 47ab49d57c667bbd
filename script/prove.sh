# Proves and builds the programs with all processors, and says how far it is: by the kit's gate, over a copy that holds
# only the crates of the programs; or, where the gate can keep nothing, each crate by itself.

prove() {
  local log=$top/out/prove.log begin=$top/out/prove.begin name way=prove_by_gate
  [ $# = 0 ] || { say "prove takes no other words"; return 2; }
  ! is_installed || { say "this copy is installed, and has no sources to prove; prove in the repository that it came from"; return 69; }
  has_sources || { say_no_sources; return 69; }
  has_kit || { say_no_kit "proving needs the kit"; return 69; }
  if are_built; then
    say "the program is proved and built already"
    return
  fi
  mkdir -p "$top/out" && : >"$log" && : >"$begin" || { say "$top/out can't be written in"; return 73; }
  is_kit_of_sources || say "this machine's kit is $(rt version), and the sources were proved with $(kit_of_sources); a proof may fail"
  if ! gate_keeps; then
    way=prove_crates
    say "the kit's gate can't keep what it proves, so each crate is proved by itself"
  fi
  say "proving the crates of the program; this may take an hour or more. What is proved is kept if you stop"
  $way "$log" || return 70
  # A source that was changed since the start is newer than the program.
  for name in $programs; do touch -r "$begin" "$(program_of "$name")"; done
  rm -rf "$kept_folder"
  say "the program is proved and built, $(minutes "$SECONDS") after the start; ./glock answers by it from now on"
}

# What the gate proves it keeps beside the kit. Who may not write there would prove all anew after each stop, and so would
# who has a kit whose gate keeps nothing.
gate_keeps() {
  local command kit
  command=$(readlink -f "$(command -v rt)")
  kit=$(dirname "${command%/bin/*}")
  grep -q rattle-kept "$command" || return
  if [ -e "$kit/rattle-kept" ]; then [ -d "$kit/rattle-kept" ] && [ -w "$kit/rattle-kept" ]; else [ -w "$kit" ]; fi
}

# The gate takes no checkout in which a second one lies, so the copy goes however the run ends.
prove_by_gate() {
  local copy=$top/out/prove status
  rm -rf "$copy"
  trap 'stop_gate INT' INT
  trap 'stop_gate TERM' TERM HUP
  copy_crates "$copy" || { rm -rf "$copy"; say "$copy can't be written in"; return 1; }
  (cd "$copy" && exec rt ci) >"$1" 2>&1 </dev/null &
  running=$!
  follow_gate "$1"
  wait "$running"
  status=$?
  if [ $status = 0 ]; then take_programs "$copy" || status=1; fi
  [ $status = 0 ] || say_refused "$1"
  rm -rf "$copy"
  trap - INT TERM HUP
  return $status
}

# The kit ends its provers where it is ended itself.
stop_gate() {
  [ -z "${running-}" ] || { kill "$running" && wait "$running"; } 2>/dev/null
  # A prover that is just ending may still write there.
  rm -rf "$top/out/prove" 2>/dev/null || { sleep 1; rm -rf "$top/out/prove"; }
  say "stopped; ./glock prove goes on from what is proved"
  die_by "$1"
}

# crates.txt, HANDLES and the crates of the programs as a checkout of their own, without tests and planted bugs
copy_crates() {
  local name part
  mkdir -p "$1/.git" "$1/crates" || return
  cp "$top/HANDLES" "$1" || return
  for name in $(crates_of_programs); do
    mkdir "$1/crates/$name" || return
    grep -E "^${name}[ :]" "$top/crates.txt" >>"$1/crates.txt"
    for part in src specs proofs stdin stdout args status data; do
      [ ! -e "$top/crates/$name/$part" ] || cp -R "$top/crates/$name/$part" "$1/crates/$name" || return
    done
  done
}

# While the gate runs: a line for each crate that it has proved. What it had kept goes quickly, and tells nothing of the time left.
follow_gate() {
  local line name bytes all=0 new=0 kept=0 number=0 told=$SECONDS is_over=false log
  local -A sizes=()
  while read -r name bytes; do
    sizes[$name]=$bytes all=$((all + bytes))
  done < <(crates_with_sizes)
  exec {log}<"$1"
  while :; do
    while read -r line <&"$log"; do
      name=$(proved_crate "$line")
      [ -n "$name" ] && [ -n "${sizes[$name]-}" ] || continue
      number=$((number + 1))
      if [[ $line == *" is kept: "* ]]; then kept=$((kept + sizes[$name])); else new=$((new + sizes[$name])); fi
      printf 'glock: %2d of %d  %-20s %s gone%s\n' $number ${#sizes[@]} "$name" "$(minutes "$SECONDS")" \
        "$(time_left "$new" $((all - kept)))" >&2
      told=$SECONDS
    done
    if [ $((SECONDS - told)) -ge 60 ]; then
      say "at work on the next; $number of ${#sizes[@]} are proved, $(minutes "$SECONDS") gone$(time_left "$new" $((all - kept)))"
      told=$SECONDS
    fi
    ! $is_over || break
    if kill -0 "$running" 2>/dev/null; then sleep 1; else is_over=true; fi
  done
  exec {log}<&-
}

# the crate of a line of the gate such as `rt: lock_rules proved` or `rt: lock_rules is kept: ..`
proved_crate() { sed -n -E 's/^rt: ([a-z0-9_]+) (proved$|is kept: .*)/\1/p' <<<"$1"; }

take_programs() {
  local name made
  for name in $programs; do
    made=$1/crates/$name/out/$name
    [ -x "$made" ] && mkdir -p "$top/crates/$name/out" && rm -f "$(program_of "$name")" && cp "$made" "$(program_of "$name")" || return
  done
}

say_refused() {
  local crate_name
  tail -n 20 "$1" >&2
  crate_name=$(sed -n -E 's/^rt: FAILED: //p' "$1")
  say "${crate_name:-the program} could not be proved or built; all that the kit said is in $1"
}

# Where the gate keeps nothing: each crate by itself, which keeps it, beside others that don't stand on it.
prove_crates() {
  local log=$1 name bytes all=0 new=0 number=0 told=$SECONDS room=$top/out/prove lanes
  local -A sizes=() proved=() running=()
  local -a order=()
  while read -r name bytes; do
    order+=("$name") sizes[$name]=$bytes all=$((all + bytes))
  done < <(crates_with_sizes)
  lanes=$(provers)
  rm -rf "$room" && mkdir "$room" || return
  trap 'stop_provers INT' INT
  trap 'stop_provers TERM' TERM HUP
  while [ $number -lt ${#order[@]} ]; do
    for name in "${order[@]}"; do
      [ ${#running[@]} -lt "$lanes" ] || break
      [ -z "${proved[$name]-}${running[$name]-}" ] && can_begin "$name" || continue
      begin_crate "$name" "$room" </dev/null &
      running[$name]=$!
    done
    sleep 0.2
    for name in "${!running[@]}"; do
      ! kill -0 "${running[$name]}" 2>/dev/null || continue
      cat "$room/$name.log" >>"$log"
      ended_well "$name" "${running[$name]}" "$room" || { end_provers; say_unproved "$name" "$log"; return 1; }
      unset "running[$name]"
      proved[$name]=yes number=$((number + 1)) new=$((new + sizes[$name])) told=$SECONDS
      printf 'glock: %2d of %d  %-20s %s gone%s\n' $number ${#order[@]} "$name" "$(minutes "$SECONDS")" "$(time_left "$new" "$all")" >&2
    done
    if [ $((SECONDS - told)) -ge 60 ]; then
      say "at work on ${!running[*]}; $number of ${#order[@]} are proved, $(minutes "$SECONDS") gone$(time_left "$new" "$all")"
      told=$SECONDS
    fi
  done
  rm -rf "$room"
  trap - INT TERM HUP
}

# how many provers at once: one for each processor, and for each three gigabytes of memory
provers() {
  local processors memory
  processors=$(grep -c '^processor' /proc/cpuinfo)
  memory=$(awk '/^MemAvailable:/ { print int($2 / 3000000) }' /proc/meminfo)
  echo $((memory < 1 ? 1 : memory < processors ? memory : processors))
}

# whether all crates that one uses are proved
can_begin() {
  local name
  for name in $(uses_of "$1"); do
    [ -z "${sizes[$name]-}" ] || [ -n "${proved[$name]-}" ] || return 1
  done
}

uses_of() { sed -n -E "s/^$1( [^:]*)?:([^#]*).*/\2/p" "$top/crates.txt"; }

# A library is built; a program is built and run, on a word that ends it at once.
begin_crate() {
  cd "$top/crates/$1" || return
  if is_program "$1"; then
    exec rt run -- '?' >"$2/$1.said" 2>"$2/$1.log"
  else
    exec rt lib >"$2/$1.log" 2>&1
  fi
}

ended_well() {
  local status=0
  wait "$2" || status=$?
  if is_program "$1"; then
    [ "$(<"$3/$1.said")" = "bad words" ] && [ -x "$(program_of "$1")" ]
  else
    return $status
  fi
}

# The kit ends its provers where it is ended itself.
end_provers() {
  [ ${#running[@]} = 0 ] || { kill "${running[@]}" && wait "${running[@]}"; } 2>/dev/null
  rm -rf "$top/out/prove"
  trap - INT TERM HUP
}

stop_provers() {
  end_provers
  say "stopped; ./glock prove goes on from what is proved"
  die_by "$1"
}

say_unproved() {
  tail -n 20 "$2" >&2
  say "$1 could not be proved or built; all that the kit said is in $2"
}

# the programs and the crates below them with the bytes of their files
crates_with_sizes() {
  crates_of_programs | while read -r name; do
    echo "$name $(bytes_of "$top/crates/$name/src" "$top/crates/$name/specs" "$top/crates/$name/proofs")"
  done
}

# the programs and the crates below them, each crate after those that it uses
crates_of_programs() {
  awk '
    { sub(/#.*/, "") }
    NF { name = $1; sub(/:.*/, "", name); names[++count] = name; uses[name] = $0; sub(/^[^:]*:/, "", uses[name]) }
    function mark(name,    parts, i, n) {
      if (!(name in uses) || name in wanted) return
      wanted[name] = 1
      n = split(uses[name], parts, " ")
      for (i = 1; i <= n; i++) mark(parts[i])
      print name
    }
    END { n = split(programs, parts, " "); for (i = 1; i <= n; i++) mark(parts[i]) }' programs="$programs" "$top/crates.txt"
}

bytes_of() { find "$@" -type f -exec cat {} + 2>/dev/null | wc -c; }

time_left() {
  if [ "$1" -gt 0 ] && [ "$SECONDS" -gt 10 ]; then echo ", about $(minutes $((SECONDS * ($2 - $1) / $1))) left"; fi
}
