# Which program answers: the proved one, or the kit's unproved run of the same sources where it isn't built.

# the program of the planner and that of the picture
programs="lock_main lock_picture"
is_program() { [[ " $programs " == *" $1 "* ]]; }
program_of() { if is_installed; then echo "$top/programs/$1"; else echo "$top/crates/$1/out/$1"; fi; }

# whether both programs are proved and built, of sources that are no newer
are_built() {
  local name
  for name in $programs; do
    program=$(program_of "$name")
    [ -x "$program" ] && [ -z "$(newer_source)" ] || return 1
  done
}

# sets the program that answers
use_program() {
  crate=$top/crates/$1
  program=$(program_of "$1")
}

# the first source that is newer than the program, or nothing
newer_source() {
  find "$top"/crates/*/src "$top"/crates/*/specs "$top/crates.txt" -newer "$program" -print -quit 2>/dev/null
}

# sets run, the words that start the program; fails where no program can answer
choose_program() {
  local newer reason
  if [ -n "${GLOCK_PROGRAM-}" ]; then
    run=("$GLOCK_PROGRAM")
    [ -f "$GLOCK_PROGRAM" ] && [ -x "$GLOCK_PROGRAM" ] || { say "GLOCK_PROGRAM names no program: $GLOCK_PROGRAM"; return 69; }
    return
  fi
  run=("$program")
  if is_installed; then
    has_proved_programs || say "not the proved program: what is installed here was built by the kit's unproved run of commit $(commit)"
    return
  fi
  has_sources || [ -x "$program" ] || { choose_nothing; return; }
  reason="the proved program isn't built yet"
  if [ -x "$program" ]; then
    newer=$(newer_source)
    [ -n "$newer" ] || return 0
    reason="${newer#"$top"/} is newer than the proved program"
  fi
  choose_unproved "$reason"
}

has_sources() { [ -f "$top/crates.txt" ] && [ -d "$crate/src" ]; }

# Who copied the script alone has neither; wrong words are told all the same.
choose_nothing() {
  run=(unproved_run)
  [ -z "$wrong" ] || return 0
  say_no_sources
  return 69
}

say_no_sources() {
  say "neither the programs of glock nor their sources are in $top; take the whole repository, or a copy that ./glock install made"
}

# the program that an unproved run of these sources left, or a new run of the kit, or without the kit an older proved program
choose_unproved() {
  if use_kept_program "$1"; then return 0; fi
  if ! has_kit; then
    [ -x "$program" ] && say "$1, and the kit isn't here to build it anew; the older proved program answers" && return 0
    run=(unproved_run)
    [ -z "$wrong" ] || return 0
    say_no_kit "$1"
    return 69
  fi
  run=(unproved_run)
  [ -n "$wrong" ] || make_trial_folder "$1"
}

# the kit that the sources are proved with, as the README names it
kit_of_sources() {
  if is_installed; then sed -n 's/^kit //p' "$top/BUILD"; return; fi
  sed -n '/proved with `rattle-kit/{s/.*proved with `\([^`]*\)`.*/\1/p;q}' "$top/README.md" 2>/dev/null | grep . || echo "a kit that README.md would name"
}
is_kit_of_sources() { [ "$(rt version)" = "$(kit_of_sources)" ]; }

has_kit() { command -v rt >/dev/null; }

say_no_kit() {
  say "$1, and the Rattle kit isn't on this machine. The kit is the compiler and prover of the language in which glock is written;" \
    "its command rt proves and builds the program, and is looked for in the folders of PATH. README.md tells more." \
    "A copy that ./glock install made on another machine of this kind needs no kit"
}

# the commit of these files, where they lie in a repository of their own
commit() {
  local root
  if is_installed; then sed -n 's/^commit //p' "$top/BUILD"; return; fi
  root=$(git -C "$top" rev-parse --show-toplevel 2>/dev/null)
  if [ -z "$root" ] || ! [ "$root" -ef "$top" ]; then
    echo unknown
  elif [ -z "$(git -C "$top" status --porcelain -uno)" ]; then
    git -C "$top" rev-parse --short HEAD
  else
    echo "$(git -C "$top" rev-parse --short HEAD) with later changes"
  fi
}
