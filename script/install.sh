# Copies script, help and programs to a folder, where they answer without kit and sources; and says which version this is.

# An installed copy has the file BUILD, which tells what was installed, and the programs beside it.
is_installed() { [ -f "$top/BUILD" ]; }

# whether what is installed here was proved
has_proved_programs() { grep -q '^programs proved$' "$top/BUILD"; }

# sets status_of_programs to proved, unproved or unbuilt, and program_files to the two programs
look_at_programs() {
  local name kept
  program_files=() status_of_programs=proved sources=none
  if is_installed; then
    status_of_programs=$(sed -n 's/^programs //p' "$top/BUILD")
    for name in $programs; do program_files+=("$(program_of "$name")"); done
    return
  fi
  are_built || { status_of_programs=unproved; sources=$(sum_of_sources); }
  for name in $programs; do
    if [ $status_of_programs = proved ]; then kept=$(program_of "$name"); else kept=$kept_folder/$name.$sources; fi
    [ -x "$kept" ] || status_of_programs=unbuilt
    program_files+=("$kept")
  done
}

tell_version() {
  look_at_programs
  echo "glock $(head -n 1 "$top/VERSION" 2>/dev/null || echo unknown)"
  echo "commit $(commit)"
  case $status_of_programs in
    proved) echo "the programs are proved and built" ;;
    unproved) echo "the programs are not proved: the kit's unproved run built them, of these very sources" ;;
    *) echo "the programs are not proved here yet" ;;
  esac
  echo "the sources were proved with $(kit_of_sources)"
}

install_glock() {
  local share
  [ $# = 1 ] && [[ $1 != -* ]] || { say "install needs the name of one folder, such as ~/.local or /usr/local"; return 2; }
  is_installed || has_sources || { say_no_sources; return 69; }
  look_at_programs
  if [ $status_of_programs = unbuilt ]; then
    say "the programs aren't built here yet: ./glock prove builds them, or a first answer of ./glock solve and one of ./glock picture"
    return 69
  fi
  share=$1/share/glock
  if [ -e "$1/bin/glock" ] || [ -L "$1/bin/glock" ]; then
    [ "$(readlink "$1/bin/glock")" = ../share/glock/glock ] || { say "$1/bin/glock is there and isn't ours; it stays as it is"; return 73; }
  fi
  # What was installed before goes only once all that is new is there.
  copy_glock "$share.new" 2>/dev/null && rm -rf "$share" && mv "$share.new" "$share" && copy_pages "$1" &&
    mkdir -p "$1/bin" && ln -sf ../share/glock/glock "$1/bin/glock" || { rm -rf "$share.new"; say "$1 can't be written in"; return 73; }
  say "$1/bin/glock is installed, with programs that are $status_of_programs; it needs no kit and none of these files"
}

copy_glock() {
  rm -rf "$1"
  mkdir -p "$1/programs" && cp -R "$top/glock" "$top/script" "$top/examples" "$top/VERSION" "$1" || return
  mkdir "$1/docs" && cp "$top"/docs/*.md "$1/docs" || return
  cp "${program_files[0]}" "$1/programs/lock_main" && cp "${program_files[1]}" "$1/programs/lock_picture" || return
  chmod -R u+w,go+rX "$1"
  chmod 755 "$1/glock" "$1"/programs/*
  printf 'commit %s\nprograms %s\nkit %s\n' "$(commit)" "$status_of_programs" "$(kit_of_sources)" >"$1/BUILD"
}

# the manual page and the completions
copy_pages() {
  mkdir -p "$1/share/man/man1" "$1/share/bash-completion/completions" "$1/share/zsh/site-functions" || return
  "$script/make_pages.sh" man >"$1/share/man/man1/glock.1" && "$script/make_pages.sh" bash >"$1/share/bash-completion/completions/glock" &&
    "$script/make_pages.sh" zsh >"$1/share/zsh/site-functions/_glock"
}
