# What the script says goes to standard error, one line at a time.

# What is installed is called by its name alone.
me=./glock
if is_installed; then me=glock; fi

say() {
  local text=$*
  printf 'glock: %s\n' "${text//.\/glock/$me}" >&2
}

# a message that belongs to a place: a file, or a file and a line
say_at() {
  local place=$1 text
  shift
  text=$*
  printf '%s: %s\n' "$place" "${text//.\/glock/$me}" >&2
}

# the sentence of sentences.txt with this key, or nothing
sentence_of() { sed -n "s/^$1 | //p" "$script/sentences.txt"; }

minutes() { printf '%d:%02d min' $(($1 / 60)) $(($1 % 60)); }

# A folder of our own for what is kept while the program runs; it goes when the script ends.
make_workroom() {
  room=$(mktemp -d 2>/dev/null) || { say "$(temporary_folder) can't be written in or is full"; exit 73; }
  trap leave EXIT
}

temporary_folder() { echo "the folder for temporary files (${TMPDIR:-/tmp}, which TMPDIR names)"; }

# whether that folder is full, so that what was kept in it is cut off
room_is_full() {
  ! head -c 4096 /dev/zero 2>/dev/null >"$room/probe"
} 2>/dev/null

leave() {
  rm -rf "$room"
  [ -z "${part_file-}" ] || rm -f "$part_file"
  [ -z "${trial-}" ] || rm -rf "$trial"
}

# Ends the script by the signal that it got, so that a shell whose loop it is in ends too.
die_by() {
  [ -z "${room-}" ] || leave
  trap - EXIT "$1"
  kill -s "$1" $$
}
