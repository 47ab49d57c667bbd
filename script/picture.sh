# The picture has a program of its own, which takes the clock and the minute that it is itself.

# sets the program and program_words for `picture`; shown_clock is the clock that it was given
use_picture() {
  [ "$command" = picture ] || return 0
  use_program lock_picture
  GLOCK_PROGRAM=${GLOCK_PICTURE-}
  part_now
  if [ -n "$clock" ]; then program_words+=(--clock "$clock"); fi
  shown_clock=$clock clock=
}

# The program of the picture takes --now and its minute as two words.
part_now() {
  local word words=()
  for word in "${program_words[@]}"; do
    case $word in
      --now=*) words+=(--now "${word#*=}") ;;
      *) words+=("$word") ;;
    esac
  done
  program_words=("${words[@]}")
}

# The program isn't told of files and days: the script puts the title into the head of its page, and as a line above the heading.
# All else of the page stays as the program wrote it.
title_page() {
  [ "$status" = 0 ] || return 0
  page_title=$(shown_title | tr -d '\000-\037' | sed 's/&/\&amp;/g; s/</\&lt;/g; s/>/\&gt;/g') LC_ALL=C \
    awk '
      !in_head && index($0, "<title>glock: ") == 1 { in_head = 1; print "<title>" ENVIRON["page_title"] ": " substr($0, 15); next }
      !above && index($0, "<h1>") == 1 { above = 1; print "<p class=\"sub\"><b>" ENVIRON["page_title"] "</b></p>" }
      { print }
    ' "$answer" >"$room/page" && answer=$room/page
}

# what --title says, or else the names of the files and the date
shown_title() {
  local file names=
  if [ -n "$title" ]; then
    printf '%s' "$title"
    return
  fi
  for file in "${files[@]}"; do
    if [ -f "$file" ]; then names+="${file##*/}, "; fi
  done
  printf '%s%s' "$names" "$(date +%F)"
}
