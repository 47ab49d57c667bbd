# What `install` copies works elsewhere, without kit and sources; the manual page and the completions are made of help.
# (After kit.sh, whose fresh copy it takes.)

rm -rf "$fresh"/crates/*/out "$fresh/out"
kit install "$room/none"
check "nothing is built" gives 69 "" "the programs aren't built here yet: ./glock prove builds them"
kit install
check "no folder" gives 2 "" "install needs the name of one folder"
check "nothing is installed" [ ! -e "$room/none" ]

# what the unproved runs left, and then what is proved
kit solve evening.lock
kit picture evening.lock evening.plan
kit install "$room/inst"
check "installed unproved" gives 0 "" "inst/bin/glock is installed, with programs that are unproved"

# glock as it was installed in a folder, from another place and without the kit
installed() {
  (cd "$room/folder" && PATH=$room/tools GLOCK_PROGRAM= GLOCK_PICTURE= "$room/$1/bin/glock" "${@:2}" >../out 2>../err </dev/null)
  status=$?
  out=$(<"$room/out") err=$(<"$room/err")
}
mkdir -p "$room/folder"
installed inst solve ../evening.lock
check "an installed unproved program" gives 0 "optimal cost 270" "not the proved program: what is installed here"
installed inst --version
check "its version" gives 0 "the programs are not proved: the kit's unproved run built them" ""

kit prove
kit --version
check "the version of what is proved" gives 0 "the programs are proved and built" ""
check "the version's number" holds "$out" "glock $(head -n 1 "$top/VERSION")"
kit install "$room/inst"
check "installed over an older one" gives 0 "" "with programs that are proved"
mv "$room/inst" "$room/moved"
in_moved() {
  installed moved $1
  check "installed: $1" gives "$2" "$3" "${4-}"
}
rows in_moved <<'ROWS'
solve ../evening.lock | 0 | optimal cost 270 |
solve ../bad.lock | 3 | line 9 fault 4 Count | ../bad.lock:9: fault 4 Count
solve --nodes x | 2 | bad words | --nodes takes
judge ../evening.lock ../evening-early.plan | 10 | illegal lockage 3 Early | evening-early.plan:7: lockage 3 Early
--version | 0 | the programs are proved and built |
help solve | 0 | glock solve [FILE] [options] |
prove | 69 | | this copy is installed, and has no sources to prove
install ../again | 0 | | ../again/bin/glock is installed, with programs that are proved
ROWS
installed again solve ../evening.lock
check "a copy of a copy" gives 0 "optimal cost 270" ""
installed moved help play
check "its help calls it by its name" [ -z "$(grep -F ./glock "$room/out")" ]

mkdir -p "$room/foreign/bin" && echo mine >"$room/foreign/bin/glock"
kit install "$room/foreign"
check "a file that isn't ours" gives 73 "" "bin/glock is there and isn't ours"
check "it stays" [ "$(<"$room/foreign/bin/glock")" = mine ]

check "a manual page" grep -q '^\.SH REPLAN$' "$room/moved/share/man/man1/glock.1"
completed() {
  COMP_WORDS=($1) COMP_CWORD=$((${#COMP_WORDS[@]} - 1))
  COMPREPLY=()
  _glock
  check "completed: $1" [ "${COMPREPLY[*]}" = "$2" ]
}
. "$room/moved/share/bash-completion/completions/glock"
rows completed <<'ROWS'
glock so | solve
glock help repl | replan
glock solve --no | --nodes
glock lot --sh | --ships
glock replan --fr | --from
glock replan --no | --now --nodes
glock replan --dr | --drop
glock replan --pl | --plan-text
ROWS
# What zsh would be handed, word by word.
if command -v zsh >/dev/null; then
  cat >"$room/hand_on.zsh" <<'ZSH'
_describe() { print -rl -- ${(P)@[-1]}; }
_files() { print files; }
words=(glock "${@[2,-1]}")
CURRENT=$#words
source $1
ZSH
  handed_on() {
    out=$(zsh -f "$room/hand_on.zsh" "$room/moved/share/zsh/site-functions/_glock" $1 2>&1)
    check "zsh: $1" holds "$out" "$2"
  }
  rows handed_on <<'ROWS'
so | solve:finds a cheapest plan
help so | solve:finds a cheapest plan
replan --n | --now:
solve x --c | --clock:
solve x | files
ROWS
else
  echo "left out: zsh isn't here, so its completions weren't tried"
fi
check "the version of CITATION.cff" grep -q "^version: $(head -n 1 "$top/VERSION")$" "$top/CITATION.cff"
