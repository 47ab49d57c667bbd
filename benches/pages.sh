#!/usr/bin/env bash
# Validates pages of the picture: benches/pages.sh PROGRAM PICTURE, the built programs of the planner and of the picture.
# It needs tidy and, for the second opinion, html5lib with /usr/bin/python3 (the Debian packages tidy and python3-html5lib),
# so it is no part of the gate. A line for each page: its first words, and the complaints of either.
set -u
program=$(readlink -m "${1:-}") picture=$(readlink -m "${2:-}")
[ -f "$program" ] && [ -x "$program" ] && [ -f "$picture" ] && [ -x "$picture" ] || { echo "usage: pages.sh PROGRAM PICTURE, two built programs" >&2; exit 2; }
for tool in tidy /usr/bin/python3; do command -v $tool >/dev/null || { echo "pages.sh: there is no $tool" >&2; exit 69; }; done
examples=$(cd "$(dirname "$0")/../examples" && pwd)
room=$(mktemp -d)
trap 'rm -rf "$room"' EXIT
cd "$room" || exit 1

# a page of what standard input has
page() { "$picture" picture "${@:2}" >"$1.html"; }

dossier() { "$program" solve --dossier; }
cat "$examples"/evening.lock "$examples"/evening.plan | page evening-plan
for lock in one-ship evening closures-and-cargo; do dossier <"$examples/$lock.lock" | page "$lock" --clock 17:00; done
for lock in queue-16 queue-24; do dossier <"$examples/$lock.lock" | page "$lock"; done
"$program" solve --nodes 50 --keep <"$examples/two-chambers.lock" | page two-chambers-open
"$program" lot --number 3 --ships 24 --chambers 4 | dossier | page lot-24-on-4

strict='import sys, html5lib; p = html5lib.HTMLParser(); p.parse(open(sys.argv[1], "rb").read()); print(len(p.errors))'
for file in *.html; do
  name=$(sed -n 's/^<h1>\(.*\)<\/h1>$/\1/p' "$file")
  echo "${file%.html}: $name: tidy $(tidy -e -q --gnu-emacs yes "$file" 2>&1 | grep -c .), html5lib $(/usr/bin/python3 -c "$strict" "$file")"
done
