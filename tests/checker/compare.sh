#!/usr/bin/env bash
# compare.sh GLOCK [DOSSIER ..]: compares a glock program with the second checker on dossiers that it writes, or on the
# given ones, and on damaged copies of them. Prints `N equal, M different`; the status is 0 where nothing differs.
[ $# -ge 1 ] && [ -x "$1" ] || { echo "usage: compare.sh GLOCK [DOSSIER ..], GLOCK being the path of a program" >&2; exit 2; }
exec python3 "$(dirname "$0")/compare.py" "$@"
