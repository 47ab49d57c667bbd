#!/usr/bin/env bash
# Tests of the script with a built program: tests/script/test.sh [PROGRAM], or GLOCK_PROGRAM, or else the program of this repository.
# Each row of a table is one call. The last line is `N passed, M failed`.
set -u
top=$(cd "$(dirname "$0")/../.." && pwd)
GLOCK_PROGRAM=$(readlink -m "${1:-${GLOCK_PROGRAM:-$top/crates/lock_main/out/lock_main}}")
# The picture has a program of its own.
GLOCK_PICTURE=$(readlink -m "${GLOCK_PICTURE:-$top/crates/lock_picture/out/lock_picture}")
export GLOCK_PROGRAM GLOCK_PICTURE
for program in "$GLOCK_PROGRAM" "$GLOCK_PICTURE"; do
  [ -x "$program" ] || { echo "no program to test with: $program"; exit 2; }
done
room=$(mktemp -d)
trap 'rm -rf "$room"' EXIT
passed=0 failed=0

# glock with the given words, in the folder of the test's files; sets status, out and err
call() {
  (cd "$room" && "$top/glock" "$@" >out 2>err)
  status=$?
  out=$(tr -d '\0' <"$room/out") err=$(<"$room/err")
}

# whether a call gave this status, an output with this text and messages with this text; an empty text asks for none
gives() {
  [ "$status" = "$1" ] && holds "$out" "$2" && holds "$err" "$3"
}

holds() { if [ -n "$2" ]; then [[ $1 == *"$2"* ]]; else [ -z "$1" ]; fi; }

# counts a test: what it is, and a command that is to succeed
check() {
  local what=$1
  shift
  if "$@"; then
    passed=$((passed + 1))
  else
    failed=$((failed + 1))
    printf 'failed: %s\n  status %s\n  out %s\n  err %s\n' "$what" "$status" "${out:0:200}" "${err:0:400}"
  fi
}

# Rows are `first | second | ..`; the function gets the parts of each row without the spaces round them.
rows() {
  local row
  local -a parts
  while IFS= read -r row; do
    [ -n "$row" ] || continue
    IFS='|' read -r -a parts <<<"$row"
    parts=("${parts[@]# }")
    "$1" "${parts[@]% }"
  done
}

cp "$top"/examples/evening.lock "$top"/examples/evening.plan "$top"/examples/evening-early.plan "$top"/examples/two-chambers.lock "$top"/examples/day-40.lock "$room"
for tests in faults files replans seconds progress kit install tables; do . "$top/tests/script/$tests.sh"; done

echo "$passed passed, $failed failed"
[ $failed = 0 ]
