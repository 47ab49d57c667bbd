# `--seconds`: a search that ends before the time is over, one that is stopped by it, and one that is kept.

# 48 ships at once, which take far longer than a second on any machine
"$top/glock" lot --number 2 --ships 48 --chambers 2 | awk '$1 == "ship" { $6 %= 21 } 1' >"$room/long.lock"
ends_in_time() {
  local begun=$SECONDS
  call $1
  check "seconds: $1" gives "$2" "$3" "${4-}"
  check "seconds: $1, in time" [ $((SECONDS - begun)) -le "${5:-60}" ]
}
rows ends_in_time <<'ROWS'
solve --seconds 60 evening.lock | 0 | optimal cost 270 | | 20
solve --seconds=60 evening.lock --clock 17:00 | 0 | 17:00 | | 20
solve --seconds 60 --dossier two-chambers.lock | 0 | certificate | | 40
solve --seconds 1 long.lock --workers 1 | 1 | open nodes | long.lock: this plan costs
solve --seconds 1 --dossier long.lock --workers 1 -o no.dossier | 1 | open nodes | a dossier is made for a cheapest plan alone
solve --seconds 1 --keep long.lock --workers 1 -o long.open | 1 | | this open dossier keeps it
resume --seconds 1 long.open --workers 1 | 1 | open nodes | long.open: this plan costs
lower long.open | 1 | lower | long.open: this plan costs
ROWS
check "no dossier of an open end" [ ! -e "$room/no.dossier" ]
call solve --workers 1 --nodes 1 --keep two-chambers.lock -o begun.open
ends_in_time "resume --seconds 60 begun.open" 0 "optimal cost" "" 40
call resume --seconds 60 --workers 2 <"$room/begun.open"
check "seconds: from standard input" gives 0 "optimal cost" ""
