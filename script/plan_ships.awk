# The ships of the plan after an instance, a line for each: name, line of the berth, line and start of its lockage, `begun`
# where that is before `minute`, else `later`, how many ships it has, and the ship's line in the instance, or 0.

{ sub(/\r$/, ""); sub(/#.*/, "") }

!in_plan && $1 == "ship" { line[$2] = NR }
NF == 1 && $1 == "end" { in_plan = 1 }
in_plan && $1 == "lockage" { lockages++; row[lockages] = NR; start[lockages] = $4 + 0 }
in_plan && $1 == "berth" && lockages { name[++berths] = $2; at[berths] = NR; of[berths] = lockages; many[lockages]++ }

END {
  for (b = 1; b <= berths; b++) {
    l = of[b]
    print name[b], at[b], row[l], start[l], start[l] < minute ? "begun" : "later", many[l], line[name[b]] + 0
  }
}
