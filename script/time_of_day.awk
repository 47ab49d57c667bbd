# The time of day of a minute; `begin` is that of minute 0, and where there is none a minute stays a minute.

BEGIN {
  split(begin, parts, ":")
  minute_zero = parts[1] * 60 + parts[2]
}

function time_of_day(minute,    total, days) {
  if (begin == "") return minute
  total = minute_zero + minute
  days = int(total / 1440)
  return (days > 0 ? "+" days " " : "") sprintf("%02d:%02d", int(total % 1440 / 60), total % 60)
}
