# The weekday of a date, by Zeller's congruence: 0 is Saturday.
day = 22
month = 11
year = 2026
if month < 3
  month = month + 12
  year = year - 1
end
century = year / 100
rest = year % 100
number = (day + 13 * (month + 1) / 5 + rest + rest / 4 + century / 4 - 2 * century) % 7

name = if number == 0
  "Saturday"
elsif number == 1
  "Sunday"
elsif number == 2
  "Monday"
elsif number == 3
  "Tuesday"
elsif number == 4
  "Wednesday"
elsif number == 5
  "Thursday"
else
  "Friday"
end
puts name
