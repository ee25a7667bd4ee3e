# a frame with dates as texts
# each time:
print_csv(bugs.assign(until=bugs.until.fillna("$day")))
