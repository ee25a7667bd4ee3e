# a merge with an indicator, dates as texts
# each time:
l, r = (table.assign(until=table.until.fillna("$day")).drop_duplicates() for table in (jobs, known))
both = l.merge(r, how="left", indicator=True)
print_csv(both.loc[both._merge == "left_only", ["comp", "since", "until"]])
