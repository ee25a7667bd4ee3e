# a merge on comp, then a filter
# each time:
bugs.loc[bugs.id.between($first, $last), "until"] = pd.NaT
both = at(bugs, "$day").merge(at(patch, "$day"), on="comp", suffixes=("", "_p"))
print_csv(both.loc[(both.since < both.until_p) & (both.since_p < both.until), ["id", "pid"]])
