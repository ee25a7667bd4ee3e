# a merge on comp, then a filter and isin
# each time:
both = at(bugs, "$day").merge(at(patch, "$day"), on="comp", suffixes=("", "_p"))
met = both.loc[(both.since < both.until_p) & (both.since_p < both.until), "id"].unique()
print_csv(bugs.loc[~bugs.id.isin(met), ["id", "comp"]])
