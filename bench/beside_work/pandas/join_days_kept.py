# a frame of the pairs that ever overlap, with the day after which they do
pairs = bugs.merge(patch, on="comp", suffixes=("", "_p"))
pairs = pairs[~(pairs.since >= pairs.until_p) & ~(pairs.since_p >= pairs.until)]
moves = pairs.until.isna() | pairs.until_p.isna()
after = pairs.since.where(pairs.since > pairs.since_p, pairs.since_p).where(moves, pd.Timestamp.min)
pairs = pairs[["id", "pid"]].assign(after=after)
# each time:
print_csv(pairs.loc[pairs.after < "$day", ["id", "pid"]])
