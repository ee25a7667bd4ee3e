# the frame of join_days_kept.py; the pairs of changed bugs are made anew
def ever(bugs):
    pairs = bugs.merge(patch, on="comp", suffixes=("", "_p"))
    pairs = pairs[~(pairs.since >= pairs.until_p) & ~(pairs.since_p >= pairs.until)]
    moves = pairs.until.isna() | pairs.until_p.isna()
    after = pairs.since.where(pairs.since > pairs.since_p, pairs.since_p).where(moves, pd.Timestamp.min)
    return pairs[["id", "pid"]].assign(after=after)


pairs = ever(bugs)
# each time:
changed = bugs.id.between($first, $last)
bugs.loc[changed, "until"] = pd.NaT
pairs = pd.concat([pairs[~pairs.id.between($first, $last)], ever(bugs[changed])])
print_csv(pairs.loc[pairs.after < "$day", ["id", "pid"]])
