# searches in the sorted first days
# Of each period the later ones of the other side that begin in it, from its first day on or from the day after it.
def begin_in(since, until, others, side):
    low = np.searchsorted(others, since, side)
    count = np.maximum(np.searchsorted(others, until, "left") - low, 0)
    holders = np.repeat(np.arange(len(since)), count)
    return holders, np.arange(len(holders)) - np.repeat(np.cumsum(count) - count - low, count)


# each time:
l, r = at(lefts, "$day").sort_values("since"), at(rights, "$day").sort_values("since")
l_since, l_until, r_since, r_until = (column.to_numpy() for column in (l.since, l.until, r.since, r.until))
l_first, r_later = begin_in(l_since, l_until, r_since, "left")
r_first, l_later = begin_in(r_since, r_until, l_since, "right")
print_csv(pd.DataFrame({
    "lid": l.lid.to_numpy()[np.concatenate([l_first, l_later])],
    "rid": r.rid.to_numpy()[np.concatenate([r_later, r_first])],
}))
