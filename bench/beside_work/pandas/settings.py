# The rows of a day: without those whose period is empty, and with the day as the end of those that are not over.
def at(table, day):
    table = table.assign(until=table.until.fillna(pd.Timestamp(day)))
    return table[table.since < table.until]


def print_csv(table):
    table.to_csv(sys.stdout, index=False)
