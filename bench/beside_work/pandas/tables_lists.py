jobs = pd.read_csv("jobs.dates.csv")
known = pd.read_csv("known.dates.csv")
