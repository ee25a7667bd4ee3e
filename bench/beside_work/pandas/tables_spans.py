lefts = pd.read_csv("lefts.dates.csv", parse_dates=["since", "until"])
rights = pd.read_csv("rights.dates.csv", parse_dates=["since", "until"])
