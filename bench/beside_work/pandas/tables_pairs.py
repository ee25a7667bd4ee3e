bugs = pd.read_csv("bugs.dates.csv", parse_dates=["since", "until"])
patch = pd.read_csv("patch.dates.csv", parse_dates=["since", "until"])
