bugs = pd.read_csv("bugs.dates.csv")
