CREATE UNLOGGED TABLE jobs (comp text, since date, until date);
CREATE UNLOGGED TABLE known (comp text, since date, until date);
\copy jobs FROM 'jobs.dates.csv' WITH (FORMAT csv, HEADER)
\copy known FROM 'known.dates.csv' WITH (FORMAT csv, HEADER)
