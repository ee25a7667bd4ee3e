CREATE UNLOGGED TABLE lefts (lid int, since date, until date);
CREATE UNLOGGED TABLE rights (rid int, since date, until date);
\copy lefts FROM 'lefts.dates.csv' WITH (FORMAT csv, HEADER)
\copy rights FROM 'rights.dates.csv' WITH (FORMAT csv, HEADER)
