CREATE UNLOGGED TABLE bugs (id int, comp text, since date, until date);
\copy bugs FROM 'bugs.dates.csv' WITH (FORMAT csv, HEADER)
