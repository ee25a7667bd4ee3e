CREATE UNLOGGED TABLE bugs (id int, comp text, since date, until date);
CREATE UNLOGGED TABLE patch (pid int, comp text, since date, until date);
\copy bugs FROM 'bugs.dates.csv' WITH (FORMAT csv, HEADER)
\copy patch FROM 'patch.dates.csv' WITH (FORMAT csv, HEADER)
