CREATE TABLE bugs (id INTEGER, comp TEXT, since TEXT, until TEXT);
.import --skip 1 bugs.dates.csv bugs
UPDATE bugs SET until = NULL WHERE until = '';
