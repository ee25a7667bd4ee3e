CREATE TABLE bugs (id INTEGER, comp TEXT, since TEXT, until TEXT);
CREATE TABLE patch (pid INTEGER, comp TEXT, since TEXT, until TEXT);
.import --skip 1 bugs.dates.csv bugs
.import --skip 1 patch.dates.csv patch
UPDATE bugs SET until = NULL WHERE until = '';
UPDATE patch SET until = NULL WHERE until = '';
