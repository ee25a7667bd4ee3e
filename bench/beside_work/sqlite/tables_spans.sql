CREATE TABLE lefts (lid INTEGER, since TEXT, until TEXT);
CREATE TABLE rights (rid INTEGER, since TEXT, until TEXT);
.import --skip 1 lefts.dates.csv lefts
.import --skip 1 rights.dates.csv rights
UPDATE lefts SET until = NULL WHERE until = '';
UPDATE rights SET until = NULL WHERE until = '';
