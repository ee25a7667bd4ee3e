CREATE TABLE jobs (comp TEXT, since TEXT, until TEXT);
CREATE TABLE known (comp TEXT, since TEXT, until TEXT);
.import --skip 1 jobs.dates.csv jobs
.import --skip 1 known.dates.csv known
UPDATE jobs SET until = NULL WHERE until = '';
UPDATE known SET until = NULL WHERE until = '';
