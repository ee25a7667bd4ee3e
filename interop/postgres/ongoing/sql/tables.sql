-- Tables and views with days, as of a day.
SET search_path = public, ongoing;
SET datestyle = ISO;
SET client_min_messages = warning;
CREATE TABLE hits (id bigint, vt ongoing_period, days datemultirange);
INSERT INTO hits VALUES (1, text '[2020-01-01,now)', '{(,)}'), (2, text '[2020-01-01,2020-02-01)', read_days('{[2020-01-15,infinity)}')), (1, text '[2020-01-01,now)', '{(,)}');
SELECT make_as_of('hits');
SELECT id, vt::text FROM hits_as_of('2020-01-10') ORDER BY id;
SELECT id, vt::text FROM hits_as_of('2020-01-20') ORDER BY id;
CREATE INDEX ON hits USING gist (days);
SET enable_seqscan = off;
EXPLAIN (COSTS OFF) SELECT id FROM hits_as_of('2020-01-20');
CREATE VIEW starts AS SELECT start_of(vt) AS first, days * (vt @> date '2020-01-20') AS days FROM hits;
SELECT make_as_of('starts');
SELECT * FROM starts_as_of('2020-01-21') ORDER BY 1;

-- After a change of the columns it is made anew, and does not answer by the old ones.
ALTER TABLE hits ADD COLUMN note text;
SELECT * FROM hits_as_of('2020-01-20');
SELECT make_as_of('hits');
SELECT id, vt::text, note FROM hits_as_of('2020-01-20') ORDER BY id;
ALTER TABLE hits RENAME COLUMN note TO said;
SELECT * FROM hits_as_of('2020-01-20');
ALTER TABLE hits DROP COLUMN said;
SELECT make_as_of('hits');
SELECT id FROM hits_as_of('2020-01-10') ORDER BY id;
