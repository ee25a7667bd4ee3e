\set ON_ERROR_STOP on
\set QUIET on
\pset format unaligned
\pset tuples_only on
SET client_encoding = 'SQL_ASCII'; SET standard_conforming_strings = on; SET datestyle = iso; SET client_min_messages = warning;
SET search_path = public, ongoing; SET jit = off;

-- CREATE TABLE bugs ( id INT , comp TEXT , vt PERIOD ) ;
CREATE TABLE bugs (id bigint NOT NULL, comp text COLLATE "C" NOT NULL, vt ongoing_period NOT NULL, days datemultirange NOT NULL DEFAULT '{(,)}');

-- INSERT INTO bugs VALUES ( 500 , 'Spam filter' , PERIOD '[2020-01-25,infinity)' ) , ( 501 , 'Spam filter' , PERIOD '[2020-03-30,2020-08-21)' ) ;
INSERT INTO bugs VALUES
    (bigint '500', text 'Spam filter' COLLATE "C", read_period('[2020-01-25,infinity)')),
    (bigint '501', text 'Spam filter' COLLATE "C", read_period('[2020-03-30,2020-08-21)'));

-- CREATE TABLE patch ( pid INT , comp TEXT , vt PERIOD ) ;
CREATE TABLE patch (pid bigint NOT NULL, comp text COLLATE "C" NOT NULL, vt ongoing_period NOT NULL, days datemultirange NOT NULL DEFAULT '{(,)}');

-- INSERT INTO patch VALUES ( 201 , 'Spam filter' , PERIOD '[2020-08-15,2020-08-24)' ) , ( 202 , 'Spam filter' , PERIOD '[2020-08-24,infinity)' ) ;
INSERT INTO patch VALUES
    (bigint '201', text 'Spam filter' COLLATE "C", read_period('[2020-08-15,2020-08-24)')),
    (bigint '202', text 'Spam filter' COLLATE "C", read_period('[2020-08-24,infinity)'));

-- PRINT SELECT id , PERIOD ( START ( vt ) , LEAST ( END ( vt ) , ONGOING 'now' ) ) AS so_far FROM bugs AS OF DATE '2020-08-25' ;
SELECT 'id,so_far';
WITH project$1 AS (
    SELECT l.id, period(start_of(l.vt), ongoing.least(end_of(l.vt), read_point('now'))) AS so_far, range_agg(l.days) AS days
    FROM bugs AS l GROUP BY 1, 2),
shown$2 AS (
    SELECT DISTINCT l.id, ongoing.at(l.so_far, date '2020-08-25') AS so_far
    FROM project$1 AS l WHERE l.days @> date '2020-08-25')
SELECT l.id::text || ',' || '"' || show(l.so_far) || '"' FROM shown$2 AS l ORDER BY l.id, l.so_far;

-- KEEP r AS SELECT b . id , p . pid FROM bugs AS b , patch AS p WHERE b . comp = p . comp AND CONTAINS ( b . vt , ONGOING 'now' ) AND CONTAINS ( p . vt , ONGOING 'now' ) ;
CREATE TABLE r AS
WITH filter$1 AS (
    SELECT * FROM (SELECT l.id, l.comp, l.vt, l.days * contains(l.vt, read_point('now')) AS days
    FROM bugs AS l) AS kept WHERE NOT isempty(days)),
filter$2 AS (
    SELECT * FROM (SELECT l.pid, l.comp, l.vt, l.days * contains(l.vt, read_point('now')) AS days
    FROM patch AS l) AS kept WHERE NOT isempty(days)),
join$3 AS (
    SELECT * FROM (SELECT l.id, l.comp, l.vt, r.pid, r.comp AS "comp$5", r.vt AS "vt$6", l.days * r.days AS days
    FROM filter$1 AS l JOIN filter$2 AS r ON l.comp = r.comp OFFSET 0) AS joined WHERE NOT isempty(days)),
project$4 AS (
    SELECT l.id, l.pid, range_agg(l.days) AS days
    FROM join$3 AS l GROUP BY 1, 2)
SELECT id, pid, days FROM project$4 ORDER BY 1, 2;
ANALYZE r;

-- PRINT r AS OF DATE '2020-08-25' ;
SELECT 'id,pid';
WITH shown$1 AS (
    SELECT DISTINCT l.id, l.pid
    FROM r AS l WHERE l.days @> date '2020-08-25')
SELECT l.id::text || ',' || l.pid::text FROM shown$1 AS l ORDER BY l.id, l.pid;

-- SAVE r TO 'r.csv' ;
SET max_parallel_workers_per_gather = 0; SET synchronize_seqscans = off;
\o './r.csv'
SELECT 'ongq:2';
SELECT 'id:INT,pid:INT';
SELECT l.id::text || ',' || l.pid::text || ',' || field(show(l.days)) FROM r AS l WHERE (l.days && '{(,10000-01-01)}'::datemultirange);
SELECT 'rows:' || count(*) FROM r AS l WHERE (l.days && '{(,10000-01-01)}'::datemultirange);
\o
RESET max_parallel_workers_per_gather; RESET synchronize_seqscans;
