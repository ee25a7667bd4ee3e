-- Values, their texts, and what is none.
SET search_path = public, ongoing;
SET datestyle = ISO;
CREATE TABLE jobs (name text, born ongoing_point, works ongoing_period);
INSERT INTO jobs VALUES ('Ines', date '2000-02-29', text '[2023-05-01,now)'), ('Jon', text '2001-01-01+', daterange '[2024-01-01,2024-02-01)'),
    ('Kim', read_point('+2026-01-01'), read_period('[2020-01-01+2020-02-01,infinity)')), ('Lea', NULL, NULL);
SELECT name, born::text, works::text, at(born, '2026-03-01') AS born_then, at(works, '2026-03-01')::text AS works_then FROM jobs ORDER BY name;
SELECT name, outer(works), start_of(works)::text, end_of(works)::text, common(works, daterange '[2023-01-01,2024-01-15)')::text FROM jobs ORDER BY name;

-- A literal beside a point or a period is what its text says.
SELECT name, overlaps(works, '[2023-01-01,now)'), contains('[2023-01-01,now)', born), at_most(born, '2001-01-01'), common('[2023-01-01,2024-01-15)', works)::text
FROM jobs ORDER BY name;
SELECT period('2020-01-01', 'now')::text, overlaps('[2020-01-01,now)', '[2020-01-05,infinity)'), period('2020-01-01', read_point('+2021-01-01'))::text;

-- A daterange without an end has infinity there, and one without days is empty on each day.
SELECT text '[2023-05-01,infinity)' = daterange '[2023-05-01,)', daterange '(,2023-05-01)'::ongoing_period::text,
    daterange '(,)'::ongoing_period::text, daterange 'empty'::ongoing_period::text, empty(daterange 'empty'), outer(daterange 'empty');

-- NULL gives NULL, or a row of NULLs.
SELECT num_nulls(at(NULL::ongoing_point, '2020-01-01'), at(text 'now'::ongoing_point, NULL), at(NULL::ongoing_period, '2020-01-01'), outer(NULL),
    overlaps(NULL, text '[now,now)'), before(text '[now,now)', NULL), contains(NULL, text 'now'), days(NULL), other_days(NULL),
    NULL::ongoing_period::text, outer(fixed(NULL::daterange)), text '[now,now)' && period(NULL, text 'now'), start_of(NULL)::text) AS thirteen;
SELECT bool_and(value IS NULL) FROM (VALUES (fixed(NULL::date)), (start_of(NULL)), (end_of(NULL)), (ongoing.least(NULL, text 'now')),
    (ongoing.least(text 'now', NULL)), (ongoing.greatest(text 'now', NULL))) AS points(value);
SELECT bool_and(value IS NULL) FROM (VALUES (fixed(NULL::daterange)), (period(NULL, text 'now')), (period(text 'now', NULL)),
    (common(NULL, text '[now,now)')), (common(text '[now,now)', NULL))) AS periods(value);

-- What is no value.
INSERT INTO jobs VALUES ('Mia', ROW('2021-01-02', '2021-01-01'), NULL);
INSERT INTO jobs VALUES ('Mia', '(2021-01-02,2021-01-01)', NULL);
INSERT INTO jobs VALUES ('Mia', ROW(NULL, '2021-01-01'), NULL);
INSERT INTO jobs VALUES ('Mia', NULL, ROW('2021-01-01', '2021-01-01', '2021-01-02', '2021-01-01'));
INSERT INTO jobs VALUES ('Mia', text '2021-01-02+2021-01-01', NULL);
INSERT INTO jobs VALUES ('Mia', NULL, text '[2021-01-01,now]');
SELECT read_point('2021-02-29');
SELECT read_days('{[2021-01-01,2021-02-01]}');
SELECT show(date '10000-01-01');
