-- What the extension has: each object with a comment, and functions that are immutable and parallel safe but for those on tables.
CREATE EXTENSION ongoing;
SELECT extversion, extnamespace::regnamespace FROM pg_extension WHERE extname = 'ongoing';

SELECT count(*) > 100 AS many,
    string_agg(pg_describe_object(d.classid, d.objid, 0), ', ') FILTER (WHERE description IS NULL) AS without_comment
FROM pg_depend d LEFT JOIN pg_description c ON c.objoid = d.objid AND c.classoid = d.classid AND c.objsubid = 0
WHERE refclassid = 'pg_extension'::regclass AND deptype = 'e'
    AND refobjid = (SELECT oid FROM pg_extension WHERE extname = 'ongoing');

SELECT proname FROM pg_proc
WHERE pronamespace = 'ongoing'::regnamespace AND (provolatile <> 'i' OR proparallel <> 's') ORDER BY 1;

-- It goes as a whole, and comes again.
DROP EXTENSION ongoing;
SELECT count(*) FROM pg_proc WHERE pronamespace = 'ongoing'::regnamespace;
CREATE EXTENSION ongoing;
