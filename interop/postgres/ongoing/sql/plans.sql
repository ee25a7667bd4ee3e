-- Most functions are put into the query that asks them: these are not.
SET search_path = public, ongoing;
SET datestyle = ISO;
CREATE TABLE made (a date, b date, c date, d date, p ongoing_point, q ongoing_point, v ongoing_period, w ongoing_period,
    r daterange, s span, days datemultirange, t text, h boolean);
CREATE FUNCTION plan_of(query text) RETURNS text LANGUAGE plpgsql SET search_path = pg_catalog AS $$
DECLARE
    line text;
    plan text := '';
BEGIN
    FOR line IN EXECUTE 'EXPLAIN (VERBOSE, COSTS OFF) ' || query LOOP
        plan := plan || line || E'\n';
    END LOOP;
    RETURN plan;
END $$;
CREATE FUNCTION column_of(type regtype, number bigint) RETURNS text LANGUAGE sql AS $$
    SELECT (CASE type::text WHEN 'date' THEN ARRAY['a', 'b', 'c', 'd'] WHEN 'point_ends' THEN ARRAY['p', 'q'] WHEN 'period_ends' THEN ARRAY['v', 'w']
        WHEN 'daterange' THEN ARRAY['r', 'r'] WHEN 'span' THEN ARRAY['s'] WHEN 'datemultirange' THEN ARRAY['days'] WHEN 'boolean' THEN ARRAY['h']
        WHEN 'text' THEN ARRAY['t', 't'] WHEN 'bigint' THEN ARRAY['1'] END)[number] $$;
SELECT f.oid::regprocedure
FROM pg_proc f, LATERAL (SELECT string_agg(column_of(type, number), ', ' ORDER BY number) AS given, bool_and(column_of(type, number) IS NOT NULL) AS fits
    FROM unnest(f.proargtypes) WITH ORDINALITY AS of(type, number)) AS arguments
WHERE pronamespace = 'ongoing'::regnamespace AND fits AND (pronargs = 1 OR given !~ '\mt\M' OR proname = 'show')
    AND plan_of(format('SELECT ongoing.%I(%s) FROM public.made', proname, given)) LIKE format('%%ongoing.%I(%%', proname)
ORDER BY 1::text COLLATE "C";

-- Nor does a function in a function keep it out.
SELECT plan_of('SELECT days * ongoing.at_most(ongoing.start_of(ongoing.common(v, w)), ongoing.least(p, ongoing.end_of(w))),
    ongoing.period(ongoing.start_of(v), ongoing.least(ongoing.end_of(v), p)) FROM public.made') ~ 'ongoing\.[a-z_]+\(' AS is_called;
SELECT plan_of('SELECT v OPERATOR(ongoing.&&) w, v OPERATOR(ongoing.@>) p, p OPERATOR(ongoing.<) q FROM public.made') ~ 'ongoing\.[a-z_]+\(' AS is_called;

-- Literals are read once, before the query runs, also where they stand alone.
SELECT plan_of($$SELECT ongoing.overlaps(v, '[2020-01-01,now)'), ongoing.less('2020-01-01', p), ongoing.contains(v, '+2020-01-01') FROM public.made$$)
    ~ 'ongoing\.[a-z_]+\(' AS is_called;
SELECT plan_of($$SELECT ongoing.read_period('[2020-01-01,now)') FROM public.made$$);

-- An index on the outer ranges is asked.
SET enable_seqscan = off;
CREATE INDEX made_outer ON made USING gist (outer(v));
EXPLAIN (COSTS OFF) SELECT a FROM made WHERE outer(v) && daterange '[2020-01-01,2020-02-01)';
EXPLAIN (COSTS OFF) SELECT m.a FROM made m JOIN made n ON outer(m.v) && outer(n.w);
-- So is one on dateranges, by PostgreSQL's own operators.
CREATE INDEX made_range ON made USING gist (r);
EXPLAIN (COSTS OFF) SELECT a FROM made WHERE r && daterange '[2020-01-01,2020-02-01)';
