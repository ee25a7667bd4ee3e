-- ongq's points, periods and days in PostgreSQL 15 and later: CREATE EXTENSION ongoing, or psql -f ongoing.sql without it.
--
-- A table has rows with ongoing dates and, in a column days, the days on which each row is there. A query multiplies
-- the days of its rows with the days on which its conditions hold, once for all days, and is read as of any of them:
--
--     SET search_path = public, ongoing;
--     CREATE TABLE r AS
--         SELECT b.id, p.pid, b.days * p.days * (b.vt && p.vt) AS days
--         FROM bugs b JOIN patch p ON b.comp = p.comp;
--     DELETE FROM r WHERE isempty(days);
--     SELECT make_as_of('r');
--     SELECT * FROM r_as_of('2020-08-25');
--
-- | ongq                         | here                                                    |
-- |------------------------------|---------------------------------------------------------|
-- | p < q, p <= q, p = q, p <> q | the same, or less(p, q), at_most, same, differs         |
-- | A OVERLAPS B, A BEFORE B     | A && B, A << B, or overlaps(A, B), before               |
-- | A DURING B, CONTAINS(A, p)   | A <@ B, A @> p, or during(A, B), contains               |
-- | A MEETS B and the others     | meets(A, B), starts, finishes, equals                   |
-- | EMPTY(A)                     | empty(A)                                                |
-- | a = b of numbers or texts    | a = b in ON or WHERE, or days(a = b)                    |
-- | c AND d, c OR d, NOT c       | c * d, c + d, other_days(c)                             |
-- | START, END, PERIOD           | start_of(A), end_of(A), period(p, q)                    |
-- | COMMON                       | A * B, or common(A, B)                                  |
-- | LEAST, GREATEST              | ongoing.least(p, q), ongoing.greatest(p, q)             |
-- | ONGOING '..', PERIOD '..'    | text '..', or alone in a function of two: meets(A, '..')|
--
-- A date is a point and a daterange a period wherever one is wanted, and so is a value of type text. A literal alone is one
-- in functions of two, and nowhere else, as PostgreSQL reads it as a row. Without its schema LEAST is PostgreSQL's own, which
-- takes rows by their first column. A set of days has no bound where it is open, and {(,)} is all days. Before the first day
-- of PostgreSQL, 4714-11-24 BC, a set has no bounds, and a date is refused. All functions but those at the end, on tables,
-- are immutable and parallel safe; NULL gives NULL, or a row of NULLs, which is NULL. Most are put into the query that asks
-- them; outer is not, so that a server of postgres_fdw with the option extensions 'ongoing' is asked it.


-- Types. Columns are made of the domains, which refuse what is no point or period; functions take and give the ends.

CREATE TYPE point_ends AS (low date, high date);
COMMENT ON TYPE point_ends IS
    'the ends of a point: low up to that day, then the day that is asked, and high from that day on';

CREATE TYPE period_ends AS (start_low date, start_high date, end_low date, end_high date);
COMMENT ON TYPE period_ends IS
    'the ends of a period, whose start is start_low+start_high and whose end is end_low+end_high';

CREATE DOMAIN ongoing_point AS point_ends
    CONSTRAINT low_is_at_most_high CHECK (coalesce((VALUE).low <= (VALUE).high, VALUE IS NULL));
COMMENT ON DOMAIN ongoing_point IS 'a point, whose low end is at most its high end';

CREATE DOMAIN ongoing_period AS period_ends CONSTRAINT low_is_at_most_high
    CHECK (coalesce((VALUE).start_low <= (VALUE).start_high AND (VALUE).end_low <= (VALUE).end_high, VALUE IS NULL));
COMMENT ON DOMAIN ongoing_period IS 'a period, of whose start and end the low end is at most the high end';

CREATE TYPE span AS (first date, until date);
COMMENT ON TYPE span IS
    'a period as it is on a day, empty where its end is not after its start; ordered by start, then by end';


-- Values. They are rows without a condition on top, so that PostgreSQL puts them into the query and makes no row where an end
-- alone is asked.

CREATE FUNCTION earlier(a date, b date) RETURNS date IMMUTABLE PARALLEL SAFE
RETURN CASE WHEN a IS NOT NULL AND b IS NOT NULL THEN LEAST(a, b) END;
COMMENT ON FUNCTION earlier(date, date) IS 'the earlier of two days';

CREATE FUNCTION later(a date, b date) RETURNS date IMMUTABLE PARALLEL SAFE
RETURN CASE WHEN a IS NOT NULL AND b IS NOT NULL THEN GREATEST(a, b) END;
COMMENT ON FUNCTION later(date, date) IS 'the later of two days';

CREATE FUNCTION beside(a date, b date) RETURNS date IMMUTABLE PARALLEL SAFE
RETURN CASE WHEN b IS NOT NULL THEN a END;
COMMENT ON FUNCTION beside(date, date) IS 'the first of two days; NULL where the second one is';

CREATE FUNCTION first_of(days daterange) RETURNS date IMMUTABLE PARALLEL SAFE
RETURN CASE WHEN isempty(days) THEN 'infinity' WHEN days IS NOT NULL THEN coalesce(lower(days), '-infinity') END;
COMMENT ON FUNCTION first_of(daterange) IS 'the first day of a range; infinity where it is empty';

CREATE FUNCTION until_of(days daterange) RETURNS date IMMUTABLE PARALLEL SAFE
RETURN CASE WHEN isempty(days) THEN '-infinity' WHEN days IS NOT NULL THEN coalesce(upper(days), 'infinity') END;
COMMENT ON FUNCTION until_of(daterange) IS 'the day behind a range; -infinity where it is empty';

CREATE FUNCTION fixed(day date) RETURNS point_ends IMMUTABLE PARALLEL SAFE
RETURN ROW(day, day)::point_ends;
COMMENT ON FUNCTION fixed(date) IS 'always that day';

CREATE FUNCTION start_of(p period_ends) RETURNS point_ends IMMUTABLE PARALLEL SAFE
RETURN ROW(p.start_low, p.start_high)::point_ends;
COMMENT ON FUNCTION start_of(period_ends) IS 'the start of a period';

CREATE FUNCTION end_of(p period_ends) RETURNS point_ends IMMUTABLE PARALLEL SAFE
RETURN ROW(p.end_low, p.end_high)::point_ends;
COMMENT ON FUNCTION end_of(period_ends) IS 'the end of a period, the day after its last';

CREATE FUNCTION period(first point_ends, until point_ends) RETURNS period_ends IMMUTABLE PARALLEL SAFE
RETURN ROW(beside(first.low, until.low), beside(first.high, until.low),
    beside(until.low, first.low), beside(until.high, first.low))::period_ends;
COMMENT ON FUNCTION period(point_ends, point_ends) IS 'the period from a start to before an end';

CREATE FUNCTION fixed(days daterange) RETURNS period_ends IMMUTABLE PARALLEL SAFE
RETURN ROW(first_of(days), first_of(days), until_of(days), until_of(days))::period_ends;
COMMENT ON FUNCTION fixed(daterange) IS
    'the same period on each day; one without days where the range is empty, since that has no ends';

CREATE FUNCTION "least"(p point_ends, q point_ends) RETURNS point_ends IMMUTABLE PARALLEL SAFE
RETURN ROW(earlier(p.low, q.low), earlier(p.high, q.high))::point_ends;
COMMENT ON FUNCTION "least"(point_ends, point_ends) IS 'the point that is the earlier of the two on every day';

CREATE FUNCTION "greatest"(p point_ends, q point_ends) RETURNS point_ends IMMUTABLE PARALLEL SAFE
RETURN ROW(later(p.low, q.low), later(p.high, q.high))::point_ends;
COMMENT ON FUNCTION "greatest"(point_ends, point_ends) IS 'the point that is the later of the two on every day';

CREATE FUNCTION common(p period_ends, q period_ends) RETURNS period_ends IMMUTABLE PARALLEL SAFE
RETURN ROW(later(p.start_low, q.start_low), later(p.start_high, q.start_high),
    earlier(p.end_low, q.end_low), earlier(p.end_high, q.end_high))::period_ends;
COMMENT ON FUNCTION common(period_ends, period_ends) IS
    'the days that two periods share: from the later start to the earlier end';

-- PL/pgSQL is not put into the query: an index on it is asked by its name, on this server and on others.
CREATE FUNCTION outer(p period_ends) RETURNS daterange IMMUTABLE STRICT PARALLEL SAFE LANGUAGE plpgsql AS $$
BEGIN
    RETURN CASE WHEN p.start_low < p.end_high
        THEN daterange(nullif(p.start_low, '-infinity'), nullif(p.end_high, 'infinity'))
        WHEN p.start_low >= p.end_high THEN 'empty' END;
END $$;
COMMENT ON FUNCTION outer(period_ends) IS
    'a range with all days that the period has on any day; of two periods that overlap on a day these ranges do';


-- Values as of a day.

CREATE FUNCTION at(low date, high date, day date) RETURNS date IMMUTABLE PARALLEL SAFE
RETURN CASE WHEN day <= low THEN low WHEN day < high THEN day WHEN day >= high THEN high END;
COMMENT ON FUNCTION at(date, date, date) IS 'the day that the point low+high is on a day';

CREATE FUNCTION at(p point_ends, day date) RETURNS date IMMUTABLE PARALLEL SAFE
RETURN at(p.low, p.high, day);
COMMENT ON FUNCTION at(point_ends, date) IS 'the day that a point is on a day';

CREATE FUNCTION at(p period_ends, day date) RETURNS span IMMUTABLE PARALLEL SAFE
RETURN CASE WHEN p IS NOT NULL AND day IS NOT NULL
    THEN ROW(at(p.start_low, p.start_high, day), at(p.end_low, p.end_high, day))::span END;
COMMENT ON FUNCTION at(period_ends, date) IS 'a period as it is on a day';

CREATE FUNCTION range(s span) RETURNS daterange IMMUTABLE PARALLEL SAFE
RETURN CASE WHEN s.first < s.until THEN daterange(nullif(s.first, '-infinity'), nullif(s.until, 'infinity'))
    WHEN s.first >= s.until THEN 'empty' END;
COMMENT ON FUNCTION range(span) IS 'the days of a span as a range; the empty range where it is empty';


-- Days on which something holds.

CREATE FUNCTION days(holds boolean) RETURNS datemultirange IMMUTABLE PARALLEL SAFE
RETURN CASE holds WHEN true THEN '{(,)}'::datemultirange WHEN false THEN '{}'::datemultirange END;
COMMENT ON FUNCTION days(boolean) IS 'all days where it is true, and none where it is false';

CREATE FUNCTION other_days(days datemultirange) RETURNS datemultirange IMMUTABLE PARALLEL SAFE
RETURN '{(,)}'::datemultirange - days;
COMMENT ON FUNCTION other_days(datemultirange) IS 'all other days';

-- Those before c where a is before c, and those after b where b is before e.

CREATE FUNCTION less(a date, b date, c date, e date) RETURNS datemultirange IMMUTABLE PARALLEL SAFE
RETURN CASE WHEN a < c THEN datemultirange(daterange(NULL, nullif(c, 'infinity')))
        WHEN a >= c THEN '{}'::datemultirange END
    + CASE WHEN b < e THEN datemultirange(daterange(nullif(b, '-infinity'), NULL, '()'))
        WHEN b >= e THEN '{}'::datemultirange END;
COMMENT ON FUNCTION less(date, date, date, date) IS 'the days on which the point a+b is before the point c+e';

CREATE FUNCTION at_most(a date, b date, c date, e date) RETURNS datemultirange IMMUTABLE PARALLEL SAFE
RETURN other_days(less(c, e, a, b));
COMMENT ON FUNCTION at_most(date, date, date, date) IS 'the days on which a+b is at most c+e';

CREATE FUNCTION same(a date, b date, c date, e date) RETURNS datemultirange IMMUTABLE PARALLEL SAFE
RETURN at_most(a, b, c, e) * at_most(c, e, a, b);
COMMENT ON FUNCTION same(date, date, date, date) IS 'the days on which a+b is the same day as c+e';

CREATE FUNCTION less(p point_ends, q point_ends) RETURNS datemultirange IMMUTABLE PARALLEL SAFE
RETURN less(p.low, p.high, q.low, q.high);
COMMENT ON FUNCTION less(point_ends, point_ends) IS 'the days on which a point is before another';

CREATE FUNCTION at_most(p point_ends, q point_ends) RETURNS datemultirange IMMUTABLE PARALLEL SAFE
RETURN at_most(p.low, p.high, q.low, q.high);
COMMENT ON FUNCTION at_most(point_ends, point_ends) IS 'the days on which a point is at most another';

CREATE FUNCTION same(p point_ends, q point_ends) RETURNS datemultirange IMMUTABLE PARALLEL SAFE
RETURN same(p.low, p.high, q.low, q.high);
COMMENT ON FUNCTION same(point_ends, point_ends) IS 'the days on which two points are the same day';

CREATE FUNCTION differs(p point_ends, q point_ends) RETURNS datemultirange IMMUTABLE PARALLEL SAFE
RETURN other_days(same(p, q));
COMMENT ON FUNCTION differs(point_ends, point_ends) IS 'the days on which two points are different days';

CREATE FUNCTION more(p point_ends, q point_ends) RETURNS datemultirange IMMUTABLE PARALLEL SAFE
RETURN less(q, p);
COMMENT ON FUNCTION more(point_ends, point_ends) IS 'the days on which a point is after another';

CREATE FUNCTION at_least(p point_ends, q point_ends) RETURNS datemultirange IMMUTABLE PARALLEL SAFE
RETURN at_most(q, p);
COMMENT ON FUNCTION at_least(point_ends, point_ends) IS 'the days on which a point is at least another';

CREATE FUNCTION same(p period_ends, q period_ends) RETURNS datemultirange IMMUTABLE PARALLEL SAFE
RETURN same(p.start_low, p.start_high, q.start_low, q.start_high) * same(p.end_low, p.end_high, q.end_low, q.end_high);
COMMENT ON FUNCTION same(period_ends, period_ends) IS
    'the days on which two periods have the same ends, so that they print the same, as EXCEPT and INTERSECT ask it';

CREATE FUNCTION differs(p period_ends, q period_ends) RETURNS datemultirange IMMUTABLE PARALLEL SAFE
RETURN other_days(same(p, q));
COMMENT ON FUNCTION differs(period_ends, period_ends) IS 'the days on which two periods do not have the same ends';

CREATE FUNCTION less(p period_ends, q period_ends) RETURNS datemultirange IMMUTABLE PARALLEL SAFE
RETURN less(p.start_low, p.start_high, q.start_low, q.start_high)
    + same(p.start_low, p.start_high, q.start_low, q.start_high) * less(p.end_low, p.end_high, q.end_low, q.end_high);
COMMENT ON FUNCTION less(period_ends, period_ends) IS
    'the days on which a period stands before another in the order of rows: by start, then by end';

CREATE FUNCTION at_most(p period_ends, q period_ends) RETURNS datemultirange IMMUTABLE PARALLEL SAFE
RETURN other_days(less(q, p));
COMMENT ON FUNCTION at_most(period_ends, period_ends) IS
    'the days on which a period does not stand behind another in the order of rows';

CREATE FUNCTION more(p period_ends, q period_ends) RETURNS datemultirange IMMUTABLE PARALLEL SAFE
RETURN less(q, p);
COMMENT ON FUNCTION more(period_ends, period_ends) IS
    'the days on which a period stands behind another in the order of rows';

CREATE FUNCTION at_least(p period_ends, q period_ends) RETURNS datemultirange IMMUTABLE PARALLEL SAFE
RETURN at_most(q, p);
COMMENT ON FUNCTION at_least(period_ends, period_ends) IS
    'the days on which a period does not stand before another in the order of rows';

CREATE FUNCTION empty(p period_ends) RETURNS datemultirange IMMUTABLE PARALLEL SAFE
RETURN at_most(p.end_low, p.end_high, p.start_low, p.start_high);
COMMENT ON FUNCTION empty(period_ends) IS 'the days on which a period is empty';

CREATE FUNCTION nonempty(p period_ends) RETURNS datemultirange IMMUTABLE PARALLEL SAFE
RETURN less(p.start_low, p.start_high, p.end_low, p.end_high);
COMMENT ON FUNCTION nonempty(period_ends) IS 'the days on which a period is not empty';

CREATE FUNCTION contains(p period_ends, q point_ends) RETURNS datemultirange IMMUTABLE PARALLEL SAFE
RETURN at_most(p.start_low, p.start_high, q.low, q.high) * less(q.low, q.high, p.end_low, p.end_high);
COMMENT ON FUNCTION contains(period_ends, point_ends) IS
    'the days on which a period has a day, from its start on, up to the day before its end';

CREATE FUNCTION within(q point_ends, p period_ends) RETURNS datemultirange IMMUTABLE PARALLEL SAFE
RETURN contains(p, q);
COMMENT ON FUNCTION within(point_ends, period_ends) IS 'the days on which a day is one of a period';


-- The predicates of two periods. An empty period stands in none of them.

CREATE FUNCTION before(p period_ends, q period_ends) RETURNS datemultirange IMMUTABLE PARALLEL SAFE
RETURN nonempty(p) * nonempty(q) * at_most(p.end_low, p.end_high, q.start_low, q.start_high);
COMMENT ON FUNCTION before(period_ends, period_ends) IS 'the days on which p ends before q starts';

CREATE FUNCTION after(p period_ends, q period_ends) RETURNS datemultirange IMMUTABLE PARALLEL SAFE
RETURN before(q, p);
COMMENT ON FUNCTION after(period_ends, period_ends) IS 'the days on which q ends before p starts';

CREATE FUNCTION meets(p period_ends, q period_ends) RETURNS datemultirange IMMUTABLE PARALLEL SAFE
RETURN nonempty(p) * nonempty(q) * same(p.end_low, p.end_high, q.start_low, q.start_high);
COMMENT ON FUNCTION meets(period_ends, period_ends) IS 'the days on which q starts as p ends';

-- Dates alone tell most periods apart that overlap on no day.

CREATE FUNCTION overlaps(p period_ends, q period_ends) RETURNS datemultirange IMMUTABLE PARALLEL SAFE
RETURN CASE WHEN p.start_low >= q.end_high OR q.start_low >= p.end_high THEN '{}'::datemultirange
    ELSE nonempty(p) * nonempty(q) * less(p.start_low, p.start_high, q.end_low, q.end_high)
        * less(q.start_low, q.start_high, p.end_low, p.end_high) END;
COMMENT ON FUNCTION overlaps(period_ends, period_ends) IS 'the days on which two periods share a day';

CREATE FUNCTION starts(p period_ends, q period_ends) RETURNS datemultirange IMMUTABLE PARALLEL SAFE
RETURN nonempty(p) * nonempty(q) * same(p.start_low, p.start_high, q.start_low, q.start_high);
COMMENT ON FUNCTION starts(period_ends, period_ends) IS 'the days on which two periods start together';

CREATE FUNCTION finishes(p period_ends, q period_ends) RETURNS datemultirange IMMUTABLE PARALLEL SAFE
RETURN nonempty(p) * nonempty(q) * same(p.end_low, p.end_high, q.end_low, q.end_high);
COMMENT ON FUNCTION finishes(period_ends, period_ends) IS 'the days on which two periods end together';

CREATE FUNCTION during(p period_ends, q period_ends) RETURNS datemultirange IMMUTABLE PARALLEL SAFE
RETURN nonempty(p) * nonempty(q)
    * at_most(q.start_low, q.start_high, p.start_low, p.start_high) * at_most(p.end_low, p.end_high, q.end_low, q.end_high);
COMMENT ON FUNCTION during(period_ends, period_ends) IS 'the days on which p lies within q';

CREATE FUNCTION includes(p period_ends, q period_ends) RETURNS datemultirange IMMUTABLE PARALLEL SAFE
RETURN during(q, p);
COMMENT ON FUNCTION includes(period_ends, period_ends) IS 'the days on which q lies within p';

CREATE FUNCTION equals(p period_ends, q period_ends) RETURNS datemultirange IMMUTABLE PARALLEL SAFE
RETURN nonempty(p) * nonempty(q) * same(p, q);
COMMENT ON FUNCTION equals(period_ends, period_ends) IS 'the days on which two periods have the same days';


-- Texts as ongq spells them, in PL/pgSQL, which keeps its plans: a function of SQL that is no part of the query makes those of all
-- that it calls anew each time. Of a text that is none the reading is an error; but the ranges of a set may stand in any
-- order, touch, and be empty.

CREATE FUNCTION refuse(message text) RETURNS text IMMUTABLE STRICT PARALLEL SAFE LANGUAGE plpgsql
AS $$ BEGIN RAISE EXCEPTION USING MESSAGE = message, ERRCODE = 'data_exception'; END $$;
COMMENT ON FUNCTION refuse(text) IS
    'stops with the message; its argument is never known before the query runs, so that it stops only where it is met';

-- There is a year 0 in ongq, which is 1 BC, and none in PostgreSQL.

CREATE FUNCTION read_day(t text) RETURNS date IMMUTABLE STRICT PARALLEL SAFE LANGUAGE plpgsql AS $$
BEGIN
    RETURN CASE WHEN t IN ('-infinity', 'infinity') THEN t::date
        WHEN t ~ '^([0-9]{4}|-00[0-9]{4})-[0-9]{2}-[0-9]{2}$' AND left(t, 7) <> '-000000'
        THEN make_date(left(t, -6)::integer - CASE WHEN left(t, -6)::integer <= 0 THEN 1 ELSE 0 END,
            left(right(t, 5), 2)::integer, right(t, 2)::integer)
        ELSE ongoing.refuse('no day: ' || t)::date END;
END $$;
COMMENT ON FUNCTION read_day(text) IS 'the day of a day text';

CREATE FUNCTION read_point(t text) RETURNS point_ends IMMUTABLE STRICT PARALLEL SAFE LANGUAGE plpgsql AS $$
BEGIN
    RETURN CASE WHEN t = 'now' THEN ROW('-infinity', 'infinity')::ongoing.point_ends
        WHEN t !~ '\+' THEN ongoing.fixed(ongoing.read_day(t))
        WHEN t ~ '^\+[-0-9]+$' THEN ROW('-infinity', ongoing.read_day(substr(t, 2)))::ongoing.point_ends
        WHEN t ~ '^[-0-9]+\+$' THEN ROW(ongoing.read_day(left(t, -1)), 'infinity')::ongoing.point_ends
        WHEN t ~ '^[-0-9]+\+[-0-9]+$' AND ongoing.read_day(split_part(t, '+', 1)) < ongoing.read_day(split_part(t, '+', 2))
        THEN ROW(ongoing.read_day(split_part(t, '+', 1)), ongoing.read_day(split_part(t, '+', 2)))::ongoing.point_ends
        ELSE ROW(ongoing.refuse('no point: ' || t), NULL)::ongoing.point_ends END;
END $$;
COMMENT ON FUNCTION read_point(text) IS 'the point of a point text';

CREATE FUNCTION read_period(t text) RETURNS period_ends IMMUTABLE STRICT PARALLEL SAFE LANGUAGE plpgsql AS $$
BEGIN
    RETURN CASE WHEN t ~ '^\[[^,]+,[^,]+\)$'
        THEN ongoing.period(ongoing.read_point(substr(split_part(t, ',', 1), 2)), ongoing.read_point(left(split_part(t, ',', 2), -1)))
        ELSE ROW(ongoing.refuse('no period: ' || t), NULL, NULL, NULL)::ongoing.period_ends END;
END $$;
COMMENT ON FUNCTION read_period(text) IS 'the period of a period text';

CREATE FUNCTION read_end(t text) RETURNS date IMMUTABLE STRICT PARALLEL SAFE LANGUAGE plpgsql AS $$
BEGIN
    RETURN CASE WHEN t ~ '^-00[0-9]{4}-' AND (substr(t, 4, 4) > '4713' OR substr(t, 4, 4) = '4713' AND right(t, 5) <= '11-24')
        THEN '-infinity' ELSE ongoing.read_day(t) END;
END $$;
COMMENT ON FUNCTION read_end(text) IS
    'the end of a range in a set text; -infinity up to PostgreSQL''s first day, before which there is none';

CREATE FUNCTION read_days(t text) RETURNS datemultirange IMMUTABLE STRICT PARALLEL SAFE LANGUAGE plpgsql AS $$
BEGIN
    RETURN CASE WHEN t = '*' THEN '{(,)}'::datemultirange
        WHEN t ~ '^\{(\[[-0-9a-z]+,[-0-9a-z]+\)(,\[[-0-9a-z]+,[-0-9a-z]+\))*)?\}$'
        THEN (SELECT coalesce(range_agg(daterange(nullif(ongoing.read_end(ends[1]), '-infinity'), nullif(ongoing.read_end(ends[2]), 'infinity')))
                FILTER (WHERE ongoing.read_end(ends[2]) > '-infinity'), '{}')
            FROM regexp_matches(t, '\[([^,]+),([^)]+)\)', 'g') AS found(ends))
        ELSE ongoing.refuse('no days: ' || t)::datemultirange END;
END $$;
COMMENT ON FUNCTION read_days(text) IS 'the days of a set text, or of * for all days';

CREATE FUNCTION show(day date) RETURNS text IMMUTABLE STRICT PARALLEL SAFE LANGUAGE plpgsql AS $$
BEGIN
    RETURN CASE WHEN day BETWEEN '0001-01-01' AND '9999-12-31' THEN to_char(day::timestamp, 'YYYY-MM-DD')
        WHEN day = 'infinity' THEN 'infinity' WHEN day = '-infinity' THEN '-infinity'
        WHEN day > '9999-12-31' THEN ongoing.refuse('past the last day of ongq: year ' || extract(year FROM day)::integer)
        ELSE CASE WHEN day < '0001-01-01 BC' THEN '-' || lpad((-1 - extract(year FROM day)::integer)::text, 6, '0') ELSE '0000' END
            || '-' || lpad(extract(month FROM day)::integer::text, 2, '0')
            || '-' || lpad(extract(day FROM day)::integer::text, 2, '0') END;
END $$;
COMMENT ON FUNCTION show(date) IS 'the day text of a day; an error past 9999-12-31, the last day of ongq';

CREATE FUNCTION show(p point_ends) RETURNS text IMMUTABLE STRICT PARALLEL SAFE LANGUAGE plpgsql AS $$
BEGIN
    RETURN CASE WHEN p.low = p.high THEN ongoing.show(p.low)
        WHEN p.low = '-infinity' AND p.high = 'infinity' THEN 'now'
        ELSE CASE WHEN p.low = '-infinity' THEN '' ELSE ongoing.show(p.low) END || '+'
            || CASE WHEN p.high = 'infinity' THEN '' ELSE ongoing.show(p.high) END END;
END $$;
COMMENT ON FUNCTION show(point_ends) IS 'the point text of a point';

CREATE FUNCTION show(p period_ends) RETURNS text IMMUTABLE STRICT PARALLEL SAFE LANGUAGE plpgsql AS $$
BEGIN
    RETURN '[' || ongoing.show(ongoing.start_of(p)) || ',' || ongoing.show(ongoing.end_of(p)) || ')';
END $$;
COMMENT ON FUNCTION show(period_ends) IS 'the period text of a period';

CREATE FUNCTION show(s span) RETURNS text IMMUTABLE STRICT PARALLEL SAFE LANGUAGE plpgsql AS $$
BEGIN
    RETURN '[' || ongoing.show(s.first) || ',' || ongoing.show(s.until) || ')';
END $$;
COMMENT ON FUNCTION show(span) IS 'the text of a period as it is on a day';

CREATE FUNCTION show(days datemultirange) RETURNS text IMMUTABLE STRICT PARALLEL SAFE LANGUAGE plpgsql AS $$
BEGIN
    RETURN CASE WHEN days @> '{(,10000-01-01)}'::datemultirange THEN '*' ELSE
        (SELECT '{' || coalesce(string_agg('[' || coalesce(ongoing.show(lower(one)), '-infinity') || ','
                || CASE WHEN upper(one) < '10000-01-01' THEN ongoing.show(upper(one)) ELSE 'infinity' END || ')',
                ',' ORDER BY lower(one) NULLS FIRST), '') || '}'
        FROM unnest(days * '{(,10000-01-01)}'::datemultirange) AS one) END;
END $$;
COMMENT ON FUNCTION show(datemultirange) IS
    'the set text of a set of days, up to the last day of ongq; * for all of them';

CREATE FUNCTION show(n bigint) RETURNS text IMMUTABLE STRICT PARALLEL SAFE
RETURN n::text;
COMMENT ON FUNCTION show(bigint) IS 'a number as it is, so that each kind of value is shown by one name';

CREATE FUNCTION show(t text) RETURNS text IMMUTABLE STRICT PARALLEL SAFE
RETURN t;
COMMENT ON FUNCTION show(text) IS 'a text as it is, so that each kind of value is shown by one name';


-- Casts. What a text says is checked as it is read.

CREATE CAST (date AS point_ends) WITH FUNCTION fixed(date) AS IMPLICIT;
COMMENT ON CAST (date AS point_ends) IS 'a date is the point that is always that day';
CREATE CAST (daterange AS period_ends) WITH FUNCTION fixed(daterange) AS IMPLICIT;
COMMENT ON CAST (daterange AS period_ends) IS 'a daterange is the same period on each day';
CREATE CAST (text AS point_ends) WITH FUNCTION read_point(text) AS IMPLICIT;
COMMENT ON CAST (text AS point_ends) IS 'the point of a point text';
CREATE CAST (text AS period_ends) WITH FUNCTION read_period(text) AS IMPLICIT;
COMMENT ON CAST (text AS period_ends) IS 'the period of a period text';
CREATE CAST (point_ends AS text) WITH FUNCTION show(point_ends) AS ASSIGNMENT;
COMMENT ON CAST (point_ends AS text) IS 'the point text of a point';
CREATE CAST (period_ends AS text) WITH FUNCTION show(period_ends) AS ASSIGNMENT;
COMMENT ON CAST (period_ends AS text) IS 'the period text of a period';
CREATE CAST (span AS text) WITH FUNCTION show(span) AS ASSIGNMENT;
COMMENT ON CAST (span AS text) IS 'the text of a period as it is on a day';

-- A literal beside a point or a period is a text for PostgreSQL where a function takes one there. So each function of two takes
-- a text for either, and of two texts where no other of its name does.
DO $$
DECLARE
    two record;
    texts text[];
BEGIN
    FOR two IN SELECT proname AS name, proargtypes[0]::regtype AS first, proargtypes[1]::regtype AS second,
            prorettype::regtype AS result, count(*) OVER (PARTITION BY proname) = 1 AS is_alone
        FROM pg_proc WHERE pronamespace = 'ongoing'::regnamespace AND pronargs = 2
            AND proargtypes[0] IN ('point_ends'::regtype, 'period_ends'::regtype)
            AND proargtypes[1] IN ('point_ends'::regtype, 'period_ends'::regtype)
    LOOP
        FOREACH texts SLICE 1 IN ARRAY ARRAY[[two.first::text, 'text'], ['text', two.second::text], ['text', 'text']] LOOP
            CONTINUE WHEN texts = ARRAY['text', 'text'] AND NOT two.is_alone;
            EXECUTE format('CREATE FUNCTION %I(a %s, b %s) RETURNS %s IMMUTABLE PARALLEL SAFE RETURN %1$I(a::%5$s, b::%6$s)',
                two.name, texts[1], texts[2], two.result, two.first, two.second);
            EXECUTE format('COMMENT ON FUNCTION %I(%s, %s) IS %L', two.name, texts[1], texts[2], 'the same, with what a text says');
        END LOOP;
    END LOOP;
END $$;


-- Operators. They are of the exact types, so that none of them means PostgreSQL's order of records.

CREATE OPERATOR < (FUNCTION = less, LEFTARG = point_ends, RIGHTARG = point_ends, COMMUTATOR = >);
COMMENT ON OPERATOR < (point_ends, point_ends) IS 'the days on which of two points the left is before the right';
CREATE OPERATOR <= (FUNCTION = at_most, LEFTARG = point_ends, RIGHTARG = point_ends, COMMUTATOR = >=);
COMMENT ON OPERATOR <= (point_ends, point_ends) IS 'the days on which of two points the left is not behind the right';
CREATE OPERATOR = (FUNCTION = same, LEFTARG = point_ends, RIGHTARG = point_ends, COMMUTATOR = =);
COMMENT ON OPERATOR = (point_ends, point_ends) IS 'the days on which of two points both are the same';
CREATE OPERATOR <> (FUNCTION = differs, LEFTARG = point_ends, RIGHTARG = point_ends, COMMUTATOR = <>);
COMMENT ON OPERATOR <> (point_ends, point_ends) IS 'the days on which of two points both are not the same';
CREATE OPERATOR >= (FUNCTION = at_least, LEFTARG = point_ends, RIGHTARG = point_ends, COMMUTATOR = <=);
COMMENT ON OPERATOR >= (point_ends, point_ends) IS 'the days on which of two points the left is not before the right';
CREATE OPERATOR > (FUNCTION = more, LEFTARG = point_ends, RIGHTARG = point_ends, COMMUTATOR = <);
COMMENT ON OPERATOR > (point_ends, point_ends) IS 'the days on which of two points the left is behind the right';
CREATE OPERATOR < (FUNCTION = less, LEFTARG = period_ends, RIGHTARG = period_ends, COMMUTATOR = >);
COMMENT ON OPERATOR < (period_ends, period_ends) IS
    'the days on which of two periods the left is before the right in the order of rows';
CREATE OPERATOR <= (FUNCTION = at_most, LEFTARG = period_ends, RIGHTARG = period_ends, COMMUTATOR = >=);
COMMENT ON OPERATOR <= (period_ends, period_ends) IS
    'the days on which of two periods the left is not behind the right in the order of rows';
CREATE OPERATOR = (FUNCTION = same, LEFTARG = period_ends, RIGHTARG = period_ends, COMMUTATOR = =);
COMMENT ON OPERATOR = (period_ends, period_ends) IS 'the days on which of two periods both are the same';
CREATE OPERATOR <> (FUNCTION = differs, LEFTARG = period_ends, RIGHTARG = period_ends, COMMUTATOR = <>);
COMMENT ON OPERATOR <> (period_ends, period_ends) IS 'the days on which of two periods both are not the same';
CREATE OPERATOR >= (FUNCTION = at_least, LEFTARG = period_ends, RIGHTARG = period_ends, COMMUTATOR = <=);
COMMENT ON OPERATOR >= (period_ends, period_ends) IS
    'the days on which of two periods the left is not before the right in the order of rows';
CREATE OPERATOR > (FUNCTION = more, LEFTARG = period_ends, RIGHTARG = period_ends, COMMUTATOR = <);
COMMENT ON OPERATOR > (period_ends, period_ends) IS
    'the days on which of two periods the left is behind the right in the order of rows';
CREATE OPERATOR && (FUNCTION = overlaps, LEFTARG = period_ends, RIGHTARG = period_ends, COMMUTATOR = &&);
COMMENT ON OPERATOR && (period_ends, period_ends) IS 'the days on which two periods share a day';
CREATE OPERATOR << (FUNCTION = before, LEFTARG = period_ends, RIGHTARG = period_ends, COMMUTATOR = >>);
COMMENT ON OPERATOR << (period_ends, period_ends) IS 'the days on which the left ends before the right starts';
CREATE OPERATOR >> (FUNCTION = after, LEFTARG = period_ends, RIGHTARG = period_ends, COMMUTATOR = <<);
COMMENT ON OPERATOR >> (period_ends, period_ends) IS 'the days on which the right ends before the left starts';
CREATE OPERATOR <@ (FUNCTION = during, LEFTARG = period_ends, RIGHTARG = period_ends, COMMUTATOR = @>);
COMMENT ON OPERATOR <@ (period_ends, period_ends) IS 'the days on which the left lies within the right';
CREATE OPERATOR @> (FUNCTION = includes, LEFTARG = period_ends, RIGHTARG = period_ends, COMMUTATOR = <@);
COMMENT ON OPERATOR @> (period_ends, period_ends) IS 'the days on which the right lies within the left';
CREATE OPERATOR @> (FUNCTION = contains, LEFTARG = period_ends, RIGHTARG = point_ends, COMMUTATOR = <@);
COMMENT ON OPERATOR @> (period_ends, point_ends) IS 'the days on which a period has a day';
CREATE OPERATOR <@ (FUNCTION = within, LEFTARG = point_ends, RIGHTARG = period_ends, COMMUTATOR = @>);
COMMENT ON OPERATOR <@ (point_ends, period_ends) IS 'the days on which a day is one of a period';
CREATE OPERATOR * (FUNCTION = common, LEFTARG = period_ends, RIGHTARG = period_ends, COMMUTATOR = *);
COMMENT ON OPERATOR * (period_ends, period_ends) IS 'the days that two periods share';

-- A daterange is a period too, so that PostgreSQL could not choose between these and its own operators of any ranges. So
-- there is one of two dateranges for each, which is its own.
DO $$
DECLARE
    own text[];
BEGIN
    FOREACH own SLICE 1 IN ARRAY ARRAY[['=', 'range_eq', 'daterange', 'daterange', 'boolean'],
        ['<>', 'range_ne', 'daterange', 'daterange', 'boolean'], ['<', 'range_lt', 'daterange', 'daterange', 'boolean'],
        ['<=', 'range_le', 'daterange', 'daterange', 'boolean'], ['>=', 'range_ge', 'daterange', 'daterange', 'boolean'],
        ['>', 'range_gt', 'daterange', 'daterange', 'boolean'], ['&&', 'range_overlaps', 'daterange', 'daterange', 'boolean'],
        ['<<', 'range_before', 'daterange', 'daterange', 'boolean'], ['>>', 'range_after', 'daterange', 'daterange', 'boolean'],
        ['<@', 'range_contained_by', 'daterange', 'daterange', 'boolean'],
        ['@>', 'range_contains', 'daterange', 'daterange', 'boolean'],
        ['@>', 'range_contains_elem', 'daterange', 'date', 'boolean'],
        ['<@', 'elem_contained_by_range', 'date', 'daterange', 'boolean'],
        ['*', 'range_intersect', 'daterange', 'daterange', 'daterange']]
    LOOP
        EXECUTE format('CREATE FUNCTION %2$s(a %3$s, b %4$s) RETURNS %5$s IMMUTABLE PARALLEL SAFE '
            'RETURN a OPERATOR(pg_catalog.%1$s) b', VARIADIC own);
        EXECUTE format('COMMENT ON FUNCTION %2$s(%3$s, %4$s) IS %6$L', VARIADIC own || ARRAY['PostgreSQL''s own ' || own[1]]);
        EXECUTE format('CREATE OPERATOR %1$s (FUNCTION = %2$s, LEFTARG = %3$s, RIGHTARG = %4$s)', VARIADIC own);
        EXECUTE format('COMMENT ON OPERATOR %1$s (%3$s, %4$s) IS %6$L', VARIADIC own || ARRAY['PostgreSQL''s own ' || own[1]]);
    END LOOP;
END $$;


-- Tables.

CREATE FUNCTION column_at(name name, kind oid) RETURNS text IMMUTABLE STRICT PARALLEL SAFE
RETURN CASE WHEN kind IN ('ongoing_point'::regtype, 'point_ends'::regtype, 'ongoing_period'::regtype, 'period_ends'::regtype)
    THEN format('ongoing.at(%1$I, $1) AS %1$I', name) ELSE format('%I', name) END;
COMMENT ON FUNCTION column_at(name, oid) IS 'what a column is as of the day $1: a text of SQL';

CREATE FUNCTION type_at(kind oid, modifier integer) RETURNS text STABLE PARALLEL SAFE
RETURN CASE WHEN kind IN ('ongoing_point'::regtype, 'point_ends'::regtype) THEN 'date'
    WHEN kind IN ('ongoing_period'::regtype, 'period_ends'::regtype) THEN 'ongoing.span' ELSE format_type(kind, modifier) END;
COMMENT ON FUNCTION type_at(oid, integer) IS 'the type of a column as of a day';

CREATE FUNCTION columns_of(of oid) RETURNS text STABLE STRICT PARALLEL SAFE LANGUAGE sql
BEGIN ATOMIC
    SELECT string_agg(format('%I %s', attname, format_type(atttypid, atttypmod)), ', ' ORDER BY attnum)
    FROM pg_attribute WHERE attrelid = of AND attnum > 0 AND NOT attisdropped;
END;
COMMENT ON FUNCTION columns_of(oid) IS 'the columns of a table or view with their types';

CREATE FUNCTION has_columns(of regclass, columns text) RETURNS boolean STABLE STRICT PARALLEL SAFE LANGUAGE plpgsql
SET search_path = pg_catalog AS $$
BEGIN
    IF ongoing.columns_of(of) IS DISTINCT FROM columns THEN
        RAISE EXCEPTION 'the columns of % are no longer %', of, columns
            USING ERRCODE = 'invalid_table_definition', HINT = format('SELECT ongoing.make_as_of(%L) makes its function anew.', of);
    END IF;
    RETURN true;
END $$;
COMMENT ON FUNCTION has_columns(regclass, text) IS
    'true where a table has these columns with their types; an error where it has others';

-- It is put into the query, so an index on days is used. Where a period is the one column, PostgreSQL gives its parts as
-- the columns first and until. After a change of the columns it stops, and is to be made anew.
CREATE FUNCTION make_as_of(of regclass) RETURNS void LANGUAGE plpgsql SET search_path = pg_catalog AS $$
DECLARE
    place text := (SELECT format('%I.%I', n.nspname, c.relname || '_as_of')
        FROM pg_class c JOIN pg_namespace n ON n.oid = c.relnamespace WHERE c.oid = of);
    items text;
    kinds text;
BEGIN
    SELECT string_agg(ongoing.column_at(attname, atttypid), ', ' ORDER BY attnum),
        string_agg(format('%I %s', attname, ongoing.type_at(atttypid, atttypmod)), ', ' ORDER BY attnum)
    INTO items, kinds
    FROM pg_attribute WHERE attrelid = of AND attnum > 0 AND NOT attisdropped AND attname <> 'days';
    EXECUTE format('DROP FUNCTION IF EXISTS %s(date)', place);
    EXECUTE format('CREATE FUNCTION %s(date) RETURNS TABLE (%s) STABLE PARALLEL SAFE LANGUAGE sql '
        'AS $of$ SELECT DISTINCT %s FROM %s WHERE days @> $1 AND ongoing.has_columns(%L, %L) $of$',
        place, kinds, items, of, of, ongoing.columns_of(of));
END $$;
COMMENT ON FUNCTION make_as_of(regclass) IS
    'makes for a table or view t with a column days the function t_as_of(day): each row that is there on the day once, without its days';

CREATE FUNCTION kind_of(type oid) RETURNS text IMMUTABLE STRICT PARALLEL SAFE
RETURN CASE WHEN type IN ('bigint'::regtype, 'integer'::regtype, 'smallint'::regtype) THEN 'INT'
    WHEN type IN ('text'::regtype, 'varchar'::regtype, 'bpchar'::regtype) THEN 'TEXT'
    WHEN type IN ('date'::regtype, 'ongoing_point'::regtype, 'point_ends'::regtype) THEN 'DATE'
    WHEN type IN ('daterange'::regtype, 'ongoing_period'::regtype, 'period_ends'::regtype) THEN 'PERIOD' END;
COMMENT ON FUNCTION kind_of(oid) IS 'the kind of ongq that a column of a type becomes; NULL where there is none';

CREATE FUNCTION show(days daterange, open text) RETURNS text IMMUTABLE STRICT PARALLEL SAFE LANGUAGE plpgsql AS $$
BEGIN
    RETURN CASE WHEN NOT isempty(days) AND coalesce(upper(days), 'infinity') = 'infinity'
        THEN '[' || ongoing.show(coalesce(lower(days), '-infinity')) || ',' || open || ')' ELSE ongoing.show(ongoing.fixed(days)) END;
END $$;
COMMENT ON FUNCTION show(daterange, text) IS
    'the text of a range as a period; a range without an end ends with the point of the text that is given';

CREATE FUNCTION shown(value text, name text) RETURNS text IMMUTABLE PARALLEL SAFE
LANGUAGE plpgsql AS $$
BEGIN
    RETURN coalesce(value, ongoing.refuse('ongq has no NULL, and the column has one: ' || name));
END $$;
COMMENT ON FUNCTION shown(text, text) IS 'the value that is shown; an error where it is NULL';

CREATE FUNCTION name_of(name name, may_be_reserved boolean) RETURNS text IMMUTABLE STRICT PARALLEL SAFE
RETURN CASE WHEN name::text COLLATE "C" !~ '^[A-Za-z_][A-Za-z0-9_]*$' THEN refuse('no name of ongq: ' || name)
    WHEN NOT may_be_reserved AND lower(name::text COLLATE "C") IN ('and', 'as', 'before', 'common', 'contains', 'create', 'date', 'delete',
        'drop', 'during', 'empty', 'end', 'equals', 'except', 'exists', 'explain', 'finishes', 'from', 'greatest', 'import', 'insert',
        'int', 'intersect', 'into', 'join', 'keep', 'least', 'live', 'meets', 'not', 'of', 'on', 'ongoing', 'open', 'or', 'overlaps',
        'period', 'print', 'save', 'select', 'set', 'start', 'starts', 'table', 'tables', 'text', 'to', 'union', 'update', 'valid',
        'values', 'where') THEN refuse('a reserved word of ongq: ' || name)
    ELSE lower(name::text COLLATE "C") END;
COMMENT ON FUNCTION name_of(name, boolean) IS
    'the name as ongq keeps it; an error where it is none, or a reserved word where it may not be one, as in CREATE TABLE';

CREATE FUNCTION is_days(name name, type oid) RETURNS boolean IMMUTABLE PARALLEL SAFE
RETURN name = 'days' AND type = 'datemultirange'::regtype;
COMMENT ON FUNCTION is_days(name, oid) IS 'whether a column has the days on which each row is there';

CREATE FUNCTION cell_of(name name, type oid, open text) RETURNS text IMMUTABLE STRICT PARALLEL SAFE
RETURN format('ongoing.shown(%s, %L)', CASE WHEN type = 'daterange'::regtype THEN format('ongoing.show(%I, %L)', name, open)
    WHEN kind_of(type) = 'INT' THEN format('ongoing.show(%I::bigint)', name)
    WHEN kind_of(type) = 'TEXT' THEN format('ongoing.show(%I::text)', name)
    WHEN kind_of(type) IS NULL THEN refuse(format('no kind of ongq for %s %s', name, type::regtype))
    ELSE format('ongoing.show(%I)', name) END, name);
COMMENT ON FUNCTION cell_of(name, oid, text) IS 'what gives the cell of a column: a text of SQL';

CREATE FUNCTION columns_for(of regclass, may_be_reserved boolean) RETURNS SETOF pg_attribute STABLE LANGUAGE plpgsql
SET search_path = pg_catalog AS $$
DECLARE
    count bigint;
    different bigint;
BEGIN
    SELECT count(ongoing.name_of(attname, may_be_reserved)), count(DISTINCT lower(attname COLLATE "C")) INTO count, different
    FROM pg_attribute WHERE attrelid = of AND attnum > 0 AND NOT attisdropped AND NOT ongoing.is_days(attname, atttypid);
    PERFORM ongoing.refuse(format('ongq has 1 to 64 columns: %s has %s', of, count)) WHERE count NOT BETWEEN 1 AND 64;
    PERFORM ongoing.refuse(format('two columns of %s have one name in ongq', of)) WHERE different < count AND NOT may_be_reserved;
    RETURN QUERY SELECT * FROM pg_attribute
        WHERE attrelid = of AND attnum > 0 AND NOT attisdropped AND NOT ongoing.is_days(attname, atttypid) ORDER BY attnum;
END $$;
COMMENT ON FUNCTION columns_for(regclass, boolean) IS
    'the columns of a table but its days; an error where ongq refuses their number or names';

CREATE FUNCTION has_days(of regclass) RETURNS boolean STABLE LANGUAGE sql
BEGIN ATOMIC
    SELECT EXISTS (SELECT FROM pg_attribute WHERE attrelid = of AND attnum > 0 AND NOT attisdropped AND is_days(attname, atttypid));
END;
COMMENT ON FUNCTION has_days(regclass) IS 'whether a table has a column days with the days on which each row is there';

-- A table file, for IMPORT.

CREATE FUNCTION unload_query(of regclass, open text) RETURNS text STABLE LANGUAGE sql
BEGIN ATOMIC
    SELECT CASE WHEN has_days(of) THEN refuse(format('a table file has no days of rows: interop/postgres/save saves %s', of))
        ELSE format('SELECT %s FROM %s', string_agg(format('%s AS %I', cell_of(attname, atttypid, open), attname), ', ' ORDER BY attnum), of) END
    FROM columns_for(of, false);
END;
COMMENT ON FUNCTION unload_query(regclass, text) IS 'the query of the cells of a table file of a table';

CREATE FUNCTION create_table(of regclass) RETURNS text STABLE LANGUAGE sql
BEGIN ATOMIC
    SELECT format('CREATE TABLE %s (%s);', name_of((SELECT relname FROM pg_class WHERE oid = of), false),
        string_agg(name_of(attname, false) || ' ' || kind_of(atttypid), ', ' ORDER BY attnum))
    FROM columns_for(of, false);
END;
COMMENT ON FUNCTION create_table(regclass) IS 'the statement of ongq that makes the table for a table file of a table';

-- A saved file of version 2, for OPEN.

CREATE FUNCTION field(cell text) RETURNS text IMMUTABLE STRICT PARALLEL SAFE LANGUAGE plpgsql AS $$
BEGIN
    RETURN CASE WHEN cell ~ '[,"\r\n]' THEN '"' || replace(cell, '"', '""') || '"' ELSE cell END;
END $$;
COMMENT ON FUNCTION field(text) IS 'a field of a record as ongq writes it, with quotes where it needs them';

CREATE FUNCTION save_header(of regclass) RETURNS text STABLE LANGUAGE sql
BEGIN ATOMIC
    SELECT string_agg(name_of(attname, true) || ':' || coalesce(kind_of(atttypid), ''), ',' ORDER BY attnum) FROM columns_for(of, true);
END;
COMMENT ON FUNCTION save_header(regclass) IS 'the record of the columns in a saved file of a table';

CREATE FUNCTION save_query(of regclass) RETURNS text STABLE LANGUAGE sql
BEGIN ATOMIC
    SELECT format(CASE WHEN has_days(of) THEN
        'SELECT %s || '','' || ongoing.field(ongoing.shown(ongoing.show(days), ''days'')) FROM %s WHERE (days && ''{(,10000-01-01)}'') IS NOT FALSE'
        ELSE 'SELECT %s || '',*'' FROM %s' END,
        string_agg(format('ongoing.field(%s)', cell_of(attname, atttypid, 'infinity')), ' || '','' || ' ORDER BY attnum), of)
    FROM columns_for(of, true);
END;
COMMENT ON FUNCTION save_query(regclass) IS 'the query of the records of rows in a saved file of a table';
