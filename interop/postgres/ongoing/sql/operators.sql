-- Operators of points and periods give days, and none of them the order of records.
SET search_path = public, ongoing;
SET datestyle = ISO;
CREATE TABLE asked (number integer, p ongoing_point, q ongoing_point, a ongoing_period, b ongoing_period);
INSERT INTO asked VALUES
    (1, text '2020-01-10', text 'now', text '[2020-01-01,now)', text '[2020-01-05,2020-01-20)'),
    (2, text '2020-01-05+2020-01-20', date '2020-01-10', text '[2020-01-05,2020-01-10)', text '[2020-01-01,now)'),
    (3, text 'now', text 'now', text '[now,2020-01-10)', text '[now,2020-01-10)');
SELECT number, p < q AS "<", p <= q AS "<=", p = q AS "=", p <> q AS "<>", p >= q AS ">=", p > q AS ">" FROM asked ORDER BY number;
SELECT number, a < b AS "<", a <= b AS "<=", a = b AS "=", a <> b AS "<>", a >= b AS ">=", a > b AS ">" FROM asked ORDER BY number;
SELECT number, a && b AS "&&", a << b AS "<<", a >> b AS ">>", a <@ b AS "<@", a @> b AS "@>", a @> p AS "@> p", p <@ a AS "p <@", (a * b)::text AS "*"
FROM asked ORDER BY number;

-- Each is its function.
SELECT number FROM asked
WHERE (p < q, p <= q, p = q, p <> q, p >= q, p > q) IS DISTINCT FROM (less(p, q), at_most(p, q), same(p, q), differs(p, q), at_most(q, p), less(q, p))
    OR (a && b, a << b, a >> b, a <@ b, a @> b, a @> p, p <@ a)
        IS DISTINCT FROM (overlaps(a, b), before(a, b), before(b, a), during(a, b), during(b, a), contains(a, p), contains(a, p))
    OR (a < b, a <= b, a = b, a <> b, a >= b, a > b) IS DISTINCT FROM (less(a, b), other_days(less(b, a)), same(a, b), other_days(same(a, b)), other_days(less(a, b)), less(b, a));

-- Beside a date, a daterange and a text.
SELECT number, p < date '2020-01-15' AS date, a && daterange '[2020-01-03,2020-01-04)' AS daterange, a && text '[2020-01-03,now)' AS text FROM asked ORDER BY number;

-- No condition of a query: an error and no order of records.
SELECT number FROM asked WHERE p < q;
SELECT number FROM asked WHERE a = b;
SELECT number FROM asked WHERE p IN (q);
SELECT number FROM asked WHERE (p, a) = (q, b);
SELECT s.number FROM asked s JOIN asked t USING (a);

-- Two dateranges, and a date in one, are what they are in PostgreSQL; rows with equal values are equal.
SELECT r = s, r <> s, r < s, r <= s, r >= s, r > s, r && s, r << s, r >> s, r <@ s, r @> s, r @> d, d <@ r, r * s
FROM (VALUES (daterange '[2020-01-01,2020-02-01)', daterange '[2020-01-10,2020-03-01)', date '2020-01-31')) AS v(r, s, d);
SELECT count(DISTINCT a) AS a, count(DISTINCT p) AS p FROM asked;
