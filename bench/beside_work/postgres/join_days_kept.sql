-- a table of the pairs that ever overlap, with the day after which they do
ANALYZE bugs, patch;
CREATE UNLOGGED TABLE pairs AS
    SELECT b.id, p.pid,
        CASE WHEN b.until IS NULL OR p.until IS NULL THEN GREATEST(b.since, p.since) ELSE '-infinity' END AS after
    FROM bugs b JOIN patch p ON b.comp = p.comp
    WHERE b.since < COALESCE(p.until, 'infinity') AND p.since < COALESCE(b.until, 'infinity');
-- each time:
COPY (SELECT id, pid FROM pairs WHERE after < '$day') TO STDOUT WITH (FORMAT csv, HEADER);
