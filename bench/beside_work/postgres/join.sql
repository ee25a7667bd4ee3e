-- a hash join on comp
ANALYZE bugs, patch;
-- each time:
COPY (
    WITH b AS (SELECT id, comp, since, COALESCE(until, DATE '$day') AS until FROM bugs),
         p AS (SELECT pid, comp, since, COALESCE(until, DATE '$day') AS until FROM patch)
    SELECT b.id, p.pid FROM b JOIN p ON b.comp = p.comp
    WHERE b.since < p.until AND p.since < b.until AND b.since < b.until AND p.since < p.until
) TO STDOUT WITH (FORMAT csv, HEADER);
