-- a hash anti join on comp
ANALYZE bugs, patch;
-- each time:
COPY (
    WITH b AS (SELECT id, comp, since, COALESCE(until, DATE '$day') AS until FROM bugs),
         p AS (SELECT comp, since, COALESCE(until, DATE '$day') AS until FROM patch)
    SELECT id, comp FROM b
    WHERE NOT EXISTS (
        SELECT FROM p WHERE p.comp = b.comp
            AND b.since < p.until AND p.since < b.until AND b.since < b.until AND p.since < p.until
    )
) TO STDOUT WITH (FORMAT csv, HEADER);
