-- an index on bugs (id), and a hash join on comp
CREATE INDEX ON bugs (id);
ANALYZE bugs, patch;
-- each time:
UPDATE bugs SET until = NULL WHERE id BETWEEN $first AND $last;
COPY (
    WITH b AS (SELECT id, comp, since, COALESCE(until, DATE '$day') AS until FROM bugs),
         p AS (SELECT pid, comp, since, COALESCE(until, DATE '$day') AS until FROM patch)
    SELECT b.id, p.pid FROM b JOIN p ON b.comp = p.comp
    WHERE b.since < p.until AND p.since < b.until AND b.since < b.until AND p.since < p.until
) TO STDOUT WITH (FORMAT csv, HEADER);
