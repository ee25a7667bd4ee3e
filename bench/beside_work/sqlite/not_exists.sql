-- an index on patch (comp, since, until)
CREATE INDEX patch_by ON patch (comp, since, until);
ANALYZE;
-- each time:
WITH b AS (SELECT id, comp, since, COALESCE(until, '$day') AS until FROM bugs),
     p AS (SELECT comp, since, COALESCE(until, '$day') AS until FROM patch)
SELECT id, comp FROM b
WHERE NOT EXISTS (
    SELECT 1 FROM p WHERE p.comp = b.comp
        AND b.since < p.until AND p.since < b.until AND b.since < b.until AND p.since < p.until
);
