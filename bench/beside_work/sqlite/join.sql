-- an index on patch (comp, since, until, pid)
CREATE INDEX patch_by ON patch (comp, since, until, pid);
ANALYZE;
-- each time:
WITH b AS (SELECT id, comp, since, COALESCE(until, '$day') AS until FROM bugs),
     p AS (SELECT pid, comp, since, COALESCE(until, '$day') AS until FROM patch)
SELECT b.id, p.pid FROM b JOIN p ON b.comp = p.comp
WHERE b.since < p.until AND p.since < b.until AND b.since < b.until AND p.since < p.until;
