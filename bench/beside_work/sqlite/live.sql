-- indexes on bugs (id) and patch (comp, since, until, pid)
CREATE INDEX bugs_by ON bugs (id);
CREATE INDEX patch_by ON patch (comp, since, until, pid);
ANALYZE;
-- each time:
UPDATE bugs SET until = NULL WHERE id BETWEEN $first AND $last;
WITH b AS (SELECT id, comp, since, COALESCE(until, '$day') AS until FROM bugs),
     p AS (SELECT pid, comp, since, COALESCE(until, '$day') AS until FROM patch)
SELECT b.id, p.pid FROM b JOIN p ON b.comp = p.comp
WHERE b.since < p.until AND p.since < b.until AND b.since < b.until AND p.since < p.until;
