-- an index on patch (comp, since, until, pid); a table of the pairs that ever overlap, with the day after which they do
CREATE INDEX patch_by ON patch (comp, since, until, pid);
ANALYZE;
CREATE TABLE pairs AS
    SELECT b.id, p.pid, CASE WHEN b.until IS NULL OR p.until IS NULL THEN max(b.since, p.since) ELSE '' END AS after
    FROM bugs b JOIN patch p ON b.comp = p.comp
    WHERE b.since < COALESCE(p.until, 'infinity') AND p.since < COALESCE(b.until, 'infinity');
-- each time:
SELECT id, pid FROM pairs WHERE after < '$day';
