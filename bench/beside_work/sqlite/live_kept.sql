-- indexes on bugs (id), patch (comp, since, until, pid) and pairs (id); the pairs of changed bugs are made anew
CREATE INDEX bugs_by ON bugs (id);
CREATE INDEX patch_by ON patch (comp, since, until, pid);
ANALYZE;
CREATE VIEW ever AS
    SELECT b.id, p.pid, CASE WHEN b.until IS NULL OR p.until IS NULL THEN max(b.since, p.since) ELSE '' END AS after
    FROM bugs b JOIN patch p ON b.comp = p.comp
    WHERE b.since < COALESCE(p.until, 'infinity') AND p.since < COALESCE(b.until, 'infinity');
CREATE TABLE pairs AS SELECT * FROM ever;
CREATE INDEX pairs_by ON pairs (id);
-- each time:
UPDATE bugs SET until = NULL WHERE id BETWEEN $first AND $last;
DELETE FROM pairs WHERE id BETWEEN $first AND $last;
INSERT INTO pairs SELECT * FROM ever WHERE id BETWEEN $first AND $last;
SELECT id, pid FROM pairs WHERE after < '$day';
