-- indexes on lefts (since, until, lid) and rights (since, until, rid); of two periods that overlap one begins in the other
CREATE INDEX lefts_by ON lefts (since, until, lid);
CREATE INDEX rights_by ON rights (since, until, rid);
ANALYZE;
-- each time:
SELECT lid, rid FROM lefts l JOIN rights r ON r.since >= l.since AND r.since < COALESCE(l.until, '$day')
WHERE r.since < COALESCE(r.until, '$day')
UNION ALL
SELECT lid, rid FROM rights r JOIN lefts l ON l.since > r.since AND l.since < COALESCE(r.until, '$day')
WHERE l.since < COALESCE(l.until, '$day');
