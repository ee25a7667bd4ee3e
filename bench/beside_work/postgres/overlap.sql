-- indexes on lefts (since) and rights (since); of two periods that overlap one begins in the other
-- With + 0 the planner cannot take the index of the other table, which would find half of its rows.
CREATE INDEX ON lefts (since);
CREATE INDEX ON rights (since);
ANALYZE lefts, rights;
-- each time:
COPY (
    SELECT lid, rid FROM lefts l JOIN rights r ON r.since >= l.since + 0 AND r.since < COALESCE(l.until, '$day')
    WHERE r.since < COALESCE(r.until, '$day')
    UNION ALL
    SELECT lid, rid FROM rights r JOIN lefts l ON l.since > r.since + 0 AND l.since < COALESCE(r.until, '$day')
    WHERE l.since < COALESCE(l.until, '$day')
) TO STDOUT WITH (FORMAT csv, HEADER);
