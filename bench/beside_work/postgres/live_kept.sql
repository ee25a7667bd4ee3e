-- indexes on bugs (id), patch (comp) and pairs (id); the pairs of changed bugs are made anew
-- The indexes come after pairs, since a hash join makes all of these sooner than the index of patch does.
ANALYZE bugs, patch;
CREATE VIEW ever AS
    SELECT b.id, p.pid,
        CASE WHEN b.until IS NULL OR p.until IS NULL THEN GREATEST(b.since, p.since) ELSE '-infinity' END AS after
    FROM bugs b JOIN patch p ON b.comp = p.comp
    WHERE b.since < COALESCE(p.until, 'infinity') AND p.since < COALESCE(b.until, 'infinity');
CREATE UNLOGGED TABLE pairs AS TABLE ever;
CREATE INDEX ON bugs (id);
CREATE INDEX ON patch (comp);
CREATE INDEX ON pairs (id);
ANALYZE pairs;
-- each time:
UPDATE bugs SET until = NULL WHERE id BETWEEN $first AND $last;
DELETE FROM pairs WHERE id BETWEEN $first AND $last;
INSERT INTO pairs SELECT * FROM ever WHERE id BETWEEN $first AND $last;
COPY (SELECT id, pid FROM pairs WHERE after < '$day') TO STDOUT WITH (FORMAT csv, HEADER);
