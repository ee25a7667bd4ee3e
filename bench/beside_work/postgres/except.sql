-- no index
ANALYZE jobs, known;
-- each time:
COPY (
    SELECT comp, since, COALESCE(until, DATE '$day') AS until FROM jobs
    EXCEPT SELECT comp, since, COALESCE(until, DATE '$day') FROM known
) TO STDOUT WITH (FORMAT csv, HEADER);
