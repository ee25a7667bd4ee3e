-- no index
-- each time:
COPY (SELECT id, comp, since, COALESCE(until, '$day') AS until FROM bugs) TO STDOUT WITH (FORMAT csv, HEADER);
