-- no index
-- each time:
SELECT comp, since, COALESCE(until, '$day') AS until FROM jobs
EXCEPT SELECT comp, since, COALESCE(until, '$day') FROM known;
