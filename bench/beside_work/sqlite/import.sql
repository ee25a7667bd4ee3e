-- no index
-- each time:
SELECT id, comp, since, COALESCE(until, '$day') AS until FROM bugs;
