SET work_mem = '256MB';
SET maintenance_work_mem = '256MB';
SET synchronous_commit = off;
SET jit = off;
SET max_parallel_workers_per_gather = 0;
SET random_page_cost = 1.1;
