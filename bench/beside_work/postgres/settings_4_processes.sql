SET max_parallel_workers_per_gather = 3;
SET min_parallel_table_scan_size = 0;
SET parallel_setup_cost = 10;
SET parallel_tuple_cost = 0.01;
