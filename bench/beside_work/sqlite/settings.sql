.bail on
.mode csv
.separator , "\n"
.headers on
PRAGMA temp_store = MEMORY;
PRAGMA cache_size = -1000000;
