-- ongq's points, periods and days in a database of PostgreSQL 15 or later, without its extension: psql -f ongoing.sql
--
-- It runs the extension's script, whose head says what is in it, where the schema ongoing does not have it yet. A second run
-- changes nothing. CREATE EXTENSION ongoing is the other way, where ongoing/Makefile has installed the extension.
\set ON_ERROR_STOP 1
SELECT to_regtype('ongoing.period_ends') IS NULL AS is_missing \gset
\if :is_missing
BEGIN;
CREATE SCHEMA IF NOT EXISTS ongoing;
SET LOCAL search_path = ongoing, pg_temp;
\ir ongoing/ongoing--1.0.sql
COMMIT;
\endif
