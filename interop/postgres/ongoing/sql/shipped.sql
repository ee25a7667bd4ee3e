-- postgres_fdw sends functions of the extension to a server that has it too.
SET search_path = public, ongoing;
SET datestyle = ISO;
CREATE EXTENSION postgres_fdw;
DO $$ BEGIN
    EXECUTE format('CREATE SERVER other FOREIGN DATA WRAPPER postgres_fdw OPTIONS (host %L, port %L, dbname %L, extensions %L)',
        split_part(current_setting('unix_socket_directories'), ',', 1), current_setting('port'), current_database(), 'ongoing');
    EXECUTE format('CREATE USER MAPPING FOR CURRENT_USER SERVER other OPTIONS (user %L)', current_user);
END $$;
CREATE TABLE kept (id bigint, vt ongoing_period, days datemultirange);
INSERT INTO kept VALUES (1, text '[2020-01-01,now)', '{(,)}'), (2, text '[2020-03-01,2020-04-01)', '{(,)}');
CREATE FOREIGN TABLE sent (id bigint, vt ongoing_period, days datemultirange) SERVER other OPTIONS (table_name 'kept');
EXPLAIN (VERBOSE, COSTS OFF) SELECT id FROM sent WHERE outer(vt) && daterange '[2020-01-01,2020-02-01)';
SELECT id, vt::text FROM sent WHERE outer(vt) && daterange '[2020-01-01,2020-02-01)';
EXPLAIN (VERBOSE, COSTS OFF) SELECT s.id, t.id FROM sent s JOIN sent t ON outer(s.vt) && outer(t.vt);
SELECT s.id, t.id, s.days * t.days * (s.vt && t.vt) AS days FROM sent s JOIN sent t ON outer(s.vt) && outer(t.vt) ORDER BY 1, 2;
