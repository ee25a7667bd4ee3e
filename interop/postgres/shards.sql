-- What interop/postgres/shards makes on the coordinator: the schemas shards, with the procedures that the SQL of ongq_sql
-- --shard-by calls, and parts, with the queries that the nodes answer. A table that is spread is hash partitioned, and each
-- partition is a foreign table, in a schema with the name of its node. On a node tables stand under their own names in the
-- schema public. The procedures are given names as SQL has them, between double quotes where that is needed.

CREATE SCHEMA shards;
CREATE SCHEMA parts;
CREATE EXTENSION postgres_fdw SCHEMA shards;
CREATE EXTENSION dblink SCHEMA shards;
COMMENT ON SCHEMA shards IS 'tables that are spread over nodes';
COMMENT ON SCHEMA parts IS 'queries that each node answers with its part';

CREATE TABLE shards.nodes (number integer PRIMARY KEY, node name NOT NULL UNIQUE);
COMMENT ON TABLE shards.nodes IS 'the nodes: their foreign servers, by the remainder of the partitions that they have';

CREATE PROCEDURE shards.leave() LANGUAGE plpgsql AS $$
DECLARE
    node name;
BEGIN
    FOREACH node IN ARRAY coalesce(shards.dblink_get_connections(), '{}') LOOP
        PERFORM shards.dblink_cancel_query(node);
        PERFORM shards.dblink_disconnect(node);
    END LOOP;
END $$;
COMMENT ON PROCEDURE shards.leave() IS 'ends what this session has begun on nodes, without its changes';

CREATE PROCEDURE shards.wait(nodes name[]) LANGUAGE plpgsql AS $$
DECLARE
    node name;
    were_busy boolean;
BEGIN
    WHILE nodes <> '{}' LOOP
        were_busy := true;
        FOREACH node IN ARRAY nodes LOOP
            IF shards.dblink_is_busy(node) = 0 THEN
                were_busy := false;
                PERFORM FROM shards.dblink_get_result(node) AS r(status text);
                IF NOT FOUND THEN
                    nodes := array_remove(nodes, node);
                END IF;
            END IF;
        END LOOP;
        IF were_busy THEN
            PERFORM pg_sleep(0.005);
        END IF;
    END LOOP;
END $$;
COMMENT ON PROCEDURE shards.wait(name[]) IS 'waits for what was sent to the nodes; the first fault on one of them ends it';

-- What was sent is waited for on all nodes before the first one is told to commit, so that a fault on one undoes it on all.
-- Only a node that is lost while the others commit leaves them apart.
CREATE PROCEDURE shards.run(sql text) LANGUAGE plpgsql AS $$
DECLARE
    nodes name[] := ARRAY(SELECT n.node FROM shards.nodes AS n ORDER BY number);
    node name;
BEGIN
    CALL shards.leave();
    FOREACH node IN ARRAY nodes LOOP
        PERFORM shards.dblink_connect(node, node);
        PERFORM shards.dblink_send_query(node, 'SET client_min_messages = warning; SET search_path = public, ongoing; SET jit = off; BEGIN; ' || sql);
    END LOOP;
    CALL shards.wait(nodes);
    FOREACH node IN ARRAY nodes LOOP
        PERFORM shards.dblink_exec(node, 'COMMIT');
    END LOOP;
    CALL shards.leave();
EXCEPTION WHEN OTHERS OR query_canceled THEN
    CALL shards.leave();
    RAISE;
END $$;
COMMENT ON PROCEDURE shards.run(text) IS
    'carries statements without rows out on all nodes at once, in one transaction of each';

CREATE PROCEDURE shards.link(name text, parent text, partitioned boolean) LANGUAGE plpgsql AS $$
DECLARE
    node record;
    count integer := (SELECT count(*) FROM shards.nodes);
BEGIN
    FOR node IN SELECT * FROM shards.nodes ORDER BY number LOOP
        EXECUTE format('CREATE FOREIGN TABLE %I.%s %s SERVER %1$I OPTIONS (schema_name ''public'', table_name %4$L)', node.node, name,
            CASE WHEN partitioned THEN format('PARTITION OF %s FOR VALUES WITH (MODULUS %s, REMAINDER %s)', parent, count, node.number)
                ELSE format('() INHERITS (%s)', parent) END, (parse_ident(name))[1]);
    END LOOP;
END $$;
COMMENT ON PROCEDURE shards.link(text, text, boolean) IS
    'makes for each node the foreign table of what has the name there, as a part of the parent';

CREATE PROCEDURE shards.make(name text, by_column text, columns text) LANGUAGE plpgsql AS $$
BEGIN
    CALL shards.run(format('CREATE TABLE %s (%s)', name, columns));
    EXECUTE format('CREATE TABLE public.%s (%s) PARTITION BY HASH (%s)', name, columns, by_column);
    CALL shards.link(name, 'public.' || name, true);
END $$;
COMMENT ON PROCEDURE shards.make(text, text, text) IS 'makes a table with these columns, spread by one of them';

CREATE PROCEDURE shards.keep(name text, by_column text, columns text, query text) LANGUAGE plpgsql AS $$
BEGIN
    CALL shards.run(format('CREATE TABLE %s AS %s; ANALYZE %1$s', name, query));
    EXECUTE format('CREATE TABLE public.%s (%s) PARTITION BY HASH (%s)', name, columns, by_column);
    CALL shards.link(name, 'public.' || name, true);
END $$;
COMMENT ON PROCEDURE shards.keep(text, text, text, text) IS
    'keeps on each node the rows that a query gives there, whose hashes by that column are of that node';

CREATE PROCEDURE shards.drop(name text) LANGUAGE plpgsql AS $$
BEGIN
    EXECUTE format('DROP TABLE public.%s', name);
    CALL shards.run(format('DROP TABLE %s', name));
END $$;
COMMENT ON PROCEDURE shards.drop(text) IS 'takes out a table that is spread';

CREATE PROCEDURE shards.ask(name text, columns text, query text) LANGUAGE plpgsql AS $$
BEGIN
    CALL shards.forget(name);
    CALL shards.run(format('CREATE VIEW %s AS %s', name, query));
    EXECUTE format('CREATE TABLE parts.%s (%s)', name, columns);
    CALL shards.link(name, 'parts.' || name, false);
END $$;
COMMENT ON PROCEDURE shards.ask(text, text, text) IS
    'makes parts.NAME of the rows that a query gives on each node, asked anew at each use; rows of two nodes may be equal';

CREATE PROCEDURE shards.forget(name text) LANGUAGE plpgsql AS $$
BEGIN
    IF to_regclass('parts.' || name) IS NOT NULL THEN
        EXECUTE format('DROP TABLE parts.%s CASCADE', name);
        CALL shards.run(format('DROP VIEW IF EXISTS %s', name));
    END IF;
END $$;
COMMENT ON PROCEDURE shards.forget(text) IS 'takes out what shards.ask made, if it is there';

CREATE PROCEDURE shards.clear() LANGUAGE plpgsql AS $$
DECLARE
    node name;
BEGIN
    DROP SCHEMA IF EXISTS public, parts CASCADE;
    FOR node IN SELECT n.node FROM shards.nodes AS n LOOP
        EXECUTE format('DROP SCHEMA IF EXISTS %I CASCADE; CREATE SCHEMA %1$I', node);
    END LOOP;
    CREATE SCHEMA parts;
    CREATE SCHEMA public;
    CALL shards.run('DROP SCHEMA IF EXISTS public CASCADE; CREATE SCHEMA public');
END $$;
COMMENT ON PROCEDURE shards.clear() IS 'takes out all tables, here and on the nodes';
