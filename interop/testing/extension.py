"""ongoing.sql by psql, a second time too, and the extension: made, dumped and restored; and its own tests by PGXS."""
from __future__ import annotations

import os
import shutil
import subprocess
from typing import Any

import server

# What the schema has, without what is of one database alone.
OBJECTS = """SELECT 'function', oid::regprocedure::text, md5(pg_get_functiondef(oid)) FROM pg_proc WHERE pronamespace = 'ongoing'::regnamespace
UNION ALL SELECT 'operator', oid::regoperator::text, oprcode::text FROM pg_operator WHERE oprnamespace = 'ongoing'::regnamespace
UNION ALL SELECT 'type', oid::regtype::text, typtype::text FROM pg_type WHERE typnamespace = 'ongoing'::regnamespace
UNION ALL SELECT 'cast', castsource::regtype || ' as ' || casttarget::regtype, castcontext::text FROM pg_cast WHERE castfunc::regproc::text LIKE 'ongoing.%'
ORDER BY 1, 2;"""

KEPT = """CREATE TABLE kept (id bigint, name text, day ongoing.ongoing_point, vt ongoing.ongoing_period, days datemultirange);
INSERT INTO kept VALUES (1, 'a', text 'now', text '[2020-01-01,now)', '{(,)}'),
    (2, '', date '2020-01-01', daterange '[2020-01-01,)', '{[2020-01-02,2020-01-05),[2021-01-01,)}');
CREATE INDEX kept_outer ON kept USING gist (ongoing.outer(vt));
CREATE VIEW begun AS SELECT id, days * (vt OPERATOR(ongoing.@>) date '2020-01-03') AS days FROM kept;
CREATE TABLE hits AS SELECT id, ongoing.start_of(vt) AS start, days FROM kept;
DO $$ BEGIN PERFORM ongoing.make_as_of(of) FROM unnest(ARRAY['kept', 'begun', 'hits']::regclass[]) AS of; END $$;"""

ASKED = """SELECT k, b, h FROM kept_as_of('2021-02-01') k JOIN begun_as_of('2021-02-01') b USING (id) JOIN hits_as_of('2021-02-01') h USING (id)
ORDER BY id;
SELECT k.*, vt::text FROM kept k ORDER BY id;
SELECT indexdef FROM pg_indexes WHERE tablename = 'kept';"""


def try_script(test: Any, postgres: server.Server) -> None:
    """The script makes what the extension has; a second run changes nothing."""
    script = os.path.join(server.POSTGRES, "ongoing.sql")
    postgres.ask("", file=script)
    made = postgres.ask(OBJECTS)
    test.same("the extension", "a second psql -f writes nothing", "", postgres.ask("", file=script))
    test.same("the extension", "a second psql -f changes nothing", made, postgres.ask(OBJECTS))
    test.same("the extension", "it has what the script makes", made, postgres.ask(OBJECTS, "kept"))


def try_dump(test: Any, postgres: server.Server) -> None:
    """A dump has the tables and says CREATE EXTENSION, and restores to what was there."""
    postgres.ask(KEPT, "kept")
    asked = postgres.ask(ASKED, "kept")
    dump = subprocess.run([f"{postgres.programs}/pg_dump", "kept"], capture_output=True, encoding="utf-8", env=postgres.environment(),
                          check=True).stdout
    said = [dump.count("CREATE EXTENSION IF NOT EXISTS ongoing WITH SCHEMA ongoing;"), dump.count("CREATE FUNCTION"), dump.count("CREATE TYPE")]
    test.same("the extension", "the dump has it by name, and the functions of tables alone", [1, 3, 0], said)
    postgres.ask("CREATE DATABASE restored;")
    postgres.ask(dump, "restored")
    test.same("the extension", "what was dumped and restored", asked, postgres.ask(ASKED, "restored"))


def try_installcheck(test: Any, postgres: server.Server) -> None:
    """make install into the copied PostgreSQL and make installcheck, where PGXS and make are here."""
    config = f"{postgres.programs}/pg_config"
    pgxs = subprocess.run([config, "--pgxs"], capture_output=True, text=True).stdout.strip()
    if not (shutil.which("make") and os.path.exists(pgxs)):
        print("interop/test: left out, as it is not here: PGXS with make (postgresql-server-dev-15): make installcheck of the extension", flush=True)
        return
    folder = test.file("ongoing")
    shutil.copytree(server.EXTENSION, folder)
    done = subprocess.run(["make", f"PG_CONFIG={config}", "install", "installcheck"], cwd=folder, capture_output=True, text=True,
                          env=postgres.environment())
    differences = ""
    if os.path.exists(f"{folder}/regression.diffs"):
        with open(f"{folder}/regression.diffs", encoding="utf-8") as file:
            differences = file.read()
    test.same("the extension", "make install installcheck", (0, ""), (done.returncode, differences or done.stderr * done.returncode))


def try_changed_table(test: Any, postgres: server.Server) -> None:
    """After a change of the columns the function as of a day stops, until it is made anew."""
    asked = "SELECT * FROM hits_as_of('2021-02-01') ORDER BY id;"
    for change, wanted in (("ADD COLUMN note text DEFAULT 'x'", "1|2020-01-01|x"),
                           ("RENAME COLUMN note TO said", "1|2020-01-01|x"), ("ALTER COLUMN said TYPE varchar(1)", "1|2020-01-01|x"),
                           ("DROP COLUMN said", "1|2020-01-01")):
        postgres.ask(f"ALTER TABLE hits {change};", "kept")
        try:
            said = postgres.ask(asked, "kept")
        except AssertionError as why:
            said = str(why)
        test.same("the extension", f"as of a day after {change}", True, "no longer" in said or "does not exist" in said)
        postgres.ask("SET client_min_messages = warning; DO $$ BEGIN PERFORM ongoing.make_as_of('hits'); END $$;", "kept")
        test.same("the extension", f"made anew after {change}", wanted, postgres.ask(asked, "kept").splitlines()[0])


def try_plain_user(test: Any, postgres: server.Server) -> None:
    """Both ways are open to who may make schemas in a database and is no superuser."""
    postgres.ask("CREATE ROLE plain; CREATE DATABASE by_name; CREATE DATABASE by_file; GRANT CREATE ON DATABASE by_name, by_file TO plain;")
    wanted = postgres.ask(OBJECTS)
    postgres.ask("SET ROLE plain; CREATE EXTENSION ongoing;", "by_name")
    postgres.ask(f"SET ROLE plain;\n\\i {server.POSTGRES}/ongoing.sql\n", "by_file")
    for database in ("by_name", "by_file"):
        test.same("the extension", f"what one who is no superuser makes, {database}", wanted, postgres.ask(OBJECTS, database))


def try_extension(test: Any, postgres: server.Server) -> None:
    postgres.ask("CREATE DATABASE kept;")
    postgres.ask("CREATE EXTENSION ongoing;", "kept")
    try_script(test, postgres)
    try_dump(test, postgres)
    try_changed_table(test, postgres)
    try_plain_user(test, postgres)
    try_installcheck(test, postgres)
