"""A PostgreSQL server of our own, in a temporary folder, that nobody else can reach and that leaves nothing."""
from __future__ import annotations

import contextlib
import glob
import os
import pwd
import re
import shutil
import subprocess
import tempfile
from typing import Iterator, Optional

POSTGRES = os.path.join(os.path.dirname(os.path.dirname(os.path.realpath(__file__))), "postgres")
EXTENSION = os.path.join(POSTGRES, "ongoing")
EXTENSION_FILES = ("ongoing.control", "ongoing--1.0.sql")


def programs() -> Optional[str]:
    """The folder of initdb of the newest PostgreSQL from 15 on, or None."""
    found = []
    places = [shutil.which("initdb") or "", *glob.glob("/usr/lib/postgresql/*/bin/initdb"), *glob.glob("/usr/pgsql-*/bin/initdb")]
    for initdb in (place for place in places if os.access(place, os.X_OK)):
        said = subprocess.run([initdb, "--version"], capture_output=True, text=True).stdout
        version = re.search("[0-9]+", said)
        found.append((int(version[0]) if version else 0, os.path.dirname(os.path.realpath(initdb))))
    newest = max(found, default=(0, ""))
    return newest[1] if newest[0] >= 15 and shutil.which("psql") else None


def copied(programs: str, folder: str) -> str:
    """Copies PostgreSQL's programs and shared files into the folder, and the extension to them: a server finds these beside its
    own program. So nothing is installed. Gives the folder of the copied programs."""
    asked = [subprocess.run([f"{programs}/pg_config", f"--{word}dir"], capture_output=True, text=True, check=True).stdout.strip()
             for word in ("bin", "share", "pkglib")]
    common = os.path.commonpath(asked)
    copies = [os.path.join(folder, "postgresql", os.path.relpath(place, common)) for place in asked]
    for place, copy in zip(asked[:2], copies):
        shutil.copytree(place, copy, ignore_dangling_symlinks=True)
    os.symlink(asked[2], copies[2])
    for name in EXTENSION_FILES:
        shutil.copy(os.path.join(EXTENSION, name), f"{copies[1]}/extension")
    return copies[0]


class Server:
    """The server runs inside `with`. For root, whom PostgreSQL refuses, it runs as the user postgres or nobody.

    With the extension, it is one of copied programs, which have that. Its locale is by ICU then, where PostgreSQL has ICU, as the
    order of bytes has to be asked for there.
    """

    def __init__(self, folder_of_programs: str, with_extension: bool = False) -> None:
        self.programs, self.with_extension = folder_of_programs, with_extension

    def run(self, program: str, *words: str) -> None:
        """Runs one of PostgreSQL's programs as its user, with what it says in the folder's log."""
        with open(self.folder + "/log", "ab") as log:
            subprocess.run([f"{self.programs}/{program}", *words], check=True, stdin=subprocess.DEVNULL, stdout=log, stderr=log,
                           cwd=self.folder, env={**os.environ, "HOME": self.folder}, **self.user)

    def __enter__(self) -> "Server":
        self.folder = tempfile.mkdtemp(prefix="ongq-postgres-", dir="/tmp")  # the path of a socket has to be short
        self.user: dict = {}
        if os.geteuid() == 0:
            owner = pwd.getpwnam("postgres" if any(user.pw_name == "postgres" for user in pwd.getpwall()) else "nobody")
            os.chown(self.folder, owner.pw_uid, owner.pw_gid)
            self.user = {"user": owner.pw_uid, "group": owner.pw_gid, "extra_groups": []}
        try:
            if self.with_extension:
                self.programs = copied(self.programs, self.folder)
            self.make_data()
            self.run("pg_ctl", "-D", "data", "-w", "start", "-l", "log_of_server", "-o",
                     f"-c listen_addresses='' -c fsync=off -c max_connections=10 -k {self.folder}")
        except BaseException:
            self.__exit__()
            raise
        return self

    def make_data(self) -> None:
        words = ["-D", "data", "-A", "trust", "-U", "ongq", "--no-sync", "--locale=C", "--encoding=UTF8"]
        try:
            self.run("initdb", *words, *(["--locale-provider=icu", "--icu-locale=en-US"] if self.with_extension else []))
        except subprocess.CalledProcessError:
            if not self.with_extension:
                raise
            print("interop/test: left out, as it is not here: PostgreSQL with ICU", flush=True)
            self.run("initdb", *words)

    def __exit__(self, *_: object) -> None:
        if os.path.exists(self.folder + "/data/postmaster.pid"):
            self.run("pg_ctl", "-D", "data", "-w", "-m", "immediate", "stop")
        shutil.rmtree(self.folder)

    def environment(self) -> dict[str, str]:
        """What tells psql, and our load and unload, of this server."""
        return {**os.environ, "PGHOST": self.folder, "PGUSER": "ongq", "PGDATABASE": "postgres", "PGCLIENTENCODING": "UTF8"}

    def ask(self, script: str, database: str = "postgres", file: str = "-") -> str:
        """What psql writes for a script, or for a file."""
        done = subprocess.run(["psql", "-X", "-q", "-A", "-t", "-v", "ON_ERROR_STOP=1", "-f", file], input=script.encode(),
                              capture_output=True, env={**self.environment(), "PGDATABASE": database})
        if done.returncode:
            raise AssertionError(f"psql: {done.stderr.decode()[:2000]}")
        return done.stdout.decode()


@contextlib.contextmanager
def started() -> Iterator[Optional[Server]]:
    """A server, or None where PostgreSQL is not there or does not start."""
    with contextlib.ExitStack() as stack:
        folder = programs()
        try:
            server = stack.enter_context(Server(folder, True)) if folder else None
        except (OSError, subprocess.CalledProcessError) as why:
            print(f"interop/test: {why}")
            server = None
        yield server
