"""PostgreSQL: a private server in a scratch folder, or any that speaks its protocol, by a DSN.

The place of a writer is a number that it draws as its last step, under a lock that it holds until
it has committed. A reader stands behind the last writer in its snapshot.
"""
import csv
import glob
import io
import os
import pwd
import shutil
import subprocess
import sys

import psycopg2
from psycopg2 import errors

from tables import TABLES, read

LEVELS = ("serializable", "repeatable read", "read committed")
SETTINGS = "-c listen_addresses= -c fsync=off -c synchronous_commit=off -c deadlock_timeout=20ms"
CONFLICTS = (errors.SerializationFailure, errors.DeadlockDetected, errors.UniqueViolation)


def is_conflict(error):
    """Whether to try again: another has written, took the number, or each waits for the other."""
    return isinstance(error, CONFLICTS)


class Session:
    """A client's connection, and its transactions."""

    def __init__(self, dsn, level, changes):
        self.connection = psycopg2.connect(dsn)
        self.connection.set_session(isolation_level=level)
        self.cursor = self.connection.cursor()
        self.changes = changes

    def rows(self, text, *values):
        self.cursor.execute(text.replace("?", "%s"), values)
        return self.cursor.fetchall() if self.cursor.description else []

    def row(self, text, *values):
        return next(iter(self.rows(text, *values)), None)

    def begin(self):
        """The driver begins with the first statement."""

    def commit(self):
        self.connection.commit()

    def rollback(self):
        self.connection.rollback()

    def place(self, writes):
        """Of a writer its number and transaction; of each its snapshot, or its last one."""
        number, transaction = None, None
        if writes:
            self.rows("SELECT pg_advisory_xact_lock(1)")
            number, transaction = self.row(
                "SELECT nextval('commit_order'), pg_current_xact_id()::text")
        return number, transaction, self.row("SELECT pg_current_snapshot()::text")[0]


def is_in(snapshot, transaction):
    """Whether a snapshot, `first:end:running`, has what that transaction wrote."""
    _, end, running = snapshot.split(":")
    return int(transaction) < int(end) and transaction not in running.split(",")


class Server:
    """A private server on a socket in a folder; where root asks it runs as another user."""

    def __init__(self, folder):
        installed = glob.glob("/usr/lib/postgresql/*/bin/initdb") + [shutil.which("initdb")]
        self.programs = os.path.dirname(installed[0] or sys.exit("there is no PostgreSQL here"))
        self.folder, self.user = os.path.join(folder, "server"), []
        os.mkdir(self.folder)
        if os.geteuid() == 0:
            users = {it.pw_name for it in pwd.getpwall()}
            name = "postgres" if "postgres" in users else "nobody"
            os.chmod(folder, 0o755)
            shutil.chown(self.folder, name)
            self.user = ["runuser", "-u", name, "--"]
        self.data = os.path.join(self.folder, "data")
        self.run("initdb", "-A", "trust", "-U", "tpcc", "-E", "UTF8", "--locale=C", "--no-sync")
        settings = f"-k {self.folder} {SETTINGS}"
        self.run("pg_ctl", "-w", "-l", f"{self.folder}/log", "-o", settings, "start")
        self.dsn = f"host={self.folder} user=tpcc dbname=postgres"

    def run(self, program, *words):
        command = [*self.user, os.path.join(self.programs, program), "-D", self.data, *words]
        subprocess.run(command, check=True, stdout=subprocess.DEVNULL, cwd=self.folder)

    def stop(self):
        self.run("pg_ctl", "-m", "fast", "stop")


class Database:
    """The database of a DSN, or that of a private server."""

    def __init__(self, folder, options, changes):
        self.level = "read committed" if options.naive else options.isolation or "serializable"
        self.changes = changes
        self.server = None if options.dsn else Server(folder)
        self.dsn = options.dsn or self.server.dsn
        self.title = f"PostgreSQL, {self.level}{', naive' * options.naive}"

    def session(self):
        return Session(self.dsn, self.level, self.changes)

    def load(self, schema, dumps):
        session = self.session()
        session.rows(schema)
        session.rows("CREATE SEQUENCE commit_order")
        for name, (table, _) in TABLES.items():
            lines = io.StringIO()
            csv.writer(lines).writerows(read(dumps[name]))
            lines.seek(0)
            session.cursor.copy_expert(f"COPY {table} FROM STDIN (FORMAT csv)", lines)
        session.rows("ANALYZE")
        session.commit()

    def in_order(self, answers):
        """Writers by their numbers; all else behind the last writer that its snapshot has."""
        writers = [it["place"][:2] for it in answers if it["writes"]]

        def key(it):
            number, _, snapshot = it["place"]
            if not it["writes"]:
                number = max((place for place, name in writers if is_in(snapshot, name)), default=0)
            return number, not it["writes"], it["ended"]

        return sorted(answers, key=key)

    def stop(self):
        if self.server:
            self.server.stop()
