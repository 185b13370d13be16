"""SQLite: clients of one file. One writes at a time: a row counts the writers in serial order."""
import os
import sqlite3

from tables import TABLES, columns_of, read

LEVELS = {"immediate": "BEGIN IMMEDIATE", "deferred": "BEGIN DEFERRED"}


def is_conflict(error):
    """Whether to try again: another transaction is writing, has written, or took the number."""
    return isinstance(error, sqlite3.IntegrityError) or "locked" in str(error)


class Session:
    """A client's connection, and its transactions."""

    def __init__(self, path, begins, changes):
        self.connection = sqlite3.connect(
            path, timeout=60, isolation_level=None, check_same_thread=False)
        self.connection.create_collation("C", lambda one, other: (one > other) - (one < other))
        self.connection.execute("PRAGMA foreign_keys = ON")
        self.connection.execute("PRAGMA synchronous = OFF")
        self.begins, self.changes = begins, changes

    def rows(self, text, *values):
        return self.connection.execute(text, values).fetchall()

    def row(self, text, *values):
        return next(iter(self.rows(text, *values)), None)

    def begin(self):
        if self.begins:
            self.connection.execute(self.begins)

    def commit(self):
        self.connection.commit()

    def rollback(self):
        self.connection.rollback()

    def place(self, writes):
        """The number of this writer, or of the last writer that a reader can see."""
        if writes:
            return self.row("UPDATE SERIAL SET PLACE = PLACE + 1 RETURNING PLACE")[0]
        return self.row("SELECT PLACE FROM SERIAL")[0]


class Database:
    """A file in a scratch folder."""

    def __init__(self, folder, options, changes):
        level = "naive" if options.naive else options.isolation or "immediate"
        self.begins, self.changes = None if options.naive else LEVELS[level], changes
        self.path = os.path.join(folder, "sqlite.db")
        self.title = f"SQLite {sqlite3.sqlite_version}, {level}"

    def session(self):
        return Session(self.path, self.begins, self.changes)

    def load(self, schema, dumps):
        with self.session().connection as connection:
            connection.execute("PRAGMA journal_mode = WAL")
            connection.executescript(schema)
            connection.execute("CREATE TABLE SERIAL (PLACE INTEGER NOT NULL)")
            connection.execute("BEGIN")
            connection.execute("INSERT INTO SERIAL VALUES (0)")
            for name, (table, _) in TABLES.items():
                marks = ", ".join("?" * len(columns_of(dumps[name])))
                connection.executemany(f"INSERT INTO {table} VALUES ({marks})", read(dumps[name]))
            connection.execute("COMMIT")
            connection.execute("ANALYZE")

    def in_order(self, answers):
        """A reader stands behind the last writer that it saw."""
        return sorted(answers, key=lambda it: (it["place"], not it["writes"], it["ended"]))

    def stop(self):
        """Nothing runs that must be stopped."""
