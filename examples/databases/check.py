#!/usr/bin/env python3
"""Checks a database: many clients ask it, and the program is asked the same in serial order.

It ends with EQUAL and status 0, or with DIFFERENT and status 1.
"""
import argparse
import importlib
import itertools
import json
import os
import random
import subprocess
import sys
import tempfile
import threading
import time

import computing
import naive
from compare import compare
from profiles import Undone, perform
from tables import TABLES, columns_of, written

HERE = os.path.dirname(os.path.abspath(__file__))
TRIES = 1000
# what changes no row but the queue's stands in the serial order as a reader does
READERS = ("status", "stock")
NOTHING_DELIVERED = ("skipped\n", "no delivery queued\n")


def options():
    asked = argparse.ArgumentParser(description=__doc__)
    asked.add_argument("database", choices=("sqlite", "postgresql"))
    asked.add_argument("--tpcc", required=True, help="the program")
    asked.add_argument("--clients", type=int, default=8, help="beside the one that delivers")
    asked.add_argument("--cards", type=int, default=250, help="requests of each client")
    asked.add_argument("--isolation", help="immediate or deferred of SQLite; of PostgreSQL"
                       " serializable, repeatable read or read committed")
    asked.add_argument("--naive", action="store_true", help="rows are read, then written back")
    asked.add_argument("--dsn", help="of a PostgreSQL server, in place of a private one")
    asked.add_argument("--seed", default="1")
    asked.add_argument("--warehouses", default="2")
    asked.add_argument("--customers", default="1500")
    asked.add_argument("--items", default="200")
    asked.add_argument("--keep", metavar="FOLDER", help="gets all that was sent and answered")
    asked.add_argument("--again", metavar="FOLDER", help="compare this, without the database")
    return asked.parse_args()


class Run:
    """Clients at a database, and what each of them was answered."""

    def __init__(self, database, is_conflict):
        self.database, self.is_conflict = database, is_conflict
        self.answers, self.again, self.failure = [], 0, None
        self.ends, self.lock, self.asking = itertools.count(), threading.Lock(), True

    def ask(self, session, client, request):
        """One request, tried again until it has committed; its screen."""
        for tries in range(TRIES):
            try:
                session.begin()
                screen, place, writes = self.attempt(session, request)
                break
            except Exception as error:
                session.rollback()
                if not self.is_conflict(error) or tries == TRIES - 1:
                    raise RuntimeError(f"{request}: tried {tries + 1} times") from error
                time.sleep(random.uniform(0, 0.002 * min(tries + 1, 10)))
        with self.lock:
            self.again += tries
            self.answers.append({"client": client, "request": request, "screen": screen,
                                 "place": place, "writes": writes, "ended": next(self.ends)})
        return screen

    def attempt(self, session, request):
        """A transaction, with its place in the serial order. What wrote nothing is a reader."""
        try:
            screen = perform(session, request)
            writes = not request.startswith(READERS) and not screen.endswith(NOTHING_DELIVERED)
            place = session.place(writes)
            session.commit()
            return screen, place, writes
        except Undone as undone:
            place = session.place(False)
            session.rollback()
            return undone.screen, place, False

    def client(self, number, requests):
        session = self.database.session()
        for request in requests:
            self.ask(session, number, request)

    def deliverer(self, number):
        """Delivers until no client asks any more and nothing is queued."""
        session = self.database.session()
        for moment in itertools.count(100000):
            asking = self.asking
            if self.ask(session, number, f"deliver {moment}") == "no delivery queued\n":
                if not asking:
                    return
                time.sleep(0.005)

    def guarded(self, work, *values):
        try:
            work(*values)
        except Exception as failure:  # told by `all`, once the others have ended
            self.failure = failure

    def all(self, scripts):
        """Lets all clients ask at the same time; gives the seconds that it took."""
        began = time.monotonic()
        clients = [threading.Thread(target=self.guarded, args=(self.client, number, requests))
                   for number, requests in enumerate(scripts, 1)]
        deliverer = threading.Thread(target=self.guarded, args=(self.deliverer, len(scripts) + 1))
        for thread in [*clients, deliverer]:
            thread.start()
        for thread in clients:
            thread.join()
        self.asking = False
        deliverer.join()
        if self.failure:
            raise self.failure
        return time.monotonic() - began


def told(tpcc, *words):
    """What the program writes."""
    ran = subprocess.run([tpcc, *words], input="", text=True, stdout=subprocess.PIPE, check=True)
    return ran.stdout


def requests(asked, opening, terminal):
    """What a client asks: each has its own moment, so that a wrong one is seen."""
    words = ["--terminal", terminal, "--cards", str(asked.cards), "--moment", terminal]
    return told(asked.tpcc, "requests", *opening, *words).splitlines()


def broken_conditions(session):
    """The condition, and the keys of the rows that break it."""
    with open(os.path.join(HERE, "conditions.sql"), encoding="utf-8") as it:
        queries = it.read().split("-- condition ")[1:]
    found = []
    for query in queries:
        name, _, text = query.partition("\n")
        rows = session.rows(text)
        if rows:
            found.append(f"condition {name}: {len(rows)} rows break it, one has the key {rows[0]}")
    return found


def tables_of(session, dumps):
    """The nine tables as the database has them, as CSV."""
    found = {}
    for name, (table, key) in TABLES.items():
        columns = columns_of(dumps[name])
        rows = session.rows(f"SELECT {', '.join(columns)} FROM {table} ORDER BY {key}")
        found[name] = written(columns, rows)
    return found


def check(asked, opening, scratch):
    """Loads an opening, lets the clients ask, and gives all that is to be compared."""
    module = importlib.import_module(asked.database)
    if asked.isolation not in (None, *module.LEVELS):
        sys.exit(f"the levels of {asked.database} are {', '.join(module.LEVELS)}")
    dumps = {name: told(asked.tpcc, "dump", name, *opening) for name in TABLES}
    scripts = [requests(asked, opening, str(it)) for it in range(1, asked.clients + 1)]
    database = module.Database(scratch, asked, naive if asked.naive else computing)
    try:
        with open(os.path.join(HERE, "schema.sql"), encoding="utf-8") as it:
            database.load(it.read(), dumps)
        run = Run(database, module.is_conflict)
        seconds = run.all(scripts)
        session = database.session()
        found = [it for it in run.answers if it["screen"] != "no delivery queued\n"]
        return {"title": database.title, "opening": opening, "seconds": seconds, "again": run.again,
                "answers": database.in_order(found), "conditions": broken_conditions(session),
                "tables": tables_of(session, dumps)}
    finally:
        database.stop()


def keep(folder, run):
    """Writes the run's answers in serial order, and each table as the database had it."""
    os.makedirs(folder, exist_ok=True)
    files = {f"{name}.csv": text for name, text in run["tables"].items()}
    files["run.json"] = json.dumps({**run, "tables": None}, indent=1)
    for name, text in files.items():
        with open(os.path.join(folder, name), "w", encoding="utf-8") as it:
            it.write(text)


def kept(folder):
    texts = {}
    for name in ("run.json", *(f"{table}.csv" for table in TABLES)):
        with open(os.path.join(folder, name), encoding="utf-8") as it:
            texts[name] = it.read()
    run = json.loads(texts["run.json"])
    return {**run, "tables": {name: texts[f"{name}.csv"] for name in TABLES}}


def report(tpcc, run):
    """Says what differs, and last whether anything does."""
    transcript = [(it["request"], it["screen"]) for it in run["answers"]]
    differences = compare(tpcc, run["opening"], transcript, run["tables"])
    for where, what, expected, found in differences[:5]:
        print(f"{where} differs: {what}\n  expected {expected}\n  found    {found}")
    for line in run["conditions"]:
        print(line)
    screens = sum(where.startswith("request") for where, *_ in differences)
    tables = sum(where == "table" for where, *_ in differences)
    print(f"{run['title']}: {screens} of {len(transcript)} screens, {tables} of 9 tables,"
          f" {len(run['conditions'])} of 11 conditions are wrong")
    pace = (f"{len(transcript)} requests, {len(transcript) / run['seconds']:.0f} a second,"
            f" {run['again']} tried again")
    if not differences and not run["conditions"]:
        print(f"EQUAL: {pace}")
        return 0
    first = f"{differences[0][0]} `{differences[0][1]}`" if differences else run["conditions"][0]
    print(f"DIFFERENT first at {first}: {pace}")
    return 1


def main():
    asked = options()
    opening = ["--seeded", "--seed", asked.seed, "--warehouses", asked.warehouses,
               "--customers", asked.customers, "--items", asked.items]
    if asked.again:
        return report(asked.tpcc, kept(asked.again))
    with tempfile.TemporaryDirectory(prefix="tpcc-check-") as scratch:
        run = check(asked, opening, scratch)
    if asked.keep:
        keep(asked.keep, run)
    return report(asked.tpcc, run)


if __name__ == "__main__":
    sys.exit(main())
