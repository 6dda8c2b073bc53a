#!/usr/bin/env python3
"""Commits the rows of a store's runs once more, a transaction a run, by Python's sqlite3 at full syncs in its log mode, and prints how many seconds that took, by the clock and of the
processor: bare.py STORE NEW.

STORE is a file that a replay of texts closed, each of which was queued. A run's transaction has the rows that came with it, and the row of the service's numbers."""
import sqlite3
import sys
import time

PUT = "INSERT OR REPLACE INTO pallwethig_rows_1 (place, body) VALUES (?1, ?2)"


def main(store, new):
    db = sqlite3.connect(store)
    kept = dict(db.execute("SELECT place, body FROM pallwethig_rows_1"))
    db.close()
    numbers = (b"\0", kept[b"\0"])
    entries = {place[1:9]: [(place, kept[place])] for place in sorted(kept) if place[0] == 6}
    for place in sorted(kept):
        if place[0] > 6:
            entries[place[1:9]].append((place, kept[place]))
    db = sqlite3.connect(new, isolation_level=None)
    db.execute("PRAGMA journal_mode=WAL")
    db.execute("PRAGMA synchronous=FULL")
    db.execute("CREATE TABLE pallwethig_rows_1 (place BLOB NOT NULL PRIMARY KEY, body BLOB NOT NULL) STRICT")
    start, used = time.perf_counter(), time.process_time()
    for rows in entries.values():
        db.execute("BEGIN IMMEDIATE")
        for row in (*rows, numbers):
            db.execute(PUT, row)
        db.execute("COMMIT")
    print(time.perf_counter() - start, time.process_time() - used)
    db.close()


main(*sys.argv[1:])
