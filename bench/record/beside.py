"""The record's statements by Python's sqlite3, and the medians of what `run.sh` measures.

usage: beside.py make FILE ROWS | archived FILE ROWS | run FILE ROWS TIMES | tell TIMES-FILE ROWS | budget TIMES-FILE ROWS
"""

import sqlite3
import statistics
import sys
import time

STRIDE = 7_919
# Those of the file of an archived row, as measured_archives puts it.
BYTES = 1_000
META = "CREATE TABLE meta (name TEXT PRIMARY KEY, value INTEGER NOT NULL) STRICT"
JOB = (
    "CREATE TABLE job (key TEXT PRIMARY KEY, outputs TEXT NOT NULL, files TEXT NOT NULL,"
    " cost INTEGER NOT NULL CHECK (cost BETWEEN 1 AND 1000000000000),"
    " archived INTEGER NOT NULL CHECK (archived IN (0, 1))) STRICT"
)
ARCHIVE = (
    "CREATE TABLE archive (key TEXT PRIMARY KEY, bytes INTEGER NOT NULL CHECK (bytes >= 0),"
    " used INTEGER NOT NULL UNIQUE CHECK (used >= 1)) STRICT"
)
COLUMNS = "key, outputs, files, cost, archived"
FIND = f"SELECT {COLUMNS} FROM job WHERE key = ?1"
VERSION = "SELECT value FROM meta WHERE name = 'version'"
PUT = (
    f"INSERT INTO job ({COLUMNS}) VALUES (?1, ?2, ?3, ?4, ?5) ON CONFLICT (key) DO UPDATE SET outputs = ?2,"
    " files = ?3, cost = ?4, archived = ?5"
)


def key(at, end=""):
    return (
        '{"env":[],"inputs":{"n":%08d},"tool":{"baseCommand":"sort","class":"CommandLineTool","inputs":{"n":"int"},'
        '"outputs":{"out":"stdout"},"stdout":"out.txt"}}' % at + end
    )


def make(file, rows):
    fill(file, ((key(at), "{}", "[]", at + 1, 0) for at in range(rows)), ())


def archived(file, rows):
    """Makes a record of rows that are archived, each with a file of BYTES bytes, used in the order of their numbers."""
    files = '[["out.txt",false,%d,"%s"]]' % (BYTES, "a9993e364706816aba3e25717850c26c9cd0d89d")
    fill(file, ((key(at), "{}", files, at + 1, 1) for at in range(rows)), ((key(at), BYTES, at + 1) for at in range(rows)))


def fill(file, rows, archives):
    conn = sqlite3.connect(file)
    for table in (META, JOB, ARCHIVE):
        conn.execute(table)
    conn.execute("INSERT INTO meta (name, value) VALUES ('version', 2)")
    conn.executemany(PUT, rows)
    conn.executemany("INSERT INTO archive (key, bytes, used) VALUES (?1, ?2, ?3)", archives)
    conn.commit()
    conn.close()


def connect(file):
    conn = sqlite3.connect(file, isolation_level=None)
    conn.execute("PRAGMA journal_mode = WAL")
    conn.execute("PRAGMA synchronous = FULL")
    return conn


def told(what, start):
    print(what, int((time.perf_counter() - start) * 1_000_000))


def run(file, rows, times):
    start = time.perf_counter()
    conn = connect(file)
    assert conn.execute(VERSION).fetchone() == (2,)
    conn.execute(f"SELECT {COLUMNS} FROM job LIMIT 0").fetchall()
    told("open", start)
    numbers = [at * STRIDE % rows for at in range(times)]
    for what, end, found in (("find", "", times), ("absent", "x", 0)):
        start = time.perf_counter()
        there = sum(conn.execute(FIND, (key(at, end),)).fetchone() is not None for at in numbers)
        told(what, start)
        assert there == found
    start = time.perf_counter()
    for at in numbers:
        conn.execute("BEGIN")
        conn.execute("SELECT bytes FROM archive WHERE key = ?1", (key(at),)).fetchone()
        # (one more than the file's: where a row stays as it is, SQLite writes nothing)
        conn.execute(PUT, (key(at), "{}", "[]", at + 2, 0))
        conn.execute("DELETE FROM archive WHERE key = ?1", (key(at),))
        conn.execute("COMMIT")
    told("put", start)


def tell(file, rows):
    times = {}
    for line in open(file):
        who, what, micros = line.split()
        times.setdefault((who, what), []).append(int(micros))
    for what in ("open", "find", "absent", "put"):
        ours = statistics.median(times["ours", what])
        theirs = statistics.median(times["theirs", what])
        print(f"{rows} rows: {what:6} {ours:9.0f} us, Python's {theirs:9.0f} us, {ours / theirs:.2f} of it")
    if ("ours", "connect") in times:
        # (each of both was read in one process, one after the other)
        shares = [whole / part for whole, part in zip(times["ours", "open"], times["ours", "connect"])]
        part, share = statistics.median(times["ours", "connect"]), statistics.median(shares)
        print(f"{rows} rows: the file opens as a database in {part:9.0f} us, and as a record in {share:.2f} of that: at most 1.10 is {'met' if share <= 1.1 else 'MISSED'}")


def budget(file, rows):
    """Tells what a budget adds to a put, and what a touch takes beside one: medians of what was measured in turn, in one run."""
    times = {}
    for line in open(file):
        who, what, micros = line.split()
        times.setdefault((who, what), []).append(int(micros))
    median = {it: statistics.median(found) for it, found in times.items()}
    put = median["none", "put"]
    for who, words, most in (("wide", "with a budget that is never met", 1.3), ("full", "with one that each put meets", 1.3)):
        ratio = median[who, "put"] / put
        met = "met" if ratio <= most else "MISSED"
        print(f"{rows} archived rows: put {put:9.0f} us, {words} {median[who, 'put']:9.0f} us, {ratio:.2f} of it: at most {most:.2f} is {met}")
    ratio = median["none", "touch"] / put
    print(f"{rows} archived rows: touch {median['none', 'touch']:9.0f} us, {ratio:.2f} of a put: at most 1.00 is {'met' if ratio <= 1 else 'MISSED'}")
    print(f"{rows} archived rows: a first put with a budget counts all bytes: {median['wide', 'first']:9.0f} us, and without one {median['none', 'first']:9.0f} us")


if __name__ == "__main__":
    verb, *words = sys.argv[1:]
    {"make": make, "archived": archived, "run": run, "tell": tell, "budget": budget}[verb](words[0], *map(int, words[1:]))
