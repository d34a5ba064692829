# The bytes that SQLite passes to write calls for a transaction that changes 256 bytes in a row of each of two tables, in a
# database file of its own. The average of many transactions in a steady state, by the kernel's count of this process.
import os
import sqlite3
import tempfile

ROWS = 30
WARM_UP = 200
MEASURED = 2000


def written():
    with open("/proc/self/io") as counts:
        return int(next(line for line in counts if line.startswith("wchar")).split()[1])


def transaction(database, number):
    page = bytes((number + at) % 256 for at in range(256))
    database.execute("BEGIN IMMEDIATE")
    for table in ("one", "two"):
        database.execute(f"UPDATE {table} SET page = ? WHERE id = ?", (page, number % ROWS))
    database.execute("COMMIT")


def prepared(path, page_size, journal):
    database = sqlite3.connect(path, isolation_level=None)
    database.execute(f"PRAGMA page_size = {page_size}")
    database.execute(f"PRAGMA journal_mode = {journal}")
    database.execute("PRAGMA synchronous = FULL")
    for table in ("one", "two"):
        database.execute(f"CREATE TABLE {table} (id INTEGER PRIMARY KEY, page BLOB)")
        database.executemany(f"INSERT INTO {table} VALUES (?, ?)", [(row, bytes(256)) for row in range(ROWS)])
    return database


def measure(page_size, journal, checkpoints):
    with tempfile.TemporaryDirectory() as directory:
        database = prepared(os.path.join(directory, "pages"), page_size, journal)
        if not checkpoints:
            database.execute("PRAGMA wal_autocheckpoint = 0")
        for number in range(WARM_UP):
            transaction(database, number)
        before = written()
        for number in range(MEASURED):
            transaction(database, number)
        after = written()
        database.close()
        return (after - before) / MEASURED


SETTINGS = [
    ("rollback journal", "DELETE", True),
    ("WAL, without checkpoints", "WAL", False),
    ("WAL, with its checkpoints", "WAL", True),
]

for page_size in (512, 4096):
    for name, journal, checkpoints in SETTINGS:
        label = f"SQLite {sqlite3.sqlite_version}, pages of {page_size}, {name}"
        print(f"{label:56}{measure(page_size, journal, checkpoints):9.0f}")
