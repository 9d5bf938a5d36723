"""Captures into SQLite: each packet is a row, with its time, the exact value as a text, the nearest
number and its unit, whether its VOUT_MODE is assumed, and the whole object.

    pip install ./python && python3 examples/python/to_sqlite.py
    python3 examples/python/to_sqlite.py PROFILE CAPTURE DATABASE

Without words it takes the power-up of examples/sessions, and a database in memory.
"""

import json
import os
import sqlite3
import sys

import pmb

SESSIONS = os.path.join(os.path.dirname(os.path.abspath(__file__)), os.pardir, "sessions")
COLUMNS = (
    "at", "line", "time", "kind", "device", "name", "command", "page", "phase", "value", "number",
    "mode", "unit",
)


def read(name: str) -> bytes:
    with open(name, "rb") as file:
        return file.read()


def load(database: sqlite3.Connection, profile: bytes, capture: bytes) -> None:
    """Puts the packets and refusals of a capture into the table `packets`."""
    database.execute(
        "CREATE TABLE IF NOT EXISTS packets (at INTEGER, line INTEGER, time TEXT, kind TEXT, "
        "device TEXT, name TEXT, command TEXT, page, phase, value TEXT, number REAL, mode TEXT, "
        "unit TEXT, object TEXT)"
    )
    rows = (
        [it.get(column) for column in COLUMNS] + [json.dumps(it)]
        for it in pmb.transactions(profile, capture)
    )
    places = ", ".join("?" * (len(COLUMNS) + 1))
    database.executemany("INSERT INTO packets VALUES (%s)" % places, rows)
    database.commit()


def main() -> None:
    profile, capture, name = (sys.argv[1:] + [""] * 3)[:3]
    profile = profile or os.path.join(SESSIONS, "power_up.toml")
    capture = capture or os.path.join(SESSIONS, "power_up.txt")
    database = sqlite3.connect(name or ":memory:")
    try:
        load(database, read(profile), read(capture))
    except pmb.ProfileError as error:
        sys.exit("{}: {}".format(profile, error))
    for device, page, value in database.execute(
        "SELECT device, page, value FROM packets WHERE command = 'READ_VOUT' ORDER BY at"
    ):
        print(device, page, value)
    for kind, count in database.execute(
        "SELECT kind, count(*) FROM packets GROUP BY kind ORDER BY kind"
    ):
        print(kind, count)


if __name__ == "__main__":
    main()
