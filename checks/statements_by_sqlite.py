#!/usr/bin/env python3
"""Runs random statements at one client of the program, whose engine keeps its connection over them, and has SQLite itself open
the files that each of them leaves.

Behind each statement another client asks for the files (DUMP). They are written into a folder and opened by Python's sqlite3,
which has to find them whole (PRAGMA integrity_check), with the tables and rows that a database of its own has, over which it
ran the same statements; in a transaction those before it. A statement that the program refuses has to be refused there too, for
the same kind of cause. It prints a line for each seed, and ends with 1 where one differs. It needs the built program, and is no
part of the gate.

    checks/statements_by_sqlite.py [STATEMENTS [SEED ..]]
"""
import pathlib
import random
import sqlite3
import struct
import subprocess
import sys
import tempfile

from examples_by_sqlite import DUMP, FILES, OPEN, files, message, messages, text

TOP = pathlib.Path(__file__).resolve().parent.parent
EXEC_SQL, QUERY_SQL, FAILURE, ROWS = 8, 9, 0, 7
MORE = b"\xee" * 8  # the end of a part of rows behind which another one comes
CONSTRAINT, SQL_ERROR = 19, 1
NAMES = ("t", "u", "w")


class Statements:
    """Random statements over a few small tables. What they do stays in both dialects."""

    def __init__(self, seed):
        self.draw = random.Random(seed)
        self.in_transaction = False

    def value(self):
        draw = self.draw
        return draw.choice([
            str(draw.randrange(-100, 100)),
            str(draw.randrange(2**40)),
            "NULL",
            "'%s'" % ("x" * draw.choice([0, 1, 10, 300, 5000])),
            "'%d'" % draw.randrange(50),
            "x'%s'" % ("ab" * draw.randrange(20)),
        ])

    def key(self):
        return self.draw.randrange(1, 120)

    def write(self):
        draw, name = self.draw, self.draw.choice(NAMES)
        return draw.choice([
            lambda: "INSERT INTO %s (b, c) VALUES (%s, %s)" % (name, self.value(), self.value()),
            lambda: "INSERT INTO %s VALUES %s" % (name, ", ".join("(%d, %s, %s)" % (self.key() + 200 * at, self.value(), self.value()) for at in range(draw.randrange(1, 30)))),
            lambda: "INSERT OR REPLACE INTO %s VALUES (%d, %s, %s)" % (name, self.key(), self.value(), self.value()),
            lambda: "INSERT INTO %s (b, c) SELECT b, a FROM %s WHERE a < %d" % (name, draw.choice(NAMES), self.key()),
            lambda: "UPDATE %s SET b = %s WHERE a %s %d" % (name, self.value(), draw.choice(["=", "<", ">"]), self.key()),
            # (`a = a + n` may meet a key that moves too: SQLite's tool refuses that, and the crate of the engine doesn't)
            lambda: "UPDATE %s SET a = -a WHERE a > %d" % (name, self.key()),
            lambda: "DELETE FROM %s WHERE a %s %d" % (name, draw.choice(["=", "<", ">"]), self.key()),
        ])()

    def schema(self):
        draw, name = self.draw, self.draw.choice(NAMES)
        return draw.choice([
            "CREATE TABLE %s (a INTEGER PRIMARY KEY, b UNIQUE, c)" % name,
            "CREATE TABLE %s (a INTEGER PRIMARY KEY, b TEXT, c)" % name,
            "DROP TABLE %s" % name,
            "CREATE INDEX i%d ON %s (c)" % (draw.randrange(3), name),
            "DROP INDEX i%d" % draw.randrange(3),
        ])

    def look(self):
        return self.draw.choice([
            "SELECT count(*) FROM sqlite_schema",
            "SELECT name, sql FROM sqlite_master ORDER BY name",
            "SELECT a, c FROM %s WHERE a > %d" % (self.draw.choice(NAMES), self.key()),
        ])

    def next(self):
        share = self.draw.random()
        if share < 0.12:
            self.in_transaction = not self.in_transaction
            return "BEGIN" if self.in_transaction else self.draw.choice(["COMMIT", "ROLLBACK"])
        if share < 0.24:
            return self.schema()
        return self.look() if share < 0.34 else self.write()


def request(statement):
    kind = QUERY_SQL if statement.startswith("SELECT") else EXEC_SQL
    return message(kind, bytes(8) + text(statement))


def script(statements):
    dump = message(DUMP, text("d")).hex()
    version = struct.pack("<Q", 1)
    lines = ["nodes 1", "timeout 1", "connect 1 1", "connect 1 2"]
    lines += ["bytes 1 " + (version + message(OPEN, text("d") + bytes(8) + text("volatile"))).hex(), "bytes 2 " + version.hex()]
    for statement in statements:
        lines += ["bytes 1 " + request(statement).hex(), "bytes 2 " + dump]
    return "\n".join(lines) + "\n"


def contents(connection):
    """The tables, their rows and the indexes."""
    listing = connection.execute("SELECT type, name, sql FROM sqlite_master WHERE sql IS NOT NULL ORDER BY name").fetchall()
    return listing, [connection.execute("SELECT * FROM %s ORDER BY a" % name).fetchall() for kind, name, _ in listing if kind == "table"]


def opened(found):
    """What SQLite finds in these files."""
    with tempfile.TemporaryDirectory() as folder:
        main = pathlib.Path(folder) / "database"
        names = sorted(found, key=len)
        main.write_bytes(found[names[0]])
        main.with_name("database-wal").write_bytes(found[names[1]])
        connection = sqlite3.connect(main)
        try:
            whole = connection.execute("PRAGMA integrity_check").fetchone()[0]
            return (whole, contents(connection)) if whole == "ok" else (whole, None)
        except sqlite3.Error as error:
            return str(error), None
        finally:
            connection.close()


def answers(printed):
    """The replies to each client, in their order, with the last part alone of an answer that came in several."""
    told = {"1": [], "2": []}
    for line in printed.splitlines():
        words = line.split(" ")
        if words[0] == "reply":
            told[words[1]] += [(kind, body) for kind, body in messages(bytes.fromhex(words[2])) if kind != ROWS or not body.endswith(MORE)]
    return told["1"][1:], told["2"]


def look(count, seed):
    """Whether all statements of this seed leave what SQLite has."""
    made = Statements(seed)
    statements = ["CREATE TABLE %s (a INTEGER PRIMARY KEY, b UNIQUE, c)" % name for name in NAMES] + [made.next() for _ in range(count)]
    ran = subprocess.run([TOP / "dqnode", "script"], input=script(statements).encode(), capture_output=True, check=False)
    own, dumps = answers(ran.stdout.decode())
    if ran.returncode != 0 or len(own) != len(statements) or len(dumps) != len(statements):
        print(f"seed {seed}: status {ran.returncode}, {len(own)} answers and {len(dumps)} files for {len(statements)} statements")
        return False
    mirror = sqlite3.connect(":memory:", isolation_level=None)
    committed, refused = contents(mirror), 0
    for at, (statement, (kind, body), (of_dump, dump)) in enumerate(zip(statements, own, dumps)):
        try:
            mirror.execute(statement).fetchall()
            wanted = None
        except sqlite3.IntegrityError:
            wanted = CONSTRAINT
        except sqlite3.Error:
            wanted = SQL_ERROR
        told = struct.unpack_from("<Q", body)[0] if kind == FAILURE else None
        if told != wanted:
            print(f"seed {seed}: statement {at} is told {told}, and not {wanted}: {statement[:200]} {body[8:80]}")
            return False
        refused += told is not None
        if not mirror.in_transaction:
            committed = contents(mirror)
        if of_dump != FILES and committed[0]:
            print(f"seed {seed}: no files behind statement {at}: {statement[:200]}")
            return False
        if of_dump == FILES and opened(files(dump)) != ("ok", committed):
            print(f"seed {seed}: behind statement {at} SQLite finds {opened(files(dump))[0]}, and other rows: {statement[:200]}")
            return False
    print(f"seed {seed}: {len(statements)} statements, {refused} of them refused, and each database is whole with the same rows")
    return True


def main():
    count = int(sys.argv[1]) if len(sys.argv) > 1 else 400
    seeds = [int(word) for word in sys.argv[2:]] or list(range(1, 9))
    return 0 if all([look(count, seed) for seed in seeds]) else 1


if __name__ == "__main__":
    sys.exit(main())
