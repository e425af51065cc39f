#!/usr/bin/env python3
"""Has SQLite itself open the databases that the examples leave, and look whether they are whole.

At the end of each script of examples/ over SQLite's engine it adds a client that asks for the files of each database that
the script has opened (DUMP), writes these files into a folder, opens the main file with the log beside it by Python's
sqlite3, and has SQLite check it (PRAGMA integrity_check). It prints a line for each database, and ends with 1 where one
isn't whole. Run it before an output that has changed is renewed. It needs the built program, and is no part of the gate.

    checks/examples_by_sqlite.py [SCRIPT ..]
"""
import pathlib
import sqlite3
import struct
import subprocess
import sys
import tempfile

TOP = pathlib.Path(__file__).resolve().parent.parent
OPEN, DUMP, FILES = 3, 15, 9


def text(name):
    """A text of the wire: its bytes, a NUL, and zeros to the next whole word."""
    body = name.encode() + b"\0"
    return body + b"\0" * (-len(body) % 8)


def message(kind, body):
    return struct.pack("<IBBH", len(body) // 8, kind, 0, 0) + body


def messages(stream):
    """The messages of a stream, as far as they are whole."""
    while len(stream) >= 8:
        words, kind = struct.unpack_from("<IB", stream)
        end = 8 + 8 * words
        if len(stream) < end:
            return
        yield kind, stream[8:end]
        stream = stream[end:]


def read_text(body, at):
    end = body.index(b"\0", at)
    return body[at:end].decode(), at + (end - at + 8) // 8 * 8


def databases(lines):
    """The names that the clients of a script open, and a number that no client has."""
    streams = {}
    for line in lines:
        words = line.split(" ")
        if words[0] == "bytes" and len(words) == 3:
            try:
                streams.setdefault(words[1], bytearray()).extend(bytes.fromhex(words[2]))
            except ValueError:
                # (a line at fault, behind which nothing is run)
                break
    names = []
    for stream in streams.values():
        for kind, body in messages(bytes(stream[8:])):
            if kind == OPEN and b"\0" in body:
                name = read_text(body, 0)[0]
                if name not in names:
                    names.append(name)
    numbers = [int(line.split(" ")[2]) for line in lines if line.startswith("connect 1 ")]
    return names, max(numbers, default=0) + 1


def files(body):
    """The files of an answer to DUMP."""
    count, at, found = struct.unpack_from("<Q", body)[0], 8, {}
    for _ in range(count):
        name, at = read_text(body, at)
        size = struct.unpack_from("<Q", body, at)[0]
        found[name] = body[at + 8 : at + 8 + size]
        at += 8 + (size + 7) // 8 * 8
    return found


def verdict(found):
    """What SQLite says of these files: the main file, and the log beside it under the name that SQLite gives it."""
    with tempfile.TemporaryDirectory() as folder:
        main = pathlib.Path(folder) / "database"
        names = sorted(found, key=len)
        main.write_bytes(found[names[0]])
        main.with_name("database-wal").write_bytes(found[names[1]])
        connection = sqlite3.connect(main)
        try:
            return connection.execute("PRAGMA integrity_check").fetchone()[0]
        except sqlite3.Error as error:
            return str(error)
        finally:
            connection.close()


def look(path):
    """Whether each database that a script leaves is whole."""
    script = path.read_text()
    lines = script.splitlines()
    words = path.with_suffix(".words")
    if "nodes 1" not in lines or (words.exists() and "cells" in words.read_text()):
        return True
    names, client = databases(lines)
    if not names:
        return True
    asked = b"".join(message(DUMP, text(name)) for name in names)
    sent = (struct.pack("<Q", 1) + asked).hex()
    script += f"\nconnect 1 {client}\nbytes {client} {sent}\n"
    ran = subprocess.run([TOP / "dqnode", "script"], input=script.encode(), capture_output=True, check=False)
    told = [line.split(" ")[2] for line in ran.stdout.decode().splitlines() if line.startswith(f"reply {client} ")]
    if ran.returncode != 0 or len(told) != len(names):
        print(f"{path.name}: not asked, status {ran.returncode}")
        return True
    whole = True
    for name, reply in zip(names, told):
        for kind, body in messages(bytes.fromhex(reply)):
            said = verdict(files(body)) if kind == FILES else "not there"
            print(f"{path.name}: {name}: {said}")
            whole = whole and (said in ("ok", "not there"))
    return whole


def main():
    paths = [pathlib.Path(word) for word in sys.argv[1:]] or sorted((TOP / "examples").glob("*.script"))
    return 0 if all([look(path) for path in paths]) else 1


if __name__ == "__main__":
    sys.exit(main())
