#!/usr/bin/env python3
"""Has the built program check folders of a stopped node, cut at every place, and compares what it tells.

It writes the files of a few nodes by the rules of docs/store.md, cuts each file at each place, and one byte of it at each place is
changed. Before each it reads the folder itself by the same rules, in a few lines that share nothing with the program. It looks at
the lines, at the status, and that no file has changed. It ends with 1 where one of them is otherwise. It needs the built program, and
is no part of the gate.

    checks/check_folders.py
"""
import hashlib
import pathlib
import struct
import subprocess
import sys
import tempfile
import zlib

TOP = pathlib.Path(__file__).resolve().parent.parent
COMMAND, BARRIER, SERVERS = 1, 2, 3
PAGE = 4096
FORMATS = 1, 2, 3
FACTOR = 0x9E3779B185EBCA87


def word(number):
    return struct.pack("<Q", number)


def padded(data):
    return data + b"\0" * (-len(data) % 8)


def text(name):
    return padded(name.encode() + b"\0")


# ---- writing


def word_sum(data):
    """The sum over words of format 3."""
    state = 0xC2B2AE3D27D4EB4F
    words = [number for number, in struct.iter_unpack("<Q", padded(data))]
    for number in words + [len(data), FACTOR, FACTOR]:
        state = (state ^ number) * FACTOR % 2**64
        state = (state << 31 | state >> 33) % 2**64
    return state


def total(form, data):
    """The sum of a format, as a word."""
    if form == 1:
        return word(zlib.crc32(data))
    return hashlib.sha256(data).digest()[:8] if form == 2 else word(word_sum(data))


def short_total(form, data):
    """The sum of a batch's part, which has four bytes in format 1."""
    return total(form, data)[:4] if form == 1 else total(form, data)


def metadata(form, version, term, vote):
    head = word(form) + word(version) + word(term) + word(vote)
    return head + total(form, head)


def batch(form, first, entries):
    head = word(first) + word(len(entries))
    body = b""
    for term, kind, data in entries:
        head += word(term) + struct.pack("<BxxxI", kind, len(data))
        body += padded(data)
    return short_total(form, head) + short_total(form, body) + head + body


def snapshot(form, index, term, data):
    head = word(index) + word(term) + word(len(data))
    return word(form) + head + total(form, head + data) + padded(data)


def open_db(name):
    return struct.pack("<BB6x", 1, 1) + text(name)


def sizes(main, side):
    return (word(main) + word(side)).ljust(PAGE, b"\0")


def commit(name, number, pages):
    """Frames that commit pages, the last of which is the sizes page."""
    main, side = struct.unpack_from("<QQ", pages[-1][1])
    count = 1 + -(-main // PAGE) + -(-side // PAGE)
    head = struct.pack("<BB6x", 1, 2) + text(name) + word(number) + struct.pack("<IBxxxIHxx", count, 1, len(pages), PAGE)
    return head + b"".join(word(at) for at, _ in pages) + b"".join(page for _, page in pages)


# ---- reading, by the rules of docs/store.md


class Damaged(Exception):
    pass


def read_metadata(files):
    best = (0, 0, 0)
    for name, parity in (("metadata1", 1), ("metadata2", 0)):
        data = files.get(name, b"")
        if len(data) != 40:
            continue
        form, version, term, vote = struct.unpack_from("<QQQQ", data)
        if form in FORMATS and total(form, data[:32]) == data[32:] and version % 2 == parity:
            best = max(best, (version, term, vote))
    return best


def read_batch(form, data, at):
    """The first index, the entries and the place behind a batch, if one stands there."""
    size = 4 if form == 1 else 8
    sums, head = data[at:at + 2 * size], at + 2 * size
    if len(data) < head + 16:
        return None
    first, count = struct.unpack_from("<QQ", data, head)
    if first == 0 or (len(data) - head - 16) // 16 < count:
        return None
    body = head + 16 + 16 * count
    entries, place = [], body
    for number in range(count):
        term, kind, zeros, length = struct.unpack_from("<QB3sI", data, head + 16 + 16 * number)
        if kind not in (COMMAND, BARRIER, SERVERS) or zeros != b"\0\0\0" or len(data) < place + length + -length % 8:
            return None
        if any(data[place + length:place + length + -length % 8]):
            return None
        entries.append((term, kind, data[place:place + length]))
        place += length + -length % 8
    if short_total(form, data[head:body]) + short_total(form, data[body:place]) != sums:
        return None
    return first, entries, place


def read_segment(data):
    """The batches of a segment, and the place from which nothing reads, where that isn't its end."""
    if len(data) < 8 or struct.unpack_from("<Q", data)[0] not in FORMATS:
        return [], 0
    form, at, batches = struct.unpack_from("<Q", data)[0], 8, []
    while at < len(data):
        found = read_batch(form, data, at)
        if not found:
            return batches, at
        batches.append(found[:2])
        at = found[2]
    return batches, None


def read_snapshot(number, data):
    if len(data) < 40:
        return None
    form, index, term, size = struct.unpack_from("<QQQQ", data)
    body = data[40:40 + size]
    if form not in FORMATS or index != number or index == 0 or len(body) != size or data[40:] != padded(body):
        return None
    return (index, term, body) if total(form, data[8:32] + body) == data[32:40] else None


def numbered(files, kind):
    found = []
    for name, data in files.items():
        rest = name[len(kind) + 1:]
        if name.startswith(kind + "-") and len(rest) == 16 and rest.isdigit():
            found.append((int(rest), data))
    return sorted(found)


def read_folder(files):
    """Term, vote, snapshot, the log's first index and its entries; or the line of a fault."""
    version, term, vote = read_metadata(files)
    wholes = [found for number, data in numbered(files, "snapshot") if (found := read_snapshot(number, data))]
    index, of_term, state = max(wholes, default=(0, 0, None))
    first, log, damage, batches = 1, [], None, 0
    segments = numbered(files, "segment")
    for place, (number, data) in enumerate(segments):
        found, torn = read_segment(data)
        for begins, entries in found:
            batches += 1
            if first <= begins <= first + len(log):
                log = log[:begins - first] + entries
            else:
                first, log = begins, entries
        if torn is not None and place + 1 < len(segments):
            damage = (number, torn)
            break
    if version == 0 and (batches or wholes):
        return "no metadata\n"
    if damage:
        return "damaged %d %d\n" % damage
    if first > index + 1:
        return "gap %d %d\n" % (first, index)
    last = first + len(log) - 1
    if index and first <= index <= last:
        if log[index - first][0] != of_term:
            first, log = index + 1, []
    elif last < index:
        first, log = index + 1, []
    return term, vote, index, of_term, state, first, log


def head_end(form, data, at):
    """Where the batch ends whose head is whole at a place, by its head."""
    size = 4 if form == 1 else 8
    head = at + 2 * size
    if len(data) < head + 16:
        return None
    count = struct.unpack_from("<Q", data, head + 8)[0]
    body = head + 16 + 16 * count
    if len(data) < body or short_total(form, data[head:body]) != data[at:at + size]:
        return None
    heads = [struct.unpack_from("<B3sI", data, head + 24 + 16 * number) for number in range(count)]
    if any(kind not in (COMMAND, BARRIER, SERVERS) or zeros != b"\0\0\0" for kind, zeros, _ in heads):
        return None
    return body + sum(length + -length % 8 for _, _, length in heads)


def tail_fault(files, following):
    """The line of a last segment whose end isn't torn, if the log's next index is this one."""
    segments = numbered(files, "segment")
    if not segments:
        return None
    number, data = segments[-1]
    at = read_segment(data)[1]
    if at is None or at == 0 and len(data) <= 8:
        return None
    form = struct.unpack_from("<Q", data)[0]
    if at == 0:
        return "unknown format %d %d\n" % (number, form)
    others = [read_batch(other, data, 8) for other in FORMATS] if at == 8 else []
    if any(found and found[0] <= following for found in others):
        return "damaged %d %d\n" % (number, at)
    for place in range(head_end(form, data, at) or at + 8, len(data), 8):
        found = read_batch(form, data, place)
        if found and found[0] <= following + (place - at) // 16:
            return "damaged %d %d\n" % (number, at)
    return None


def applied(databases, data):
    """What one of the commands that are written here does; other bytes do nothing."""
    if data[:8] == struct.pack("<BB6x", 1, 1):
        databases.setdefault(data[8:].rstrip(b"\0"), (b"", b""))
    elif data[:8] == struct.pack("<BB6x", 1, 2):
        name = data[8:data.index(b"\0", 8)]
        at = 8 + len(padded(name + b"\0")) + 8
        count = struct.unpack_from("<I", data, at + 8)[0]
        numbers = struct.unpack_from("<%dQ" % count, data, at + 16)
        pages = [data[at + 16 + 8 * count + PAGE * k:][:PAGE] for k in range(count)]
        both = [bytearray(half) for half in databases.get(name, (b"", b""))]
        for half, length in zip(both, struct.unpack_from("<QQ", pages[-1])):
            half[:] = half[:length].ljust(length, b"\0")
        for number, page in zip(numbers[:-1], pages):
            half, at = both[number % 2], (number // 2 - 1) * PAGE
            half[at:at + PAGE] = page[:len(half) - at]
        databases[name] = tuple(bytes(half) for half in both)


def digest(databases):
    made = hashlib.sha256()
    for name, halves in sorted(databases.items()):
        made.update(padded(name + b"\0"))
        for half in halves:
            made.update(word(len(half)) + half)
    return made.hexdigest()


def wanted(files):
    """The status and the lines of a check."""
    found = read_folder(files)
    if isinstance(found, str):
        return 8, found
    term, vote, index, of_term, state, first, log = found
    fault = tail_fault(files, first + len(log))
    if fault:
        return 8, fault
    databases = {}
    # The snapshots that are written here have a configuration without servers, and no database, with a format word or without.
    if state is not None and state.removeprefix(word(258)) != word(0) + word(1) + word(0):
        return 8, "bad snapshot %d\n" % index
    lines = "term %d vote %d\n" % (term, vote)
    lines += "snapshot %d %d\n" % (index, of_term) if index else "snapshot none\n"
    last = first + len(log) - 1
    lines += "log %d %d\n" % (first, last) if log else "log none\n"
    lines += "files %d %s\n" % (index, digest(databases))
    for at, (_, kind, data) in enumerate(log):
        if kind == COMMAND and first + at > index:
            applied(databases, data)
    return 0, lines + ("end %d %s\n" % (last, digest(databases)) if log else "")


# ---- the folders


def write_all(form):
    """The log of a node with a database in which two pages were committed, in two segments."""
    page = bytes(range(256)) * 16
    first = batch(form, 1, [(1, BARRIER, b""), (1, COMMAND, open_db("stock"))]) + batch(form, 3, [(1, COMMAND, b"no command")])
    rows = commit("stock", 1, [(2, page), (1, sizes(PAGE, 0))])
    second = batch(form, 4, [(2, BARRIER, b""), (2, COMMAND, rows)]) + batch(form, 5, [(3, BARRIER, b"")])
    return {"segment-%016d" % 1: word(form) + first, "segment-%016d" % 2: word(form) + second}


def folders():
    for form in FORMATS:
        both = {"metadata1": metadata(form, 1, 1, 1), "metadata2": metadata(form, 2, 3, 2)}
        yield "log of format %d" % form, both | write_all(form)
        empty = word(0) + word(1) + word(0)
        tail = {"segment-%016d" % 7: word(form) + batch(form, 4, [(2, BARRIER, b""), (2, COMMAND, open_db("d"))])}
        yield "snapshot of format %d" % form, both | tail | {"snapshot-%016d" % 4: snapshot(form, 4, 2, word(258) + empty)}
        yield "older snapshot of format %d" % form, both | tail | {"snapshot-%016d" % 4: snapshot(form, 4, 2, empty)}
        yield "gap of format %d" % form, both | tail
        yield "bad snapshot of format %d" % form, both | {"snapshot-%016d" % 4: snapshot(form, 4, 2, b"state")}
    yield "empty", {}
    yield "other names", {"metadata": b"x", "segment-1": b"x", "snapshot-x": b"x"}


def changed(files):
    """The folder, with each of its files cut at each place, and with a byte of it changed at each place; of pages only a few places."""
    yield "as it is", files
    for name, data in files.items():
        yield name + " missing", {other: files[other] for other in files if other != name}
        places = [at for at in range(len(data)) if at < 400 or at % 97 == 0 or at > len(data) - 200]
        for at in places:
            yield "%s cut at %d" % (name, at), files | {name: data[:at]}
            yield "%s changed at %d" % (name, at), files | {name: data[:at] + bytes([data[at] ^ 1]) + data[at + 1:]}


def check(files):
    with tempfile.TemporaryDirectory() as folder:
        for name, data in files.items():
            (pathlib.Path(folder) / name).write_bytes(data)
        ran = subprocess.run([TOP / "dqnode", "check"], cwd=folder, capture_output=True, text=True)
        left = {path.name: path.read_bytes() for path in pathlib.Path(folder).iterdir()}
        return ran.returncode, ran.stdout, left == files


def main():
    wrong = count = 0
    for title, files in folders():
        ends = {}
        for change, folder in changed(files):
            status, lines = wanted(folder)
            ended, printed, stays = check(folder)
            count += 1
            ends[status] = ends.get(status, 0) + 1
            if (ended, printed) != (status, lines) or not stays:
                wrong += 1
                print("%s, %s: %d %r and not %d %r%s" % (title, change, ended, printed, status, lines, "" if stays else "; files changed"))
        print("%s: %s" % (title, ", ".join("%d with %d" % (number, status) for status, number in sorted(ends.items()))))
    print("%d folders, %d otherwise than they should be" % (count, wrong))
    return 1 if wrong else 0


if __name__ == "__main__":
    sys.exit(main())
