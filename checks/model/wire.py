"""Requests and responses, by docs/protocol.md."""
import struct


class Fault(Exception):
    """A message that can't be read; `floating` where its first fault is a floating-point number."""

    def __init__(self, floating=False):
        super().__init__()
        self.floating = floating


def word(number):
    return struct.pack("<Q", number)


def padded(data):
    return data + b"\0" * (-len(data) % 8)


def text(words):
    return padded(words.encode() + b"\0")


def blob(data):
    return word(len(data)) + padded(data)


def message(kind, body, schema=0):
    return struct.pack("<IBBH", len(body) // 8, kind, schema, 0) + body


class Items:
    """Takes items off the front of a body."""

    def __init__(self, body):
        self.rest = body

    def raw(self, size):
        if len(self.rest) < size:
            raise Fault()
        front, self.rest = self.rest[:size], self.rest[size:]
        return front

    def word(self):
        return struct.unpack("<Q", self.raw(8))[0]

    def pair(self):
        return struct.unpack("<II", self.raw(8))

    def text(self):
        end = self.rest.find(b"\0")
        if end < 0:
            raise Fault()
        try:
            words = self.rest[:end].decode("utf-8")
        except UnicodeDecodeError:
            raise Fault() from None
        whole = (end + 8) // 8 * 8
        if self.raw(whole)[end:].strip(b"\0"):
            raise Fault()
        return words

    def value(self, code):
        if code in (1, 9, 11):
            return struct.unpack("<q", self.raw(8))[0]
        if code in (3, 10):
            return self.text()
        if code == 4:
            size = self.word()
            return self.raw((size + 7) // 8 * 8)[:size]
        if self.word():
            raise Fault()
        return None

    def parameters(self, wide):
        if not self.rest:
            return []
        front = 4 if wide else 1
        if len(self.rest) < front:
            raise Fault()
        count = int.from_bytes(self.rest[:front], "little")
        head = self.raw((front + count + 7) // 8 * 8)
        codes = head[front : front + count]
        if any(code not in (1, 2, 3, 4, 5, 9, 10, 11) for code in codes):
            raise Fault()
        if 2 in codes:
            raise Fault(floating=True)
        return [self.value(code) for code in codes]


FIELDS = {
    0: ("word",), 1: ("word",), 3: ("text", "word", "text"), 4: ("word", "text"), 5: ("pair", "tuple"),
    6: ("pair", "tuple"), 7: ("pair",), 8: ("word", "text", "tuple"), 9: ("word", "text", "tuple"), 10: ("word",),
    11: ("word", "text"), 12: ("word", "text"), 13: ("word", "word"), 14: ("word",), 15: ("text",), 16: ("word",),
    17: ("word",), 18: ("word",), 19: ("word",),
}
NAMES = {
    0: "LEADER", 1: "CLIENT", 3: "OPEN", 4: "PREPARE", 5: "EXEC", 6: "QUERY", 7: "FINALIZE", 8: "EXEC_SQL", 9: "QUERY_SQL",
    10: "INTERRUPT", 11: "CONNECT", 12: "ADD", 13: "ASSIGN", 14: "REMOVE", 15: "DUMP", 16: "CLUSTER", 17: "TRANSFER",
    18: "DESCRIBE", 19: "WEIGHT",
}
WIDE = (4, 5, 6, 8, 9)


def read_request(kind, schema, body):
    """The request's name, its fields, and whether it is wide."""
    if kind not in FIELDS or schema > (1 if kind in WIDE else 0):
        raise Fault()
    items = Items(body)
    fields = []
    for item in FIELDS[kind]:
        if item == "tuple":
            fields.append(items.parameters(schema == 1))
        else:
            fields.append(getattr(items, item)())
    if items.rest:
        raise Fault()
    return NAMES[kind], fields, schema == 1


class Stream:
    """What a client sends: a version word, and messages."""

    def __init__(self):
        self.bytes, self.greeted, self.end = b"", False, None

    def feed(self, piece):
        """The messages that are whole with this piece; `end` is the reason why the stream ends there, if it does."""
        self.bytes += piece
        found = []
        if not self.greeted:
            if len(self.bytes) < 8:
                return found
            if self.bytes[:8] != word(1):
                self.end = 1
                return found
            self.greeted, self.bytes = True, self.bytes[8:]
        while len(self.bytes) >= 8:
            words, kind, schema = struct.unpack("<IBB", self.bytes[:6])
            if words > 2_097_152:
                self.end = 2
                break
            if len(self.bytes) < 8 + 8 * words:
                break
            found.append((kind, schema, self.bytes[8 : 8 + 8 * words]))
            self.bytes = self.bytes[8 + 8 * words :]
        assert len(self.bytes) < 33_000_000, "the model doesn't count what a connection holds"
        return found


def failure(code, words):
    return message(0, word(code) + text(words))


def empty():
    return message(8, word(0))


def result(affected):
    return message(6, word(0) + word(affected))


def rows(columns, lines):
    """One part: rows of signed integers."""
    body = word(len(columns)) + b"".join(text(name) for name in columns)
    for line in lines:
        assert len(line) == 1
        body += word(1) + struct.pack("<q", line[0])
    return message(7, body + b"\xff" * 8)
