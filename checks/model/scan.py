"""A text of SQL as statements, by docs/sql.md, and the engine of cells, by docs/cells.md."""
import re


class Refused(Exception):
    def __init__(self, code, words):
        super().__init__()
        self.code, self.words = code, words


SPACE = " \t\n\f\r"
CONTROL = ("Begin", "Commit", "Rollback")


def is_word(char):
    return char.isascii() and (char.isalnum() or char == "_") or ord(char) > 127


def tokens(words):
    """The tokens of a text as (kind, from, to)."""
    at = 0
    while at < len(words):
        start, char = at, words[at]
        if char in SPACE:
            at += 1
            continue
        if words.startswith("--", at):
            end = words.find("\n", at)
            at = len(words) if end < 0 else end + 1
            continue
        if words.startswith("/*", at):
            end = words.find("*/", at + 2)
            if end < 0:
                raise Refused(1, "open comment")
            at = end + 2
            continue
        if char in "'\"`[":
            close, at = ("]" if char == "[" else char), at + 1
            while True:
                end = words.find(close, at)
                if end < 0:
                    raise Refused(1, "open quote")
                at = end + 1
                if close == "]" or not words.startswith(close, at):
                    break
                at += 1
            yield "quoted", start, at
        elif is_word(char):
            while at < len(words) and (is_word(words[at]) or words[at] == "$"):
                at += 1
            yield "word", start, at
        elif char == "?":
            at += 1
            while at < len(words) and words[at] in "0123456789":
                at += 1
            yield "parameter", start, at
        elif char in ":@$" and at + 1 < len(words) and is_word(words[at + 1]):
            raise Refused(1, "named parameter")
        else:
            at += 1
            yield "end" if char == ";" else "other", start, at


def kind_of(firsts):
    """The kind of a statement by its words up to the first token that is none, and whether something else follows."""
    names, whole = firsts
    first = names[0] if names else ""
    if first in ("INSERT", "REPLACE", "UPDATE", "DELETE", "CREATE", "DROP", "ALTER"):
        return "Write", False
    if first in ("ATTACH", "DETACH", "PRAGMA", "VACUUM", "SAVEPOINT", "RELEASE"):
        return "LeftOut", False
    kinds = {"BEGIN": "Begin", "COMMIT": "Commit", "END": "Commit", "ROLLBACK": "Rollback"}
    if first not in kinds:
        return "Other", False
    rest, at_once = names[1:], False
    if first == "BEGIN" and rest and rest[0] in ("DEFERRED", "IMMEDIATE", "EXCLUSIVE"):
        at_once = rest[0] != "DEFERRED"
        rest = rest[1:]
    if rest and rest[0] == "TRANSACTION":
        rest = rest[1:]
    return ("LeftOut", False) if rest or not whole else (kinds[first], at_once)


class Statement:
    def __init__(self, words, firsts, count, after):
        self.words, self.count, self.after = words, count, after
        self.kind, self.at_once = kind_of(firsts)


def statements(words):
    """The statements of a text."""
    found, begin, end, count, names, whole = [], None, 0, 0, [], True
    for kind, start, at in list(tokens(words)) + [("end", len(words), len(words))]:
        if kind == "end":
            if begin is not None:
                after = len(words[:at].encode())
                found.append(Statement(words[begin:end], (names, whole), count, after))
            begin, count, names, whole = None, 0, [], True
            continue
        if begin is None:
            begin = start
        if kind == "word" and whole:
            names.append(words[start:at].upper())
        else:
            whole = False
        if kind == "parameter":
            number = int(words[start + 1 : at]) if at > start + 1 else count + 1
            if not 1 <= number <= 32_766:
                raise Refused(1, "bad parameter number")
            count = max(count, number)
        end = at
    return found


class Image:
    """The pages of a database: numbers of the main file by page, how many pages it has, and the count of changes."""

    def __init__(self, cells=None, pages=0, count=None):
        self.cells, self.pages, self.count = cells or {}, pages, count

    def page_count(self):
        return 1 + self.pages + (self.count is not None)

    def files(self):
        main = bytearray(4096 * self.pages)
        for place, number in self.cells.items():
            main[4096 * (place - 1) : 4096 * (place - 1) + 8] = number.to_bytes(8, "little")
        side = b"" if self.count is None else self.count.to_bytes(8, "little") + bytes(4088)
        return bytes(main), side

    def change_to(self, other):
        """The pages by which another image differs, the sizes page last; none between equal ones."""
        pages = []
        if other.count is not None and other.count != self.count:
            pages.append((3, other.count))
        places = set(range(self.pages + 1, other.pages + 1))
        for place in set(self.cells) | set(other.cells):
            if place <= other.pages and self.cells.get(place, 0) != other.cells.get(place, 0):
                places.add(place)
        pages += [(2 * place, other.cells.get(place, 0)) for place in places]
        if not pages and (self.pages, self.count is None) == (other.pages, other.count is None):
            return []
        return sorted(pages) + [(1, (other.pages, other.count is not None))]

    def with_pages(self, pages):
        length, side = pages[-1][1]
        cells = {place: number for place, number in self.cells.items() if place <= length}
        count = (self.count or 0) if side else None
        for number, content in pages[:-1]:
            if number == 3:
                count = content
            else:
                cells[number // 2] = content
        return Image({place: number for place, number in cells.items() if number}, length, count)


NUMBER = r"(0|[1-9][0-9]*)"
SET = re.compile(rf"SET {NUMBER} {NUMBER}\Z", re.ASCII)
GET = re.compile(rf"GET {NUMBER}\Z", re.ASCII)
WIPE = re.compile(rf"WIPE {NUMBER}\Z", re.ASCII)
LAST = 2**64 - 1


def run_cells(image, words, parameters):
    """The image behind a statement, the pages affected, the names of its columns and its rows."""
    if parameters:
        raise Refused(1, "SQL error")
    risen = ((image.count or 0) + 1) & LAST
    if found := SET.match(words):
        place, number = int(found[1]), int(found[2])
        if 1 <= place <= 8192 and len(found[2]) <= 19:
            if number > 2**63 - 1:
                raise Refused(19, "constraint failed")
            cells = {**image.cells, place: number}
            cells = cells if number else {k: v for k, v in cells.items() if k != place}
            return Image(cells, max(image.pages, place), risen), 1, [], []
    if found := GET.match(words):
        place = int(found[1])
        if 1 <= place <= 8192:
            there = [] if place > image.pages else [[signed(image.cells.get(place, 0))]]
            return image, 0, ["v"], there
    if found := WIPE.match(words):
        length = int(found[1])
        if length <= 8192:
            if image.pages <= length:
                return image, 0, [], []
            cells = {place: number for place, number in image.cells.items() if place <= length}
            return Image(cells, length, risen), image.pages - length, [], []
    raise Refused(1, "SQL error")


def signed(number):
    return number - 2**64 if number >= 2**63 else number
