"""A whole node: Raft over its store, the databases, and the sessions of its clients, by docs/raft.md, docs/sessions.md and
docs/files.md."""
import hashlib
import struct

from . import scan, wire
from .disk import Store
from .scan import Image, Refused

VOTER, STANDBY, SPARE = 0, 1, 2
BATCH, DUE, STAY = 16, 64, 16
PAGES = 16_384


class Entry:
    """`size` counts the bytes of what it says, with the zeros to a whole word."""

    def __init__(self, term, kind, size, says=None):
        self.term, self.kind, self.size, self.says = term, kind, size, says


def barrier(term):
    return Entry(term, "barrier", 0)


def open_entry(term, name):
    return Entry(term, "open", 8 + len(wire.text(name)), name)


def undo(term, number):
    return Entry(term, "undo", 16, number)


def change(term, servers):
    return Entry(term, "change", servers_size(servers), servers)


def frames(term, name, number, pages):
    """The entries of a change of pages, 64 in each but the last, which commits."""
    cut = [pages[at : at + 64] for at in range(0, len(pages), 64)]
    head = 8 + len(wire.text(name)) + 24
    return [Entry(term, "frames", head + 4104 * len(part), (name, number, part, part is cut[-1])) for part in cut]


def servers_size(servers):
    return 8 + sum(16 + len(wire.text(address)) for address, _ in servers.values())


def message_size(message):
    """The bytes of a message, with its header."""
    rest = {"AskVote": 16, "Vote": 8, "Ack": 16, "TimeoutNow": 0}.get(message["kind"])
    if message["kind"] == "Append":
        rest = 32 + sum(16 + entry.size for entry in message["entries"])
    elif message["kind"] == "Install":
        rest = 24 + message["snapshot"].size()
    return 24 + rest


class Snapshot:
    """What a node stands at: index and term, the applied servers, the databases."""

    def __init__(self, index, term, servers, machine):
        self.index, self.term, self.servers, self.machine = index, term, servers, machine

    def size(self):
        size = 8 + servers_size(self.servers) + 16
        for name, database in self.machine.items():
            size += len(wire.text(name)) + 8 + 32 + 4120 * database.image.page_count() + 8
            if database.pending:
                size += 16 + 32 + 4120 * len(database.pending[1])
        return size


class Database:
    def __init__(self, image=None, pending=None):
        self.image, self.pending = image or Image(), pending
        self.commits, self.since = 0, 0


class Session:
    def __init__(self, conn):
        self.conn, self.waiting, self.gone = conn, [], False
        self.name, self.barriers, self.prepared = None, False, {}
        self.transaction, self.flight = None, None
        self.lost = False


class Transaction:
    def __init__(self, image, commits, turn):
        self.pinned, self.image, self.commits, self.turn = image, image, commits, turn


class Flight:
    """A proposal: `index` is that of its last entry; `then` is what becomes of the session and is answered once it is applied; `pages`
    is how many the image behind it has, and of an OPEN the name."""

    def __init__(self, kind, index, then, pages=0):
        self.kind, self.index, self.then, self.pages = kind, index, then, pages


class Node:
    def __init__(self, number, opening, disk):
        self.id = number
        self.store = Store(disk)
        kept = self.store.load()
        self.term, self.vote, self.kept_meta = kept.term, kept.vote, (kept.term, kept.vote)
        self.base, self.entries, self.snapshot = kept.base, kept.entries, kept.snapshot
        self.role, self.leader = "follower", 0
        self.servers, self.machine, self.applied = dict(opening), {}, 0
        if self.snapshot:
            self.servers, self.applied = dict(self.snapshot.servers), self.snapshot.index
            self.machine = machine_of(self.snapshot)
        self.commit = self.applied
        self.voters_of = self.current()
        self.granted, self.next, self.match = set(), {}, {}
        self.barrier = self.undo = None
        self.serving = False
        self.sessions, self.streams, self.turns, self.weight = {}, {}, [], 0

    # The log.

    def last(self):
        return self.base + len(self.entries)

    def term_at(self, index):
        if index == 0:
            return 0
        if self.snapshot and index == self.snapshot.index:
            return self.snapshot.term
        if self.base < index <= self.last():
            return self.entries[index - self.base - 1].term
        return None

    def current(self):
        """The servers of the whole log."""
        for entry in reversed(self.entries):
            if entry.kind == "change":
                return entry.says
        return self.snapshot.servers if self.snapshot else self.servers

    def voters(self):
        return {number for number, (_, role) in self.voters_of.items() if role == VOTER}

    def peers(self):
        return sorted(n for n, (_, role) in self.voters_of.items() if n != self.id and role in (VOTER, STANDBY))

    # One event.

    def event(self, kind, *what):
        """The replies, closes and messages of an event, in their order."""
        self.replies, self.closes, self.mail, self.to_peers, self.due = [], [], [], {}, []
        if kind in ("timeout", "beat", "message"):
            self.due.append((kind, *what))
        elif kind == "connect":
            self.connect(*what)
        elif kind == "bytes":
            self.feed(*what)
        elif kind == "hangup":
            self.hang_up(*what)
        while self.due or self.applied < self.commit or self.turns:
            if self.due:
                self.raft_step(*self.due.pop(0))
            elif self.applied < self.commit:
                self.apply_next()
            else:
                self.take_turn()
        self.close_ended()
        if self.applied - (self.snapshot.index if self.snapshot else 0) >= DUE:
            self.keep_snapshot()
        messages = self.mail + [self.to_peers[peer] for peer in sorted(self.to_peers)]
        return self.replies, sorted(self.closes), messages

    # Raft.

    def raft_step(self, kind, *what):
        old, led, was = self.commit, self.role == "leader", self.term
        self.batch, self.sends, self.all, self.brought = None, set(), False, None
        if kind == "message" and not self.take_message(*what):
            return
        if kind == "timeout":
            self.stand()
        elif kind == "beat":
            self.all = self.role == "leader"
        elif kind == "propose":
            self.add(*what)
        elif kind == "transfer":
            if what[0] != self.id:
                self.say(what[0], "TimeoutNow")
        elif kind == "servers":
            self.tell_servers(*what)
            self.send()
            return
        if self.role == "leader":
            for index in range(self.last(), self.commit, -1):
                have = {n for n in self.voters() if n == self.id or self.match.get(n, 0) >= index}
                if self.term_at(index) == self.term and 2 * len(have) > len(self.voters()):
                    self.commit = index
                    break
            self.all = self.all or self.commit > old
        self.send()
        if (self.term, self.vote) != self.kept_meta:
            self.store.set_meta(self.term, self.vote)
            self.kept_meta = (self.term, self.vote)
        if self.batch is not None:
            self.store.append(self.batch, self.entries[self.batch - self.base - 1 :])
        if self.brought:
            self.take_snapshot()
        if led and (self.role != "leader" or self.term != was):
            self.lose()
        if self.brought:
            self.stand_at(self.brought)
        if self.role != "leader":
            self.voters_of = self.current()
        elif not led or self.term != was:
            self.barrier = self.last()

    def say(self, to, kind, **fields):
        self.mail.append(dict(to=to, sender=self.id, kind=kind, term=self.term, **fields))

    def send(self):
        if self.role != "leader":
            return
        for peer in self.peers():
            if self.all or peer in self.sends:
                self.to_peers[peer] = self.message_for(peer)

    def message_for(self, peer):
        front = dict(to=peer, sender=self.id, term=self.term)
        index, first = self.next[peer], self.base + 1
        at = self.snapshot.index if self.snapshot else 0
        if index < first or index == first and index - 1 not in (0, at):
            return dict(front, kind="Install", snapshot=self.snapshot)
        entries = self.entries[index - first : index - first + BATCH]
        return dict(front, kind="Append", index=index - 1, at=self.term_at(index - 1), commit=self.commit, entries=entries)

    def add(self, entries):
        self.batch = self.last() + 1
        self.entries = self.entries + entries
        self.all = True

    def stand(self):
        if self.role == "leader" or self.id not in self.voters():
            return
        self.term, self.vote, self.role, self.leader = self.term + 1, self.id, "candidate", 0
        self.granted = {self.id}
        for peer in sorted(self.voters() - {self.id}):
            self.say(peer, "AskVote", index=self.last(), at=self.term_at(self.last()))
        self.count_votes()

    def count_votes(self):
        if 2 * len(self.granted & self.voters()) > len(self.voters()):
            self.role, self.leader = "leader", self.id
            self.next = {peer: self.last() + 1 for peer in self.peers()}
            self.match = {peer: 0 for peer in self.peers()}
            self.add([barrier(self.term)])

    def tell_servers(self, servers):
        before = set(self.peers())
        self.voters_of = servers
        for peer in self.peers():
            if peer not in before:
                self.next[peer], self.match[peer] = self.last() + 1, 0
                self.sends.add(peer)
        for peer in before - set(self.peers()):
            del self.next[peer], self.match[peer]

    def take_message(self, message):
        """Whether the message isn't lost."""
        kind, sender, term = message["kind"], message["sender"], message["term"]
        if term < self.term:
            if kind == "AskVote":
                self.say(sender, "Vote", granted=False)
            elif kind in ("Append", "Install"):
                self.say(sender, "Ack", good=False, index=self.last())
            return True
        if term > self.term:
            self.term, self.vote, self.role, self.leader = term, 0, "follower", 0
        if kind == "TimeoutNow":
            self.stand()
        elif kind == "AskVote":
            mine = (self.term_at(self.last()), self.last())
            granted = self.vote in (0, sender) and (message["at"], message["index"]) >= mine
            self.vote = sender if granted else self.vote
            self.say(sender, "Vote", granted=granted)
        elif kind == "Vote" and self.role == "candidate" and message["granted"]:
            self.granted.add(sender)
            self.count_votes()
        elif kind == "Ack" and self.role == "leader":
            self.take_ack(sender, message)
        elif kind in ("Append", "Install"):
            assert self.role != "leader", "two leaders of a term"
            self.role, self.leader = "follower", sender
            self.take_append(message) if kind == "Append" else self.take_install(message)
        return True

    def take_ack(self, sender, message):
        if sender not in self.peers():
            return
        index = message["index"]
        if message["good"]:
            assert index <= self.last()
            self.match[sender] = max(self.match[sender], index)
            self.next[sender] = self.match[sender] + 1
        else:
            self.next[sender] = max(min(self.next[sender] - 1, index + 1), self.match[sender] + 1)
        if not message["good"] or self.match[sender] < self.last():
            self.sends.add(sender)

    def take_append(self, message):
        index, at = message["index"], self.snapshot.index if self.snapshot else 0
        if not (index <= at or self.term_at(index) == message["at"] and index <= self.last()):
            self.say(message["sender"], "Ack", good=False, index=self.last())
            return
        for place, entry in enumerate(message["entries"], index + 1):
            if place <= at or self.term_at(place) == entry.term:
                continue
            assert place > self.commit, "a committed entry would go"
            self.entries = self.entries[: place - self.base - 1] + message["entries"][place - index - 1 :]
            self.batch = place
            break
        agrees = index + len(message["entries"])
        self.commit = max(self.commit, min(message["commit"], agrees))
        self.say(message["sender"], "Ack", good=True, index=agrees)

    def take_install(self, message):
        snapshot = message["snapshot"]
        self.say(message["sender"], "Ack", good=True, index=snapshot.index)
        if snapshot.index > self.commit:
            self.brought = snapshot

    def take_snapshot(self):
        new = self.brought
        keeps = self.base < new.index <= self.last() and self.term_at(new.index) == new.term
        self.entries = self.entries[new.index - self.base :] if keeps else []
        self.base, self.snapshot = new.index, new
        self.store.keep_snapshot(new, new.index + 1, self.entries)

    def stand_at(self, snapshot):
        self.commit = self.applied = snapshot.index
        self.servers, self.machine = dict(snapshot.servers), machine_of(snapshot)

    def keep_snapshot(self):
        index = self.applied
        new = Snapshot(index, self.term_at(index), dict(self.servers), copy_machine(self.machine))
        base = max(self.base, index - STAY)
        self.entries = self.entries[base - self.base :]
        self.base, self.snapshot = base, new
        self.store.keep_snapshot(new, base + 1, self.entries)

    # What is applied.

    def apply_next(self):
        self.applied += 1
        entry = self.entries[self.applied - self.base - 1]
        committed = self.act(entry)
        freed = [s for s in self.sessions.values() if s.flight and s.flight.index == self.applied]
        if self.role != "leader":
            assert not freed
            return
        for session in freed:
            self.land(session)
        if self.applied == self.barrier:
            numbers = [db.pending[0] for _, db in in_order(self.machine) if db.pending]
            if numbers:
                self.undo = self.last() + len(numbers)
                self.due.append(("propose", [undo(self.term, number) for number in numbers]))
            else:
                self.serving = True
        elif self.applied == self.undo:
            self.serving = True
        if self.serving and committed and self.machine[committed].since >= 1000:
            if not any(e.kind == "checkpoint" and e.says == committed for e in self.entries[self.applied - self.base :]):
                size = 8 + len(wire.text(committed))
                self.due.append(("propose", [Entry(self.term, "checkpoint", size, committed)]))

    def act(self, entry):
        """The name of the database that a commit changed."""
        if entry.kind == "change":
            self.servers = dict(entry.says)
        elif entry.kind == "open":
            self.machine.setdefault(entry.says, Database())
        elif entry.kind == "undo":
            for database in self.machine.values():
                if database.pending and database.pending[0] == entry.says:
                    database.pending = None
        elif entry.kind == "checkpoint":
            self.machine[entry.says].since = 0
        elif entry.kind == "frames":
            name, number, pages, commits = entry.says
            database = self.machine.setdefault(name, Database())
            before = database.pending[1] if database.pending and database.pending[0] == number else []
            database.pending = None if commits else (number, before + pages)
            if commits:
                database.image = database.image.with_pages(before + pages)
                database.commits += 1
                database.since += len(before + pages)
                return name
        return None

    # Clients.

    def connect(self, conn):
        if len(self.sessions) >= 64:
            self.closes.append((conn, 3))
            return
        self.sessions[conn], self.streams[conn] = Session(conn), wire.Stream()

    def feed(self, conn, piece):
        session = self.sessions[conn]
        self.fed = conn
        session.waiting += self.streams[conn].feed(piece)
        self.turns.append(session)

    fed = None

    def close_ended(self):
        conn, self.fed = self.fed, None
        if conn in self.streams and self.streams[conn].end:
            self.closes.append((conn, self.streams[conn].end))
            self.hang_up(conn)

    def hang_up(self, conn):
        session = self.sessions[conn]
        self.streams.pop(conn, None)
        session.gone, session.waiting = True, []
        if not session.flight:
            del self.sessions[conn]

    def reply(self, session, *messages):
        self.replies += [(session.conn, message) for message in messages]

    def free(self, session):
        session.flight = None
        if session.gone:
            del self.sessions[session.conn]
        else:
            self.turns.append(session)

    def land(self, session):
        flight = session.flight
        if session.gone:
            self.free(session)
            return
        if flight.kind == "barrier":
            session.flight = None
            self.answer(session, flight.then)
            if not session.flight:
                self.turns.append(session)
            return
        self.reply(session, flight.then())
        self.free(session)

    def lose(self):
        """Leadership is lost: what waits is refused, and transactions end."""
        self.barrier = self.undo = None
        self.serving = False
        waiting = sorted((s for s in self.sessions.values() if s.flight), key=lambda s: s.flight.index)
        for session in waiting:
            if not session.gone:
                self.reply(session, wire.failure(10506, "leadership lost"))
        for session in self.sessions.values():
            if session.transaction and not (session.flight and session.flight.kind == "pages"):
                session.lost = True
            session.transaction = None
        for session in waiting:
            self.free(session)

    def take_turn(self):
        session = self.turns[0]
        if not session.waiting or session.flight or session.gone:
            self.turns.pop(0)
            return
        kind, schema, body = session.waiting.pop(0)
        try:
            request = wire.read_request(kind, schema, body)
        except wire.Fault as fault:
            refusal = (20, "float parameter") if fault.floating else (1005, "bad request")
            self.reply(session, wire.failure(*refusal))
            return
        self.answer(session, lambda: self.handle(session, *request))

    def answer(self, session, handle):
        try:
            answer = handle()
        except Refused as refused:
            answer = wire.failure(refused.code, refused.words)
        if isinstance(answer, Flight):
            session.flight = answer
        else:
            self.reply(session, answer)

    def propose(self, entries, kind, then, pages=0):
        self.due.append(("propose", entries))
        return Flight(kind, self.last() + len(entries), then, pages)

    # Requests.

    LEADS = ("OPEN", "PREPARE", "EXEC", "QUERY", "EXEC_SQL", "QUERY_SQL", "TRANSFER", "ADD", "ASSIGN", "REMOVE")

    STATEMENTS = ("PREPARE", "EXEC", "QUERY", "EXEC_SQL", "QUERY_SQL")

    def ends_lost(self, session, name, fields):
        """COMMIT or ROLLBACK, if the request is just that."""
        number = fields[0][0] if isinstance(fields[0], tuple) else fields[0]
        if name not in ("EXEC", "EXEC_SQL") or session.name is None or number != 0:
            return None
        try:
            found = self.prepared(session, fields[0]) if name == "EXEC" else scan.statements(fields[1])
        except Refused:
            return None
        alone = len(found) == 1 and len(fields[-1]) == found[0].count
        return found[0].kind if alone and found[0].kind in ("Commit", "Rollback") else None

    def answer_lost(self, session, name, fields):
        """The transaction was lost with leadership: only COMMIT, which is refused, and ROLLBACK end it."""
        kind = self.ends_lost(session, name, fields)
        session.lost = kind is None
        if kind == "Rollback":
            return wire.result(0)
        raise Refused(10250, "not leader")

    def handle(self, session, name, fields, wide):
        if session.lost and name in self.STATEMENTS:
            return self.answer_lost(session, name, fields)
        if name in self.LEADS and not (self.role == "leader" and self.serving):
            raise Refused(10250, "not leader")
        if name in ("PREPARE", "FINALIZE", "EXEC", "QUERY", "EXEC_SQL", "QUERY_SQL", "INTERRUPT"):
            number = fields[0][0] if isinstance(fields[0], tuple) else fields[0]
            if session.name is None or number != 0:
                raise Refused(12, "no such database")
        return getattr(self, "on_" + name.lower())(session, wide, *fields)

    def on_leader(self, _session, _wide, _word):
        there = self.leader in self.servers
        return wire.message(1, wire.word(self.leader if there else 0) + wire.text(self.servers[self.leader][0] if there else ""))

    def on_client(self, _session, _wide, _number):
        return wire.message(2, wire.word(15000))

    def on_interrupt(self, _session, _wide, _number):
        return wire.empty()

    def on_weight(self, _session, _wide, weight):
        self.weight = weight
        return wire.empty()

    def on_describe(self, _session, _wide, format_):
        if format_ != 0:
            raise Refused(1, "bad format")
        return wire.message(10, wire.word(0) + wire.word(self.weight))

    def on_cluster(self, _session, _wide, format_):
        if format_ > 1:
            raise Refused(1, "bad format")
        body = wire.word(len(self.servers))
        for number, (address, role) in sorted(self.servers.items()):
            body += wire.word(number) + wire.text(address) + (wire.word(role) if format_ else b"")
        return wire.message(3, body)

    def on_connect(self, _session, _wide, _number, _address):
        raise Refused(1, "bad node")

    def on_dump(self, _session, _wide, name):
        if name not in self.machine:
            raise Refused(12, "no such database")
        main, side = self.machine[name].image.files()
        body = wire.word(2) + wire.text(name) + wire.blob(main) + wire.text(name + "-side") + wire.blob(side)
        if len(body) > 16_777_216:
            raise Refused(18, "answer too big")
        return wire.message(9, body)

    def on_transfer(self, _session, _wide, number):
        if number not in self.servers or self.servers[number][1] != VOTER:
            raise Refused(1, "bad node")
        if number != self.id and not self.is_even(number):
            raise Refused(1, "target behind")
        self.due.append(("transfer", number))
        return wire.empty()

    def is_even(self, number):
        return number in self.peers() and self.match[number] == self.last()

    def changing(self):
        if any(s.flight and s.flight.kind == "change" for s in self.sessions.values()):
            raise Refused(5, "a cluster change is in progress")

    def is_near(self, number):
        """The server is known to have entries of the log, and to lack at most the last 16."""
        return number in self.peers() and 0 < self.match[number] and self.last() - self.match[number] <= 16

    def change_to(self, servers, then=wire.empty):
        self.due.append(("servers", servers))
        return self.propose([change(self.term, servers)], "change", then)

    def on_add(self, _session, _wide, number, address):
        self.changing()
        if not 1 <= number <= 9 or number in self.servers or address in (a for a, _ in self.servers.values()) or len(address.encode()) > 255 or len(self.servers) >= 9:
            raise Refused(1, "bad node")
        return self.change_to({**self.servers, number: (address, SPARE)})

    def on_assign(self, _session, _wide, number, role):
        self.changing()
        if number not in self.servers:
            raise Refused(1, "bad node")
        if role > 2:
            raise Refused(1, "bad role")
        if number == self.id:
            raise Refused(1, "transfer first")
        address, old = self.servers[number]
        if role == VOTER and old != VOTER:
            if sum(r == VOTER for _, r in self.servers.values()) >= 7:
                raise Refused(1, "too many voters")
            if not self.is_near(number):
                if old != SPARE:
                    raise Refused(1, "target behind")
                return self.change_to({**self.servers, number: (address, STANDBY)}, lambda: wire.failure(1, "target behind"))
        return self.change_to({**self.servers, number: (address, role)})

    def on_remove(self, _session, _wide, number):
        self.changing()
        if number not in self.servers:
            raise Refused(1, "bad node")
        if number == self.id:
            raise Refused(1, "transfer first")
        return self.change_to({n: server for n, server in self.servers.items() if n != number})

    def on_open(self, session, _wide, name, flags, _vfs):
        if session.name is not None:
            raise Refused(5, "a database for this connection is already open")
        if not 1 <= len(name.encode()) <= 255:
            raise Refused(1, "bad name")

        def opens():
            session.name, session.barriers = name, bool(flags >> 32 & 1)
            return wire.message(4, struct.pack("<II", 0, 0))

        if name in self.machine:
            return opens()
        proposed = {s.flight.pages for s in self.sessions.values() if s.flight and s.flight.kind == "open"}
        names = set(self.machine) | proposed
        if name not in names and len(names) >= 16:
            raise Refused(13, "too many databases")
        if sum(self.sizes(name, Image()).values()) > PAGES:
            raise Refused(13, "database is full")
        return self.propose([open_entry(self.term, name)], "open", opens, name)

    # Statements.

    def on_prepare(self, session, wide, _number, words):
        found = scan.statements(words)
        if any(s.kind == "LeftOut" for s in found) or len(found) > 1 and any(s.kind in scan.CONTROL for s in found):
            raise Refused(1, "statement not allowed")
        if not found or len(found) > 1 and not wide:
            raise Refused(1, "one statement wanted")
        free = min(set(range(65)) - set(session.prepared))
        if free >= 64:
            raise Refused(13, "too many statements")
        session.prepared[free] = found[0]
        body = struct.pack("<II", 0, free) + wire.word(found[0].count)
        return wire.message(5, body + (wire.word(found[0].after) if wide else b""), int(wide))

    def prepared(self, session, pair):
        if pair[1] not in session.prepared:
            raise Refused(12, "no such statement")
        return [session.prepared[pair[1]]]

    def on_finalize(self, session, _wide, pair):
        self.prepared(session, pair)
        del session.prepared[pair[1]]
        return wire.empty()

    def on_exec(self, session, _wide, pair, parameters):
        return self.execute(session, self.prepared(session, pair), parameters, False)

    def on_query(self, session, _wide, pair, parameters):
        return self.execute(session, self.prepared(session, pair), parameters, True)

    def on_exec_sql(self, session, _wide, _number, words, parameters):
        return self.execute(session, scan.statements(words), parameters, False)

    def on_query_sql(self, session, _wide, _number, words, parameters):
        return self.execute(session, scan.statements(words), parameters, True)

    def execute(self, session, found, parameters, asks):
        control = [s for s in found if s.kind in scan.CONTROL]
        if any(s.kind == "LeftOut" for s in found) or control and (asks or len(found) > 1):
            raise Refused(1, "statement not allowed")
        if asks and len(found) != 1:
            raise Refused(1, "one statement wanted")
        if len(parameters) != sum(s.count for s in found):
            raise Refused(1, "wrong parameter count")
        if control:
            return self.controls(session, found[0])
        if any(s.kind == "Write" for s in found):
            self.may_change(session)
        if asks and session.barriers and not session.transaction:
            return self.propose([barrier(self.term)], "barrier", lambda: self.run(session, found, parameters, True))
        return self.run(session, found, parameters, asks)

    def turn_taken(self, session):
        for other in self.sessions.values():
            if other is not session and other.name == session.name:
                if other.transaction and other.transaction.turn or other.flight and other.flight.kind == "pages":
                    return True
        return False

    def may_change(self, session):
        """Refuses what would change pages for the turn, or for an old image."""
        transaction = session.transaction
        if self.turn_taken(session):
            raise Refused(5, "database is locked")
        if transaction and transaction.commits != self.machine[session.name].commits:
            raise Refused(517, "snapshot is out of date")

    def controls(self, session, statement):
        transaction, database = session.transaction, self.machine[session.name]
        if statement.kind == "Begin":
            if transaction:
                raise Refused(1, "already in a transaction")
            if statement.at_once and self.turn_taken(session):
                raise Refused(5, "database is locked")
            session.transaction = Transaction(database.image, database.commits, statement.at_once)
            return wire.result(0)
        if not transaction:
            raise Refused(1, "no transaction")
        if statement.kind == "Rollback":
            session.transaction = None
            return wire.result(0)
        pages = transaction.pinned.change_to(transaction.image)
        if not pages:
            session.transaction = None
            return wire.result(0)
        self.has_room(session, transaction.image)

        def commits():
            session.transaction = None
            return wire.result(0)

        return self.propose_pages(session, pages, transaction.image, commits)

    def sizes(self, name, image):
        """The pages of all databases, proposals counted, where one has this image."""
        sizes = {other: database.image.page_count() for other, database in self.machine.items()}
        for other in self.sessions.values():
            if other.flight and other.flight.kind == "open":
                sizes.setdefault(other.flight.pages, 1)
            elif other.flight and other.flight.kind == "pages":
                sizes[other.name] = max(sizes[other.name], other.flight.pages)
        sizes[name] = max(sizes.get(name, 0), image.page_count())
        return sizes

    def has_room(self, session, image):
        if sum(self.sizes(session.name, image).values()) > PAGES:
            raise Refused(13, "database is full")

    def propose_pages(self, session, pages, image, then):
        number = (self.term << 32) + self.last() + 1
        return self.propose(frames(self.term, session.name, number, pages), "pages", then, image.page_count())

    def run(self, session, found, parameters, asks):
        transaction, database = session.transaction, self.machine[session.name]
        first = image = transaction.image if transaction else database.image
        affected, columns, lines, parameters = 0, [], [], list(parameters)
        for statement in found:
            mine, parameters = parameters[: statement.count], parameters[statement.count :]
            image, affected, columns, lines = scan.run_cells(image, statement.words, mine)
        answer = wire.rows(columns, lines) if asks else wire.result(affected)
        pages = first.change_to(image)
        if not pages:
            return answer
        self.may_change(session)
        self.has_room(session, image)
        if not transaction:
            return self.propose_pages(session, pages, image, lambda: answer)
        transaction.image, transaction.turn = image, True
        return answer

    # How it stands.

    def digest(self):
        sums = hashlib.sha256()
        for name, database in in_order(self.machine):
            main, side = database.image.files()
            sums.update(wire.text(name) + wire.word(len(main)) + main + wire.word(len(side)) + side)
        return sums.hexdigest()

    def line(self):
        return "node %d term %d role %s applied %d files %s" % (self.id, self.term, self.role, self.applied, self.digest())


def in_order(machine):
    return sorted(machine.items(), key=lambda item: item[0].encode())


def copy_machine(machine):
    return {name: Database(database.image, database.pending) for name, database in machine.items()}


def machine_of(snapshot):
    return copy_machine(snapshot.machine)
