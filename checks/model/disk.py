"""A disk over memory with its stops, failures and crashes, by docs/disk.md, and the store of a node over it, by docs/store.md.

A file is a list of blocks. A block has a size in bytes and what it says; one of which a crash left a half says nothing."""


class Stopped(Exception):
    pass


class Failed(Exception):
    pass


class Block:
    def __init__(self, kind, size, says=None):
        self.kind, self.size, self.says = kind, size, says


def torn(block):
    return Block("torn", block.size // 2)


class Call:
    """A write, cut or removal since the disk was last at rest. `wants` are the syncs that still have to cover it, by the name of
    their file, and "" for the names; `synced` and `named` say which came."""

    def __init__(self, kind, name, block, wants):
        self.kind, self.name, self.block, self.wants = kind, name, block, wants
        self.synced = self.named = False


class Disk:
    def __init__(self):
        self.files, self.rest, self.calls = {}, {}, []
        self.count, self.stop, self.fail, self.stopped = 0, None, None, False

    def arm(self, stop=None, fail=None):
        self.count, self.stop, self.fail, self.stopped = 0, stop, fail, False

    def meets(self):
        """Counts a call; answers whether the disk stops at it."""
        self.count += 1
        if self.count == self.fail:
            raise Failed
        self.stopped = self.stopped or self.count == self.stop
        return self.stopped

    def after(self, stops):
        if stops:
            raise Stopped

    def look(self, calls=1):
        for _ in range(calls):
            self.after(self.meets())

    def note(self, call):
        self.calls.append(call)
        play(self.files, call)

    def write(self, name, block, over=False):
        stops = self.meets()
        wants = {name} if name in self.files else {name, ""}
        self.note(Call("over" if over else "write", name, block, wants))
        self.after(stops)

    def cut(self, name, blocks):
        """Keeps the first blocks of a file; what goes is a call of its own only where something goes."""
        stops = self.meets()
        if len(self.files.get(name, [])) > blocks:
            self.note(Call("cut", name, blocks, {name}))
        self.after(stops)

    def remove(self, name):
        stops = self.meets()
        if name in self.files:
            self.note(Call("remove", name, None, {""}))
        self.after(stops)

    def cover(self, what, of):
        self.after(self.meets())
        for call in self.calls:
            call.named = call.named or what == ""
            if of(call):
                call.wants.discard(what)
                call.synced = call.synced or what != ""
        if not any(call.wants for call in self.calls):
            self.rest, self.calls = copied(self.files), []

    def sync(self, name):
        self.cover(name, lambda call: call.name == name and call.kind != "remove")

    def sync_names(self):
        self.cover("", lambda call: True)

    def crash(self, pick):
        uncovered = [call for call in self.calls if call.wants]
        kept = pick % (len(uncovered) + 1)
        dropped = uncovered[kept:]
        half = dropped[0] if dropped and pick // (len(uncovered) + 1) % 2 == 1 else None
        if half and (half.kind not in ("write", "over") or half.synced):
            half = None
        files, gone, named = copied(self.rest), set(), {}
        for call in self.calls:
            if call.kind in ("write", "over") and call.name not in files:
                if call in dropped and call is not half:
                    gone.add(call.name)
                    named[call.name] = call.named
            if call is half:
                play(files, Call(call.kind, call.name, torn(call.block), ()))
            elif call not in dropped:
                if call.name in gone:
                    if call.kind == "remove":
                        gone.discard(call.name)
                        named.pop(call.name, None)
                else:
                    play(files, call)
        for name, there in named.items():
            if there and name not in files:
                files[name] = []
        self.files, self.rest, self.calls = files, copied(files), []
        self.arm()


def copied(files):
    return {name: list(blocks) for name, blocks in files.items()}


def play(files, call):
    if call.kind == "remove":
        files.pop(call.name, None)
    elif call.kind == "cut":
        if call.name in files:
            del files[call.name][call.block :]
    elif call.kind == "over":
        files[call.name] = [call.block]
    else:
        files.setdefault(call.name, []).append(call.block)


def number_in(name):
    return int(name.rsplit("-", 1)[1])


class Kept:
    """What files stand for."""

    def __init__(self):
        self.term, self.vote, self.version = 0, 0, 0
        self.snapshot = None
        self.base, self.entries = 0, []


class Store:
    """The files of a node, over its disk."""

    SEGMENT = 8_388_608

    def __init__(self, disk):
        self.disk = disk
        self.version = 0
        self.open = None
        self.next = 1

    def names(self, kind):
        return sorted((name for name in self.disk.files if name.startswith(kind)), key=number_in)

    # What the files stand for, and what a load leaves of them.

    def load(self):
        disk = self.disk
        disk.look()
        kept, stale = self.read()
        files = [n for n in ("metadata1", "metadata2") if n in disk.files] + self.names("segment-") + self.names("snapshot-")
        for name in files:
            disk.sync(name)
        disk.sync_names()
        segments = self.names("segment-")
        self.next = number_in(segments[-1]) + 1 if segments else 1
        if segments:
            blocks = disk.files[segments[-1]]
            if not blocks or blocks[0].kind != "format":
                disk.remove(segments[-1])
                disk.sync_names()
            elif blocks[-1].kind == "torn":
                disk.cut(segments[-1], len(blocks) - 1)
                disk.sync(segments[-1])
        if stale is not None:
            self.begin(Block("batch", 32, (stale, [])))
        self.version, self.open = kept.version, None
        return kept

    def reads(self, name):
        size = sum(block.size for block in self.disk.files[name])
        self.disk.look(-(-size // 65_536) + 1)
        return self.disk.files[name]

    def read(self):
        kept, found = Kept(), None
        for name, odd in (("metadata1", 1), ("metadata2", 0)):
            if name in self.disk.files:
                for block in self.reads(name):
                    if block.kind == "meta" and block.says[0] % 2 == odd and block.says[0] > kept.version:
                        kept.version, kept.term, kept.vote = block.says
        for name in reversed(self.names("snapshot-")):
            if found is None:
                blocks = self.reads(name)
                if len(blocks) == 1 and blocks[0].kind == "snapshot":
                    found = blocks[0].says
        kept.snapshot = found
        base, entries, segments = 0, [], self.names("segment-")
        for name in segments:
            blocks = self.reads(name)
            whole = bool(blocks) and blocks[0].kind == "format" and all(b.kind == "batch" for b in blocks[1:])
            assert whole or name == segments[-1], "a damaged segment"
            if not blocks or blocks[0].kind != "format":
                continue
            for block in blocks[1:]:
                if block.kind != "batch":
                    break
                first, batch = block.says
                if base + 1 <= first <= base + len(entries) + 1:
                    entries = entries[: first - base - 1] + batch
                else:
                    base, entries = first - 1, list(batch)
        index, term = (found.index, found.term) if found else (0, 0)
        assert base <= index, "a gap"
        stale = None
        if base < index <= base + len(entries):
            if entries[index - base - 1].term != term:
                stale, base, entries = base + 1, index, []
        elif base + len(entries) < index:
            base, entries = index, []
        kept.base, kept.entries = base, entries
        return kept, stale

    # Keeping.

    def set_meta(self, term, vote):
        self.version += 1
        name = "metadata1" if self.version % 2 else "metadata2"
        new = name not in self.disk.files
        self.disk.write(name, Block("meta", 40, (self.version, term, vote)), over=True)
        self.disk.sync(name)
        if new:
            self.disk.sync_names()

    def begin(self, batch):
        name = "segment-%016d" % self.next
        self.next += 1
        self.disk.write(name, Block("format", 8))
        self.disk.sync(name)
        self.disk.sync_names()
        self.disk.write(name, batch)
        self.disk.sync(name)
        self.open = name

    def append(self, first, entries):
        batch = Block("batch", 32 + sum(16 + entry.size for entry in entries), (first, list(entries)))
        if self.open is None or sum(block.size for block in self.disk.files[self.open]) >= self.SEGMENT:
            self.begin(batch)
        else:
            self.disk.write(self.open, batch)
            self.disk.sync(self.open)

    def keep_snapshot(self, snapshot, first, entries):
        name = "snapshot-%016d" % snapshot.index
        if name in self.disk.files:
            self.disk.cut(name, 0)
        older, snapshots = self.names("segment-"), self.names("snapshot-")
        self.disk.write(name, Block("snapshot", 40 + snapshot.size(), snapshot))
        self.disk.sync(name)
        self.disk.sync_names()
        self.begin(Block("batch", 32 + sum(16 + entry.size for entry in entries), (first, list(entries))))
        for segment in older:
            self.disk.remove(segment)
            self.disk.sync_names()
        for other in snapshots:
            if number_in(other) < snapshot.index:
                self.disk.remove(other)
