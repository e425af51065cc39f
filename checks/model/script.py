"""A script of nodes over the engine of cells, line by line."""
from .disk import Disk, Failed, Stopped
from .node import VOTER, Node, message_size

EVENTS, BYTES = 20_000, 268_435_456


class Large(Exception):
    """An event too many, or one that makes too many bytes of messages. It isn't in the run."""


class World:
    """The nodes of a script, and what each of its lines prints. All lines have to be in the grammar."""

    def __init__(self, mode):
        numbers = [int(number) for number in mode.split(" ")[1:]]
        self.voters, self.size = numbers[0], sum(numbers)
        self.opening = {number: ("n%d" % number, VOTER) for number in range(1, self.voters + 1)}
        self.disks = {number: Disk() for number in range(1, self.size + 1)}
        self.nodes = {number: Node(number, self.opening, disk) for number, disk in self.disks.items()}
        self.homes, self.open = {}, set()
        self.messages, self.came = [], set()
        self.events, self.bytes_made, self.is_large = 0, 0, False

    def line(self, text):
        """What a line behind the mode line prints. Behind one that is too much nothing is printed."""
        if self.is_large:
            return []
        try:
            return self.takes(text)
        except Large:
            self.is_large = True
            return ["error large"]

    def count(self):
        self.events += 1
        if self.events > EVENTS:
            raise Large

    def takes(self, text):
        words = text.split(" ")
        aim = {}
        if words[0] == "stop":
            aim, words = {"stop": int(words[1]), "pick": int(words[2])}, words[3:]
        elif words[0] == "fail":
            aim, words = {"fail": int(words[1])}, words[2:]
        if text == "" or text.startswith("#"):
            return []
        if words[0] == "settle":
            return self.settle(int(words[1]))
        if words[0] != "show":
            self.count()
        numbers = [word if at == 1 and words[0] == "bytes" else int(word) for at, word in enumerate(words[1:])]
        return getattr(self, words[0])(*numbers, aim=aim) if words[0] in self.AIMED else getattr(self, words[0])(*numbers)

    AIMED = ("timeout", "beat", "bytes", "hangup", "deliver", "start")

    def end(self):
        return [] if self.is_large else [line for number in sorted(self.nodes) for line in self.show(number)]

    def show(self, number):
        node = self.nodes[number]
        return [node.line() if node else "node %d down" % number]

    def timeout(self, number, aim):
        return self.at(number, aim, "timeout")

    def beat(self, number, aim):
        return self.at(number, aim, "beat")

    def connect(self, number, conn):
        self.homes[conn] = number
        if not self.nodes[number]:
            return ["closed %d 4" % conn]
        self.open.add(conn)
        return self.at(number, {}, "connect", conn)

    def bytes(self, conn, digits, aim):
        return self.at(self.homes[conn], aim, "bytes", conn, bytes.fromhex(digits)) if conn in self.open else []

    def hangup(self, conn, aim):
        if conn not in self.open:
            return []
        self.open.discard(conn)
        return self.at(self.homes[conn], aim, "hangup", conn)

    def deliver(self, number, aim):
        self.came.add(number)
        message = self.messages[number - 1]
        return self.at(message["to"], aim, "message", message) if message["to"] in self.nodes else []

    def settle(self, count):
        printed = []
        for _ in range(count):
            least = self.low()
            if least > len(self.messages):
                break
            try:
                self.count()
                printed += self.deliver(least, {})
            except Large:
                self.is_large = True
                return printed + ["error large"]
        return printed

    least = 1

    def low(self):
        """The least message that has never arrived."""
        while self.least in self.came:
            self.least += 1
        return self.least

    def crash(self, number, pick=0):
        if not self.nodes[number]:
            return []
        self.disks[number].crash(pick)
        return self.goes_down(number)

    def goes_down(self, number):
        self.nodes[number] = None
        closed = sorted(conn for conn in self.open if self.homes[conn] == number)
        self.open.difference_update(closed)
        return ["closed %d 4" % conn for conn in closed]

    def aimed(self, number, aim, act):
        """What an act prints, or that the node stopped at a call or that a call failed."""
        disk = self.disks[number]
        disk.arm(aim.get("stop"), aim.get("fail"))
        try:
            return act()
        except Stopped:
            disk.crash(aim["pick"])
            return self.goes_down(number) + ["stopped %d" % number]
        except Failed:
            return self.goes_down(number) + ["down %d 1" % number]
        finally:
            disk.arm()

    def start(self, number, aim):
        if self.nodes[number]:
            return []

        def starts():
            self.nodes[number] = Node(number, self.opening, self.disks[number])
            return []

        return self.aimed(number, aim, starts)

    def at(self, number, aim, *event):
        if not self.nodes[number]:
            return []
        return self.aimed(number, aim, lambda: self.happens(number, event))

    def happens(self, number, event):
        replies, closes, messages = self.nodes[number].event(*event)
        printed = ["reply %d %s" % (conn, reply.hex()) for conn, reply in replies]
        for conn, reason in closes:
            self.open.discard(conn)
            printed.append("closed %d %d" % (conn, reason))
        self.bytes_made += sum(map(message_size, messages))
        if self.bytes_made > BYTES:
            raise Large
        for message in messages:
            self.messages.append(message)
            printed.append("message %d %d %d %s" % (len(self.messages), number, message["to"], message["kind"]))
        return printed


def printed(lines):
    """What a whole script prints, each line of it in the grammar."""
    world, out = None, []
    for line in lines:
        if world is None and line and not line.startswith("#"):
            world = World(line)
        elif world:
            out += world.line(line)
    return out + (world.end() if world else [])
