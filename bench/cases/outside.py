"""The objects that a run is over: input, output, report, shelf, noise, door and links, bay and disks, each with the calls that fail.

A call is counted from 1, all kinds of call of one object together. A call that fails reads or writes nothing, but for
the put of a shelf, which leaves the new bytes.
"""

# The most bytes a call: of the input, the output and the links; of these in a large case; of the report.
PIECE, LARGE_PIECE, REPORT_PIECE = 100, 1 << 20, 7

# How much room each read of the input offers is not part of what a run must do: it is taken from the program. The cases
# in which a call of the input fails rest on it, and those of `join` in which rows stand behind what stops it.
ROOM = 65_536


class Fault(Exception):
    """A call failed."""


class Counted:
    def __init__(self, fails):
        self.fails = set(fails)
        self.calls = 0

    def call(self) -> bool:
        """Counts a call, and answers whether it fails."""
        self.calls += 1
        return self.calls in self.fails


class Source(Counted):
    def __init__(self, data: bytes, fails=(), most: int = PIECE):
        super().__init__(fails)
        self.data = data
        self.taken = 0
        self.most = min(most, ROOM)

    def read(self) -> bytes:
        if self.call():
            raise Fault
        piece = self.data[self.taken:self.taken + self.most]
        self.taken += len(piece)
        return piece

    def read_all(self) -> bytes:
        pieces = []
        while piece := self.read():
            pieces.append(piece)
        return b"".join(pieces)


class Sink(Counted):
    def __init__(self, most: int, fails=()):
        super().__init__(fails)
        self.most = most
        self.held = bytearray()

    def write_whole(self, data: bytes) -> None:
        for begin in range(0, len(data), self.most):
            if self.call():
                raise Fault
            self.held += data[begin:begin + self.most]


class Shelf(Counted):
    def __init__(self, names: dict, fails=()):
        super().__init__(fails)
        self.names = dict(names)

    def get(self, name: str):
        if self.call():
            raise Fault
        return self.names.get(name)

    def put(self, name: str, data: bytes) -> None:
        self.names[name] = data
        if self.call():
            raise Fault


class Noise(Counted):
    def __init__(self, draws, fails=()):
        super().__init__(fails)
        self.draws = list(draws)

    def words(self) -> bytes:
        if self.call() or not self.draws:
            raise Fault
        return self.draws.pop(0)


class Link(Counted):
    """A link that gives known bytes; reads and writes are counted together."""

    def __init__(self, data: bytes, fails=(), most: int = PIECE):
        super().__init__(fails)
        self.data = data
        self.taken = 0
        self.most = most
        self.held = bytearray()

    def read(self, room: int = ROOM) -> bytes:
        if self.call():
            raise Fault
        piece = self.data[self.taken:self.taken + min(self.most, room)]
        self.taken += len(piece)
        return piece

    def write_whole(self, data: bytes) -> None:
        for begin in range(0, len(data), self.most):
            if self.call():
                raise Fault
            self.held += data[begin:begin + self.most]


class Door(Counted):
    """A door to some links, which it hands out in order, and keeps as they come back. What is given back is no call."""

    def __init__(self, links, fails=()):
        super().__init__(fails)
        self.to_come = list(links)
        self.back = []

    def listen(self) -> None:
        if self.call():
            raise Fault

    def accept(self) -> Link:
        if self.call() or not self.to_come:
            raise Fault
        return self.to_come.pop(0)

    connect = accept

    def give_back(self, link: Link) -> None:
        self.back.append(link)


class Disk(Counted):
    """A disk with known bytes; all kinds of call are counted together."""

    def __init__(self, data: bytes, fails=()):
        super().__init__(fails)
        self.data = data
        self.failed_reading = False

    def reads(self) -> None:
        if self.call():
            self.failed_reading = True
            raise Fault

    def writes(self) -> None:
        if self.call():
            raise Fault

    def length(self) -> int:
        self.reads()
        return len(self.data)

    def read(self) -> bytes:
        self.reads()
        return self.data

    def write(self, at: int, data: bytes) -> None:
        self.writes()
        self.data = self.data[:at] + data + self.data[at + len(data):]

    def sync(self) -> None:
        self.writes()


class Bay(Counted):
    """A bay that opens disks with the bytes of their names, and keeps those that come back."""

    def __init__(self, names: dict, fails=(), disk_fails=()):
        super().__init__(fails)
        self.names = names
        self.disk_fails = disk_fails
        self.back = []

    def open(self, name: str) -> Disk:
        if self.call():
            raise Fault
        return Disk(self.names.get(name, b""), self.disk_fails)

    def give_back(self, disk: Disk) -> None:
        self.back.append(disk)


def one_by_one(count: int) -> list:
    """Of so many sessions each begins and ends before the next."""
    return [at for at in range(count) for _ in range(2)]


class Objects:
    """All of them. `fails` has the numbers of the calls that fail, by the object's letter; behind that of a link stands
    which one it is, but for the first. `order` says in which order the sessions of a server begin and end: at the first
    place of its number a session begins, and at the second one it ends."""

    def __init__(self, names: dict, draws, given: bytes, fails: dict, piece: int = PIECE, links=(),
                 order=one_by_one, files=()):
        self.shelf = Shelf(names, fails.get("s", ()))
        self.noise = Noise(draws, fails.get("n", ()))
        self.input = Source(given, fails.get("i", ()), piece)
        self.output = Sink(piece, fails.get("o", ()))
        self.report = Sink(REPORT_PIECE, fails.get("r", ()))
        self.door = Door([Link(data, fails.get("l" if at == 1 else f"l{at}", ()), piece)
                          for at, data in enumerate(links, 1)], fails.get("d", ()))
        self.bay = Bay(dict(files), fails.get("b", ()), fails.get("k", ()))
        self.order = order
