"""Runs of the program `willow_peer` that talk over loopback, and what they take.

`ends_of` runs a server and one who calls it through a relay, which can make each of both believe that the other one speaks only
version 1: the keys are open, so the relay signs the proofs of the hellos that it changed. Else it hands on what is said as it
is, so that both versions take the same way.
"""
import os
import shutil
import socket
import subprocess
import threading
import time
from contextlib import suppress
from dataclasses import dataclass
from hashlib import sha256

OWNER, READER = "4f" * 32, "55" * 32  # bodies of open keys: of the namespace, and of who may read all of it
NAMESPACE = "00" + OWNER
SIDES = ("server", "caller")
PROOF = 2 + 32  # an open signature behind its length
VERSION_AT = 3  # where a hello tells the version
LISTENS = "0A"  # how the machine tells the state of a socket
PIECE = 1 << 16
PATIENCE = 60  # seconds


def run(words: list, data: bytes = b"", folder: str = ".") -> bytes:
    return subprocess.run(words, input=data, stdout=subprocess.PIPE, stderr=subprocess.DEVNULL, check=True, cwd=folder).stdout


def capability(program: str) -> bytes:
    """One to read all of the namespace."""
    return run([program, "grant", "--namespace", NAMESPACE, "--mode", "read", "--user", "00" + READER, "--key", f"open:{OWNER}"])


def sockets():
    """Of each socket of this machine its own port, the other side's, its state, and how many bytes wait to be read."""
    with open("/proc/net/tcp", encoding="ascii") as lines:
        next(lines)
        for line in lines:
            fields = line.split()
            yield (int(fields[1].rpartition(":")[2], 16), int(fields[2].rpartition(":")[2], 16), fields[3],
                   int(fields[4].partition(":")[2], 16))


def wait_until(holds) -> None:
    begun = time.monotonic()
    while not holds():
        if time.monotonic() - begun > PATIENCE:
            raise SystemExit("a program did not do what was waited for")
        time.sleep(0.001)


def free_port() -> int:
    with socket.socket() as found:
        found.bind(("127.0.0.1", 0))
        return found.getsockname()[1]


class Run:
    """A program that runs in a folder, and what it took once it ended."""

    def __init__(self, words: list, folder: str):
        self.report = open(os.path.join(folder, "report"), "wb+")
        self.begun = time.perf_counter()
        self.child = subprocess.Popen(words, cwd=folder, stdin=subprocess.DEVNULL, stdout=subprocess.DEVNULL, stderr=self.report)

    def end(self) -> "Took":
        _, status, used = os.wait4(self.child.pid, 0)
        clock = time.perf_counter() - self.begun
        self.child.returncode = os.waitstatus_to_exitcode(status)
        with self.report:
            self.report.seek(0)
            return Took(clock, used.ru_utime + used.ru_stime, self.child.returncode, self.report.read().decode())


@dataclass(frozen=True)
class Took:
    """Seconds by the clock and of the processors, the status, and the report."""
    clock: float
    processors: float
    status: int
    report: str


def session_words(program: str, command: str) -> list:
    return [program, command, "--image", "image", "--cap", "cap", "--key", f"open:{READER}"]


def wait_for_listener(port: int) -> None:
    wait_until(lambda: any(own == port and state == LISTENS for own, _, state, _ in sockets()))


def serve(program: str, folder: str, port: int) -> Run:
    """A server for one link, which has read its image and listens."""
    server = Run([*session_words(program, "serve"), "--at", f"127.0.0.1:{port}", "--links", "1"], folder)
    wait_for_listener(port)
    return server


def hello_length(granted: bytes) -> int:
    """Of a hello under the capability for the full area: letters, version, nonce, area, length, capability."""
    return 3 + 1 + 16 + 11 + 4 + len(granted)


def take(link: socket.socket, count: int) -> bytes:
    """So many bytes, or fewer where the other side ended."""
    data = b""
    while len(data) < count and (piece := link.recv(count - len(data))):
        data += piece
    return data


def old(hello: bytes) -> bytes:
    """The hello of one who speaks version 1."""
    return hello[:VERSION_AT] + b"\x01" + hello[VERSION_AT + 1:]


def proof(role: int, caller: bytes, answerer: bytes) -> bytes:
    """The reader's proof to one who heard these hellos."""
    message = b"S" + bytes((role,)) + caller + answerer
    return (32).to_bytes(2, "big") + sha256(bytes.fromhex("00" + READER) + message).digest()


class Relay(threading.Thread):
    """Between one who calls and a server, whose hellos have so many bytes each."""

    def __init__(self, port: int, hello: int, version: int):
        super().__init__(daemon=True)
        self.port, self.hello, self.version = port, hello, version
        self.door = socket.create_server(("127.0.0.1", 0))
        self.place = self.door.getsockname()[1]
        self.said = [0, 0]  # how many bytes the one who calls said, and the server

    def run(self) -> None:
        with self.door, self.door.accept()[0] as caller, socket.create_connection(("127.0.0.1", self.port)) as server:
            for link in (caller, server):
                link.setsockopt(socket.IPPROTO_TCP, socket.TCP_NODELAY, 1)
            self.greet(caller, server)
            back = threading.Thread(target=self.hand_on, args=(server, caller, 1), daemon=True)
            back.start()
            self.hand_on(caller, server, 0)
            back.join()

    def greet(self, caller: socket.socket, server: socket.socket) -> None:
        """Hands on hellos and proofs, in version 1 other ones than were said."""
        is_old = self.version == 1
        asked = take(caller, self.hello)
        server.sendall(old(asked) if is_old else asked)
        answered, signed = take(server, self.hello), take(server, PROOF)
        caller.sendall(old(answered) + proof(1, asked, old(answered)) if is_old else answered + signed)
        signed_back = take(caller, PROOF)
        server.sendall(proof(0, old(asked), answered) if is_old else signed_back)
        self.said = [self.hello + PROOF] * 2

    def hand_on(self, source: socket.socket, sink: socket.socket, at: int) -> None:
        with suppress(OSError):  # one of both may have gone
            while piece := source.recv(PIECE):
                self.said[at] += len(piece)
                sink.sendall(piece)
            sink.shutdown(socket.SHUT_WR)


class Broken(Exception):
    """A session that did not come to its end, as where a side waits for the other one for too long."""


@dataclass(frozen=True)
class Session:
    """What both programs of a session took, and how many bytes each said: the one who calls, and the server."""
    caller: Took
    server: Took
    said: tuple

    def items(self) -> int:
        """How many the one who calls sent and read."""
        words = self.caller.report.split()
        return int(words[words.index("sent") + 1]) + int(words[words.index("read") + 1])


def put_store(program: str, folder: str, rows: bytes, granted: bytes) -> None:
    """A folder with the image of the rows and the capability."""
    os.makedirs(folder)
    for name, data in (("kept", run([program, "join", "--namespace", NAMESPACE], rows)), ("cap", granted)):
        with open(os.path.join(folder, name), "wb") as file:
            file.write(data)


def renew(folder: str) -> None:
    """Both images are as they were put first."""
    for side in SIDES:
        shutil.copy(os.path.join(folder, side, "kept"), os.path.join(folder, side, "image"))


def ends_of(program: str, folder: str, version: int, granted: bytes) -> Session:
    """A session of the stores of the folder in the version. The server has read its image before it is called."""
    renew(folder)
    port = free_port()
    server = serve(program, os.path.join(folder, "server"), port)
    relay = Relay(port, hello_length(granted), version)
    relay.start()
    caller = Run([*session_words(program, "sync"), "--to", f"127.0.0.1:{relay.place}"], os.path.join(folder, "caller")).end()
    served = server.end()
    relay.join(PATIENCE)
    if (caller.status, served.status) != (0, 0):
        raise Broken(", ".join((caller.report + served.report).splitlines()))
    return Session(caller, served, tuple(relay.said))


def image_of(folder: str, side: str) -> bytes:
    with open(os.path.join(folder, side, "image"), "rb") as file:
        return file.read()
