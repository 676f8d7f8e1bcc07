"""Times a server that hears a hello at once, or a byte at a time, and prints a table in Markdown.

usage: python3 bench/hello_bytes.py PROGRAM [BYTES ..]

A hello has so many bytes (LENGTHS, unless others are told), most of them in the paths of the area that is asked for and of the
capability's one delegation. A byte is said once the server has read the one before. Behind the hello the one who calls goes
away, so the session ends early at the hello's length, once the server has said its own hello and proof. Told is what the
server takes of the processors: medians of RUNS runs, which take turns.
"""
import os
import socket
import statistics
import sys
import tempfile
from pathlib import Path

sys.dont_write_bytecode = True
sys.path.insert(1, str(Path(__file__).resolve().parent / "cases"))

from capabilities import READ, Area, Capability, Delegation, initial_message, open_signature
from octets import number
from session_runs import OWNER, PROOF, READER, capability, free_port, hello_length, put_store, serve, sockets, take, wait_until

RUNS = 5
LENGTHS = (2_000, 4_000, 8_000)
PART = 250  # bytes of a component, but for the last ones
SPACE, USER = bytes.fromhex("00" + OWNER), bytes.fromhex("00" + READER)


def hello(granted: tuple, asked: tuple) -> bytes:
    """A hello that asks for a path, under a capability for one in front of it."""
    given = Capability(READ, SPACE, USER, open_signature(SPACE, initial_message(READ, USER)))
    area = Area(None, granted, 0, None)
    spelled = given.delegated(Delegation(area, USER, open_signature(USER, given.handover(area, USER)))).spelled()
    return b"WSY\x02" + bytes(16) + Area(None, asked, 0, None).spelled() + number(4, len(spelled)) + spelled


def hello_of(length: int) -> bytes:
    """One of so many bytes."""
    count, left = divmod(length - len(hello((), ())), 2 * (PART + 1))
    granted = (b"p" * PART,) * count
    # A component more of the area that is asked for has a byte more than it says, or there are two.
    more = (left,) if left <= PART + 1 else (PART + 1, left - PART - 1)
    made = hello(granted, granted + tuple(b"q" * (each - 1) for each in more if each > 0))
    assert len(made) == length, (len(made), length)
    return made


def say(link: socket.socket, port: int, said: bytes) -> None:
    """One byte, once the server has read all before."""
    place = link.getsockname()[1]
    for at in range(len(said)):
        link.sendall(said[at:at + 1])
        wait_until(lambda: any(own == port and other == place and left == 0 for own, other, _, left in sockets()))


def heard(program: str, folder: str, said: bytes, answer: int, in_bytes: bool) -> float:
    """What the server takes, which answers with so many bytes."""
    port = free_port()
    server = serve(program, folder, port)
    with socket.create_connection(("127.0.0.1", port)) as link:
        link.setsockopt(socket.IPPROTO_TCP, socket.TCP_NODELAY, 1)
        say(link, port, said) if in_bytes else link.sendall(said)
        take(link, answer)
    took = server.end()
    if (took.status, took.report) != (6, f"link 1: session refused: ClosedEarly {len(said)}\n"):
        raise SystemExit(f"a server ended with {took.status}: {took.report}")
    return took.processors


def main() -> None:
    program = os.path.abspath(sys.argv[1])
    lengths = tuple(map(int, sys.argv[2:])) or LENGTHS
    print("| A hello of | at once | a byte at a time | microseconds a byte more |")
    print("|---|---|---|---|")
    with tempfile.TemporaryDirectory() as folder:
        place = os.path.join(folder, "server")
        granted = capability(program)
        put_store(program, place, b"", granted)
        os.rename(os.path.join(place, "kept"), os.path.join(place, "image"))
        for length in lengths:
            said, taken = hello_of(length), {False: [], True: []}
            for _ in range(RUNS):
                for in_bytes, times in taken.items():
                    times.append(heard(program, place, said, hello_length(granted) + PROOF, in_bytes))
            whole, slow = (statistics.median(times) for times in taken.values())
            print(f"| {length:,} bytes | {whole:.3f} s | {slow:.3f} s | {(slow - whole) / length * 1e6:.1f} |", flush=True)


if __name__ == "__main__":
    main()
