"""What each command does: `run` is the whole program over the objects outside."""
from contextlib import contextmanager
from dataclasses import dataclass

import lms
from capabilities import (FULL, Area, Capability, Delegation, entry_message, initial_message, open_signature,
                          read_capability)
from entries import Entry, Store, by_recency, live
from exchange import HIGHEST, Run, exchange
from feeds import Feed, fed, feed
from images import NotRising, Pruned, image, read_image
from interest import UNLIMITED, Interest, interest_in
from logfiles import opened as opened_file
from octets import NotSpelled, whole
from outside import ROOM, Fault, Objects
from report import (BAD_INPUT, KEY_SPENT, LOG_FULL, MISSING, NOT_RISING, PRUNED, READ_FAULT, REFUSED, TAKEN, USAGE,
                    SESSION_REFUSED, WRITE_FAULT, Stop, first_refused)
from rows import OWNED, BadBytes, Frames, Row, generated
from sessions import Answerer, Caller, Hello
from grammar import NONE, ANY, Usage, read_words

LOG_LIMIT = 65_536
SMALL = 100  # so many rows can be compared two by two
INPUT = "-"  # how a report names the input
TOLD_ORDER = (3, 4, 6, 8, 1)  # of what sessions met, the first of these is the status


@dataclass(frozen=True)
class End:
    """A command that came to its end: the lines of its report, and whether something was refused."""
    lines: str = ""
    refused: bool = False
    status: int = 0  # of a session that was not done


def taken(read):
    """What is read outside; a fault stops the run."""
    try:
        return read()
    except Fault:
        raise Stop(READ_FAULT) from None


def given(write) -> None:
    try:
        write()
    except Fault:
        raise Stop(WRITE_FAULT) from None


def judged(rows: list, namespace: bytes):
    """The authorised rows, and the end of each row that is not: its number and why."""
    refusals = [row.refusal(namespace) for row in rows]
    authorised = [row for row, refusal in zip(rows, refusals) if refusal is None]
    return authorised, [(at, refusal) for at, refusal in enumerate(refusals, 1) if refusal is not None]


def take(store: Store, rows: list) -> None:
    """Offers the rows in order; a row that would be stored may meet a full log."""
    for row in rows:
        if store.stored == LOG_LIMIT and not store.covers(row):
            raise Stop(LOG_FULL)
        store.take(row)


def input_rows(objects: Objects):
    """The rows of each piece of the input."""
    frames = Frames()
    while piece := taken(objects.input.read):
        yield frames.feed(piece)
    frames.finish()


def join(objects: Objects, namespace: bytes) -> End:
    store, count, authorised, refusals = Store(), 0, [], []
    try:
        for rows in input_rows(objects):
            good, bad = judged(rows, namespace)
            refusals += [(count + at, refusal) for at, refusal in bad]
            authorised += good
            count += len(rows)
            take(store, good)
    except BadBytes as bad:
        raise Stop(BAD_INPUT, name=INPUT, offset=bad.offset) from None
    kept = store.live()
    assert len(authorised) > SMALL or kept == live(authorised)
    given(lambda: objects.output.write_whole(image(namespace, kept)))
    counts = f"rows {count} stored {store.stored} kept {store.kept} refused {len(refusals)}\n"
    return End(counts + first_refused(refusals), bool(refusals))


def image_in(data: bytes, name: str):
    """The namespace and the rows of an image; what is wrong with it is told of where it came from."""
    try:
        return read_image(data)
    except BadBytes as bad:
        raise Stop(BAD_INPUT, name=name, offset=bad.offset) from None
    except NotRising as wrong:
        raise Stop(NOT_RISING, name=name, at=wrong.args[0]) from None
    except Pruned as wrong:
        raise Stop(PRUNED, name=name, at=wrong.args[0], by=wrong.args[1]) from None


def show(objects: Objects, newest: int = None) -> End:
    namespace, rows = image_in(taken(objects.input.read_all), INPUT)
    authorised, refusals = judged(rows, namespace)
    store = Store()
    take(store, authorised)
    assert store.live() == authorised  # an image is in order
    listed = authorised if newest is None else by_recency(authorised)[:newest]
    # In how many pieces a listing is written is not part of what a run must do: it is taken from the program, and only
    # the cases in which a call of the output fails rest on it.
    head = f"namespace {namespace.hex()} rows {len(listed)}\n"
    listing = "".join(row.entry.line() for row in listed)
    given(lambda: objects.output.write_whole(head.encode()))
    given(lambda: objects.output.write_whole(listing.encode()))
    return End(f"rows {len(rows)} refused {len(refusals)}\n" + first_refused(refusals), bool(refusals))


def key(objects: Objects, name: str, height: int) -> End:
    if taken(lambda: objects.shelf.get(name)) is not None:
        raise Stop(TAKEN, name=name)
    identifier = taken(objects.noise.words)[:16]
    made = lms.LmsKey(height, identifier, taken(objects.noise.words))
    given(lambda: objects.shelf.put(name, made.file()))
    given(lambda: objects.output.write_whole(made.user().hex().encode() + b"\n"))
    return End()


def signers(objects: Objects, word, count: int = 1) -> list:
    """What signs, so many times. A key file loses as many indices before any signer is there."""
    kind, told = word
    if kind == "open":
        return [lambda message: open_signature(told, message)] * count
    return [key.sign for key in reserved(objects, told, count)]


def signer(objects: Objects, word):
    """The same for one signature."""
    return signers(objects, word)[0]


def named(objects: Objects, name: str) -> bytes:
    """The bytes under a name."""
    data = taken(lambda: objects.shelf.get(name))
    if data is None:
        raise Stop(MISSING, name=name)
    return data


def reserved(objects: Objects, name: str, count: int) -> list:
    """The key of the file with each of its next indices, which are then used up on the shelf."""
    data = named(objects, name)
    try:
        file = lms.read_key_file(data)
    except NotSpelled:
        raise Stop(BAD_INPUT, name=name, offset=0) from None
    if file.left() < count:
        raise Stop(KEY_SPENT)
    given(lambda: objects.shelf.put(name, file.after(count).file()))
    return [file.after(used) for used in range(count)]


def made(objects: Objects, value, refusal, spelled) -> End:
    """Writes what was made, unless it is refused."""
    if refusal is not None:
        return End(REFUSED.format(text=refusal), True)
    given(lambda: objects.output.write_whole(spelled(value)))
    return End()


def made_capability(objects: Objects, capability: Capability) -> End:
    refusal = capability.refusal()
    return made(objects, capability, refusal and f"Chain {refusal}", Capability.spelled)


def grant(objects: Objects, namespace: bytes, mode: int, user: bytes, key=None) -> End:
    initial = None if key is None else signer(objects, key)(initial_message(mode, user))
    return made_capability(objects, Capability(mode, namespace, user, initial))


def capability_in(data: bytes, name: str) -> Capability:
    try:
        return whole(read_capability, data)
    except NotSpelled:
        raise Stop(BAD_INPUT, name=name, offset=0) from None


def input_capability(objects: Objects) -> Capability:
    return capability_in(taken(objects.input.read_all), INPUT)


def asked_area(granted: Area, words: dict) -> Area:
    """The area of the words; what they do not say is as it was granted."""
    subspace = words.get("subspace", granted.subspace)
    end = words.get("until", granted.end)
    return Area(None if subspace == ANY else subspace, words.get("under", granted.path),
                words.get("from", granted.start), None if end == NONE else end)


def delegate(objects: Objects, key, to: bytes, **words) -> End:
    capability = input_capability(objects)
    area = asked_area(capability.grant(), words)
    # An area without times is refused in any case, so it is not signed and no index is used up.
    signature = b"" if area.is_empty() else signer(objects, key)(capability.handover(area, to))
    return made_capability(objects, capability.delegated(Delegation(area, to, signature)))


def write(objects: Objects, key, path: tuple, time: int, length: int, digest: bytes, subspace=None) -> End:
    capability = input_capability(objects)
    entry = Entry(capability.namespace, subspace or capability.receiver(), path, time, length, digest)
    row = Row(entry, capability, signer(objects, key)(entry_message(entry)))
    return made(objects, row, row.refusal(capability.namespace), Row.frame)


def gen(objects: Objects, rows: int) -> End:
    frames = b"".join(generated(index).frame() for index in range(rows))
    given(lambda: objects.output.write_whole(frames))
    return End()


class Side:
    """A side of a meeting: what it stored, and what then became of the rows that came."""

    def __init__(self, rows: list):
        self.store, self.rows = Store(), len(rows)
        take(self.store, rows)
        self.before = self.store.live()

    def take_in(self, rows: list) -> None:
        stored, kept = self.store.stored, self.store.kept
        take(self.store, rows)
        self.stored, self.kept = self.store.stored - stored, self.store.kept - kept

    def line(self) -> str:
        return f"rows {self.rows} stored {self.stored} kept {self.kept}"


def met(left: Side, right: Side, area, interest: Interest = UNLIMITED) -> Run:
    """Both sides exchange what they offer in the area, and take what comes."""
    run = exchange(interest.offered(left.before, area), interest.offered(right.before, area), area)
    left.take_in(run.came[0])
    right.take_in(run.came[1])
    return run


def drill(objects: Objects, rows: int) -> End:
    made_rows = [generated(index) for index in range(rows)]
    sides = [Side(judged(some, OWNED)[0]) for some in (made_rows, made_rows[:rows // 2])]
    run = met(*sides, FULL)
    before, after = [len(side.before) for side in sides], [len(side.store.live()) for side in sides]
    given(lambda: objects.output.write_whole(
        f"rows {rows}\nleft {before[0]}\nright {before[1]}\nleft after {after[0]}\nright after {after[1]}\n"
        f"items {run.items} turns {len(run.turns)}\n".encode()))
    return End()


def asked_by(capability: Capability, namespace: bytes, words: dict) -> Area:
    """What a side asks for, where nothing is against its hello."""
    ask = asked_area(capability.grant(), words)
    refusal = capability.hello_refusal(namespace, ask)
    if refusal is not None:
        raise Stop(SESSION_REFUSED, text=refusal)
    return ask


def meet(objects: Objects, left: str, right: str, left_cap: str, right_cap: str, left_out: str, right_out: str,
         **words) -> End:
    images = [image_in(named(objects, name), name) for name in (left, right)]
    capabilities = [capability_in(named(objects, name), name) for name in (left_cap, right_cap)]
    namespace = images[0][0]
    if images[1][0] != namespace:
        raise Stop(SESSION_REFUSED, text="WrongNamespace")
    asks = [asked_by(capability, namespace, words) for capability in capabilities]
    authorised = [judged(rows, namespace)[0] for _, rows in images]
    refusals = judged(images[0][1] + images[1][1], namespace)[1]
    sides = [Side(rows) for rows in authorised]
    run = met(*sides, asks[0].common(asks[1]), interest_in(words))
    for name, side in zip((left_out, right_out), sides):
        given(lambda: objects.shelf.put(name, image(namespace, side.store.live())))
    given(lambda: objects.output.write_whole(run.transcript()))
    lines = f"left {sides[0].line()}\nright {sides[1].line()}\nitems {run.items} turns {len(run.turns)}\n"
    return End(lines + first_refused(refusals), bool(refusals))


def talked(link, side, room: int):
    """Runs the session over the link, which is read so many bytes at once at most: what came, and the line of its end and
    its status where it was not done."""
    stand, data = side.after(b""), b""
    try:
        link.write_whole(stand.out)
    except Fault:
        return stand, WRITE_FAULT, None
    while stand.end is None:
        try:
            piece = link.read(room)
        except Fault:
            return stand, READ_FAULT, None
        if not piece:
            return stand, SESSION_REFUSED, f"ClosedEarly {len(data)}"
        said, data = len(stand.out), data + piece
        stand = side.after(data)
        try:
            link.write_whole(stand.out[said:])
        except Fault:
            return stand, WRITE_FAULT, None
    return (stand, None, None) if stand.end == "done" else (stand, SESSION_REFUSED, stand.end)


def followed(link, area):
    """Reads a feed of the area over the link: what came, and the line of its end and its status where it was not done."""
    stand, data = Feed(b"", area), b""
    while stand.end is None:
        try:
            piece = link.read()
        except Fault:
            return stand, READ_FAULT, None
        if not piece:
            return stand, SESSION_REFUSED, f"ClosedEarly {len(data)}"
        data += piece
        stand = Feed(data, area)
    return (stand, None, None) if stand.end == "done" else (stand, SESSION_REFUSED, stand.end)


class Opened:
    """An image and a capability that were got: the store of the image's authorised rows, and what is asked for."""

    def __init__(self, objects: Objects, image: str, cap: str, words: dict, log=None):
        self.namespace, rows = image_in(named(objects, image), image)
        self.file = opened_file(objects, log, self.namespace) if log else None
        with kept_behind(objects, self.file):
            self.open(objects, rows + (self.file.rows if self.file else []), cap, words)

    def open(self, objects: Objects, rows: list, cap: str, words: dict) -> None:
        authorised, self.refusals = judged(rows, self.namespace)
        self.rows, self.store, self.log = len(rows), Store(), []
        for row in authorised:
            stored = self.store.stored
            take(self.store, [row])
            if self.store.stored > stored:
                self.log.append((0, row))  # each row with the number of the session in which it came
        self.capability = capability_in(named(objects, cap), cap)
        self.ask, self.interest = asked_by(self.capability, self.namespace, words), interest_in(words)

    def session(self, role, link, sign, nonce: bytes, number: int = 0, room: int = ROOM) -> "Session":
        hello = Hello(HIGHEST, nonce, self.ask, self.capability)
        return Session(self, role(self.namespace, hello, sign, self.store.live(), self.interest), link, number, room)

    def put(self, objects: Objects, name: str) -> bool:
        """Whether the image of what is live now was put."""
        try:
            objects.shelf.put(name, image(self.namespace, self.store.live()))
        except Fault:
            return False
        return True


class Session:
    """A session that began with what was live then, and what follows it on its link."""

    def __init__(self, opened: Opened, side, link, number: int, room: int):
        self.opened, self.side, self.link, self.number, self.room = opened, side, link, number, room
        self.before = opened.store.stored
        self.area, self.fed_refusals, self.fed_line, self.fed_status = None, [], "", 0

    def end(self) -> None:
        """Runs it to its end: what came is in the store then."""
        store = self.opened.store
        stand, kind, text = talked(self.link, self.side, self.room)
        came, self.refusals = judged(stand.came, self.opened.namespace)
        self.came = len(stand.came)
        stored, kept = store.stored, store.kept
        if offered(self.opened, self.number, came) and kind is None:
            kind = LOG_FULL
        closed = store.stored if came else self.before
        counts = (f"opened {self.before} closed {closed} stored {store.stored - stored} kept {store.kept - kept} "
                  f"refused {len(self.refusals)} sent {stand.sent} read {stand.read}\n")
        self.line, self.status = (counts, 0) if kind is None else (kind.line.format(text=text), kind.status)
        self.area = stand.area if kind is None else None

    def feed(self) -> None:
        """Writes the feed behind it, where both sides may read an area."""
        if self.area is not None:
            try:
                self.link.write_whole(feed(fed(self.opened.log, self.area, self.number, self.before)))
            except Fault:
                self.fed_line, self.fed_status = WRITE_FAULT.line, WRITE_FAULT.status

    def follow(self) -> None:
        """Reads the feed behind it, where both sides may read an area."""
        if self.area is None:
            return
        store = self.opened.store
        stand, kind, text = followed(self.link, self.area)
        came, refusals = judged(stand.rows, self.opened.namespace)
        stored, kept = store.stored, store.kept
        if offered(self.opened, self.number, came) and kind is None:
            kind = LOG_FULL
        counts = (f"followed {len(stand.rows)} stored {store.stored - stored} kept {store.kept - kept} "
                  f"refused {len(refusals)}\n")
        self.fed_line, self.fed_status = (counts, 0) if kind is None else (kind.line.format(text=text), kind.status)
        self.fed_refusals = refusals if kind is None else []


def offered(opened: Opened, number: int, rows: list) -> int:
    """Offers the rows in order, and answers how many a full log leaves out."""
    store, missed = opened.store, 0
    for row in rows:
        if store.stored == LOG_LIMIT and not store.covers(row):
            missed += 1
            continue
        stored = store.stored
        store.take(row)
        if store.stored > stored:
            opened.log.append((number, row))
    return missed


@contextmanager
def kept_behind(objects: Objects, file):
    """Where a run stops with a log file open, its disk is given back, and what it keeps is told."""
    try:
        yield
    except Stop as stop:
        if file and not stop.behind:
            objects.bay.give_back(file.disk)
            stop.behind = f"kept {file.kept}\n"
        raise


def ended(opened: Opened, sessions: list, lines: list, accepted: bool, put: bool, kept: str = "") -> End:
    """The end of a command with sessions. Refused rows are counted over the image, a log file, then session by session, and
    then over what was followed."""
    rows, refusals = opened.rows, list(opened.refusals)
    for session in sessions:
        refusals += [(rows + at, refusal) for at, refusal in session.refusals]
        rows += session.came
    refusals += [(rows + at, refusal) for session in sessions for at, refusal in session.fed_refusals]
    met = [*(session.status for session in sessions), *(session.fed_status for session in sessions), *([] if accepted else [READ_FAULT.status]),
           *([] if put else [WRITE_FAULT.status]), *([1] if refusals else [])]
    status = next((status for status in TOLD_ORDER if status in met), 0)
    first = first_refused(refusals) if status == 1 else ""
    faults = ("" if accepted else READ_FAULT.line) + ("" if put else WRITE_FAULT.line)
    return End("".join(lines) + first + kept + faults, status == 1, 0 if status == 1 else status)


def sync(objects: Objects, image: str, cap: str, key, to: str, follow: bool = False, **words) -> End:
    opened = Opened(objects, image, cap, words)
    sign = signer(objects, key)
    nonce = taken(objects.noise.words)[:16]
    link = taken(objects.door.connect)
    session = opened.session(Caller, link, sign, nonce, room=1 if follow else ROOM)
    session.end()
    if follow:
        session.follow()
    objects.door.give_back(link)
    return ended(opened, [session], [session.line, session.fed_line], True, opened.put(objects, image))


def accepted_links(objects: Objects, count: int) -> list:
    """So many links, or as many as come before accepting one fails."""
    links = []
    try:
        for _ in range(count):
            links.append(objects.door.accept())
    except Fault:
        pass
    return links


def served(objects: Objects, begin, links: list) -> list:
    """The sessions of the links. They begin and end in the order that the objects have for them."""
    sessions = {}
    for at in objects.order(len(links)):
        if at in sessions:
            sessions[at].end()
        else:
            sessions[at] = begin(at)
    return [sessions[at] for at in range(len(links))]


def serve(objects: Objects, image: str, cap: str, key, at: str, links: int, follow: bool = False, log=None, **words) -> End:
    opened = Opened(objects, image, cap, words, log)
    with kept_behind(objects, opened.file):
        signs = signers(objects, key, links)
        nonces = [taken(objects.noise.words)[:16] for _ in range(links)]
        taken(objects.door.listen)
    came = accepted_links(objects, links)
    sessions = served(objects, lambda n: opened.session(Answerer, came[n], signs[n], nonces[n], n + 1), came)
    for session in sessions if follow else []:
        session.feed()
    for link in came:
        objects.door.give_back(link)
    lines = [f"link {session.number}: {session.line}" for session in sessions]
    lines += [f"link {session.number}: {session.fed_line}" for session in sessions if session.fed_line]
    put, kept = opened.put(objects, image), ""
    if opened.file:
        opened.file.keep([row for number, row in opened.log if number])
        objects.bay.give_back(opened.file.disk)
        put, kept = put and not opened.file.broken, f"kept {opened.file.kept}\n"
    return ended(opened, sessions, lines, len(came) == links, put, kept)


COMMANDS = {"join": join, "show": show, "key": key, "grant": grant, "delegate": delegate, "write": write, "gen": gen,
            "drill": drill, "meet": meet, "sync": sync, "serve": serve}


def run(words: list, objects: Objects) -> int:
    """Runs the words over the objects and answers the status."""
    try:
        command, options = read_words(words)
        end = COMMANDS[command](objects, **{name.replace("-", "_"): value for name, value in options.items()})
    except Usage:
        return stopped(objects, Stop(USAGE))
    except Stop as stop:
        return stopped(objects, stop)
    try:
        objects.report.write_whole(end.lines.encode())
    except Fault:
        return end.status or WRITE_FAULT.status
    return 1 if end.refused else end.status


def stopped(objects: Objects, stop: Stop) -> int:
    """Reports a stop. Its status stands, even where the report fails."""
    try:
        objects.report.write_whole(stop.line().encode())
    except Fault:
        pass
    return stop.kind.status
