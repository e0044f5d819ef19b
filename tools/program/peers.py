"""A server of the program and its peers, for what `tools/check-program` tries."""
import contextlib
import os
import re
import socket
import struct
import subprocess
import threading
import time
from dataclasses import dataclass

SDP = b"v=0\r\nm=video 0 RTP/AVP 96\r\na=control:streamid=0\r\n"

OPTIONS = b"OPTIONS * RTSP/1.0\r\nCSeq: 9\r\n\r\n"

# What of dist/vasklun.service's environment bears on memory.
ALLOCATOR = {"MALLOC_MMAP_THRESHOLD_": "1048576", "MALLOC_ARENA_MAX": "4"}

# Packets gather for a millisecond.
GATHER = "--gather", "1"

# By whom frames are sent: by two writers, and by a thread a player.
MODES = ("--writers", "2"), ("--writers", "0")

# The words of an account, as lines have them: what became of a publisher's frames, and of the packets of a player's mount.
IN = "published", "pinned", "too long", "bad RTP", "unknown channel", "no memory"
OUT = "sent", "skipped", "lost", "unsent"

# The counts that a line of an account, of an ended mount or of a left seat has.
COUNTED = re.compile(r"([A-Za-z][A-Za-z ]*) (\d+)")

# On some systems a server has a line about its sockets' send buffers, which no part looks at.
OF_BUFFERS = re.compile(r"\[WARN  relay_main::serve\] send buffers ")

# The line of a server that listens on a port.
LISTENS = re.compile(r"relay: listening on .*:(\d+)$")

# A mount's line in a report, and a player's.
MOUNT_REPORT = re.compile(
    r"\[INFO  relay_server::reports\] mount (?P<mount>\S+): publisher (?P<publisher>\S+), players (?P<players>\d+), "
    r"packets (?P<packets>\d+), bytes (?P<bytes>\d+), pinned (?P<pinned>\d+), too long (?P<long>\d+), bad RTP (?P<bad>\d+), "
    r"unknown channel (?P<unknown>\d+), no memory (?P<unkept>\d+)(?:, slowed (?P<slowed>\d+) ms)?"
    r"(?:, missing (?P<missing>\d+))?(?:, silent (?P<silent>\d+) s)?"
)

PLAYER_REPORT = re.compile(
    r"\[INFO  relay_server::reports\] (?P<peer>\S+): seat (?P<seat>\d+) of (?P<mount>\S+): "
    r"sent (?P<sent>\d+), lost (?P<lost>\d+), in all (?P<all>\d+), behind (?P<behind>\d+)"
)

# A line about how a connection ended, and one about refused requests.
END = re.compile(r"\[WARN  relay_server::server\] (\S+): (.+) \(connection \d+\)")

REFUSED = re.compile(r"\[WARN  relay_server::refusing\] (\d+) refused (\d+) on (no mount|\S+), the last (\S+)")

# How the connection of a peer ends whose system takes no byte.
NO_ACKNOWLEDGEMENT = "no acknowledgement for 20 s"

# The parts that were left out, and what this system or this process doesn't grant them.
LEFT_OUT = []


def leave_out(part, why):
    """Has `check-program` print that a part isn't tried here."""
    LEFT_OUT.append(f"{part.__name__}: {why}")


class Server:
    """A server of the program on a port of this host, a free one unless it is given, whose lines are read unless they shall wait. Its
    environment has these variables, too. `reach` is the address at which its peers reach it; `tracer` is a command that runs it."""

    reach = "127.0.0.1"

    def __init__(self, program, *options, reads=True, host="127.0.0.1", port=0, variables=ALLOCATOR, tracer=()):
        self.process = subprocess.Popen(
            [*tracer, program, "serve", f"{host}:{port}", *options], stderr=subprocess.PIPE, text=True, env={**os.environ, **variables}
        )
        self.pid, self.lines = self.process.pid, []
        self.port = self.listens()
        self.address = f"127.0.0.1:{self.port}"
        self.reader = threading.Thread(target=self.read, daemon=True)
        if reads:
            self.reader.start()

    def listens(self):
        """Waits until it listens. Its port."""
        for line in self.process.stderr:
            if found := LISTENS.match(line):
                return int(found[1])
            self.add(line)
        raise AssertionError(f"it doesn't listen: {self.lines}")

    def read(self):
        for line in self.process.stderr:
            self.add(line)

    def add(self, line):
        if not OF_BUFFERS.match(line):
            self.lines.append(line.rstrip("\n"))

    def answers(self):
        with Peer(self) as peer:
            return peer.ask("OPTIONS", "*").status == 200

    def threads(self):
        return len(os.listdir(f"/proc/{self.pid}/task"))

    def descriptors(self):
        """How many descriptors it has open."""
        return len(os.listdir(f"/proc/{self.pid}/fd"))

    def has_ended(self, seconds=30):
        """Whether it ends by itself, as it does with `--accept`, with status 0."""
        try:
            return self.process.wait(seconds) == 0
        except subprocess.TimeoutExpired:
            return False

    def end(self):
        self.process.kill()
        self.process.wait()


@contextlib.contextmanager
def serving(program, *options, **how):
    server = Server(program, *options, **how)
    try:
        yield server
    finally:
        server.end()


@contextlib.contextmanager
def ending(program, count, *options, **how):
    """A server that ends by itself after this number of connections have ended. After it all its lines are read."""
    with serving(program, "--accept", str(count), *options, **how) as server:
        yield server
        if not server.has_ended():
            raise AssertionError(f"it doesn't end by itself with status 0 after {count} connections")
        server.reader.join()


def numbers_in(text):
    """The counts of a line by their words."""
    return {word: int(number) for word, number in COUNTED.findall(text)}


def accounts(server, name, part):
    """The counts of each account of a peer's sessions with this part in a mount (`player of cam`), in the order of their lines."""
    head = f"[INFO  relay_server::events] {name}: {part}: "
    return [numbers_in(line[len(head):]) for line in server.lines if line.startswith(head)]


def counts(server, name, part):
    """The counts of the last of these accounts. Empty if there is none."""
    return (accounts(server, name, part) or [{}])[-1]


def ends_told(server, name):
    """How connections of this peer ended, by their lines (`player of cam: write failed`)."""
    return [found[2] for found in map(END.fullmatch, server.lines) if found and found[1] == name]


def mounts_reported(lines):
    """The lines of reports about mounts, as numbers by their words. `slowed`, `missing` and `silent` are 0 if they aren't told."""
    found = [it.groupdict("0") for it in map(MOUNT_REPORT.fullmatch, lines) if it]
    return [{word: it if word in ("mount", "publisher") else int(it) for word, it in row.items()} for row in found]


def until(seconds, holds):
    """Whether that holds within so many seconds."""
    end = time.monotonic() + seconds
    while not holds():
        if time.monotonic() > end:
            return False
        time.sleep(0.02)
    return True


@dataclass
class Reply:
    """A reply; `head` has its status line and its fields, with line ends."""

    status: int
    head: bytes
    body: bytes

    def field(self, name):
        """The value of a field, or None."""
        found = re.search(rb"\r\n" + name.encode() + rb": ([^\r]*)\r\n", self.head)
        return found and found[1].decode()


@dataclass
class Frame:
    """An interleaved frame: its channel, and its packet."""

    channel: int
    packet: bytes

    @property
    def number(self):
        """The sequence number of an RTP packet."""
        return struct.unpack(">H", self.packet[2:4])[0]


def packet(number, size=12, timestamp=9000, source=0):
    """An RTP packet of that number and so many bytes (RFC 3550, 5.1)."""
    return struct.pack(">BBHII", 0x80, 96, number % 65536, timestamp, source) + bytes(size - 12)


def frame(packet, channel=0):
    """The packet as an interleaved frame (RFC 2326, 10.12)."""
    return struct.pack(">BBH", 0x24, channel, len(packet)) + packet


class Peer:
    """A connection, which gives up when nothing comes for thirty seconds. What came and wasn't asked for yet waits in it."""

    def __init__(self, server, source=None):
        here, host = source and (source, 0), "::1" if ":" in (source or "") else server.reach
        self.socket = socket.create_connection((host, server.port), timeout=30, source_address=here)
        self.socket.setsockopt(socket.IPPROTO_TCP, socket.TCP_NODELAY, 1)
        self.rest, self.session = bytearray(), None

    def __enter__(self):
        return self

    def __exit__(self, *_):
        self.close()

    def close(self):
        self.socket.close()

    def reset(self):
        """Resets the connection."""
        self.socket.setsockopt(socket.SOL_SOCKET, socket.SO_LINGER, struct.pack("ii", 1, 0))
        self.close()

    def fall_silent(self):
        """Says nothing more."""
        self.socket.shutdown(socket.SHUT_WR)

    def take_little(self):
        """Has a buffer for 64 KB of what comes, which the system doesn't widen."""
        self.socket.setsockopt(socket.SOL_SOCKET, socket.SO_RCVBUF, 65_536)

    def name(self):
        """The address by which lines name it."""
        host, port = self.socket.getsockname()[:2]
        return f"[{host}]:{port}" if ":" in host else f"{host}:{port}"

    def send(self, data):
        self.socket.sendall(data)

    def has(self, count):
        """Whether so many bytes come, or have come, before the end."""
        while len(self.rest) < count:
            piece = self.socket.recv(1 << 16)
            if not piece:
                return False
            self.rest += piece
        return True

    def bytes(self, count):
        """The next so many bytes, or fewer where there are no more."""
        self.has(count)
        came = bytes(self.rest[:count])
        del self.rest[:count]
        return came

    def next(self):
        """The next Reply or Frame, or None at the end."""
        if not self.has(1):
            return None
        if self.rest[0] == 0x24:
            _, channel, length = struct.unpack(">BBH", self.bytes(4))
            return Frame(channel, self.bytes(length))
        head, place = b"", -1
        while place < 0 and self.has(len(head) + 1):
            head = bytes(self.rest)
            place = head.find(b"\r\n\r\n")
        if place < 0:
            raise AssertionError(f"the end comes within a head: {head!r}")
        head = self.bytes(place + 4)
        size = re.search(rb"\r\nContent-Length: (\d+)", head)
        return Reply(int(head[9:12]), head, self.bytes(int(size[1])) if size else b"")

    def reply(self):
        """The next reply, behind the frames that come before it; None at the end."""
        while isinstance(came := self.next(), Frame):
            pass
        return came

    def is_hung_up(self):
        """Whether nothing comes any more, behind what was asked for."""
        try:
            return self.bytes(1) == b""
        except ConnectionResetError:
            return True

    def say(self, method, url, *fields, body=b""):
        """Sends a request, in its session where it has one."""
        lines = [f"{method} {url} RTSP/1.0", "CSeq: 1", *fields]
        if self.session:
            lines.append(f"Session: {self.session}")
        if body:
            lines.append(f"Content-Length: {len(body)}")
        self.send("".join(f"{line}\r\n" for line in lines).encode() + b"\r\n" + body)

    def ask(self, method, url, *fields, body=b""):
        """Sends a request, and gives the next reply, behind the frames that come before it."""
        self.say(method, url, *fields, body=body)
        return self.reply()

    def set_up(self, url, transport):
        """Sets a track up, and keeps the session. The status."""
        reply = self.ask("SETUP", url, f"Transport: RTP/AVP/TCP;{transport}")
        if reply.status == 200:
            self.session = reply.field("Session").partition(";")[0]
        return reply.status

    def is_read(self):
        """Waits until the server has read all that it said."""
        wanted(self.ask("OPTIONS", "*"))

    def tear_down(self):
        """Ends its session."""
        wanted(self.ask("TEARDOWN", self.url))
        self.session = None


def wanted(reply, status=200):
    """That reply; anything else than this status is a failure of what is tried."""
    if reply is None or reply.status != status:
        raise AssertionError(f"{status} is wanted, and not {reply}")
    return reply


class Camera(Peer):
    """Records into a mount of one track, on channels 0 and 1, unless it shall wait."""

    def __init__(self, server, mount="cam", records=True, source=None):
        super().__init__(server, source)
        self.announce(f"rtsp://{server.address}/{mount}")
        if records:
            self.record()

    def announce(self, url):
        """Announces a mount of one track, and sets the track up."""
        self.url = url
        wanted(self.ask("ANNOUNCE", self.url, body=SDP))
        self.set_up(f"{self.url}/streamid=0", "interleaved=0-1;mode=record")

    def record(self):
        wanted(self.ask("RECORD", self.url))

    def publish(self, numbers, size=12):
        """Publishes packets of these numbers."""
        self.send(b"".join(frame(packet(number, size)) for number in numbers))


class Player(Peer):
    """Has set up the track of a mount, on channels 4 and 5, and plays it unless it shall wait."""

    def __init__(self, server, mount="cam", plays=True, source=None):
        super().__init__(server, source)
        self.url = f"rtsp://{server.address}/{mount}"
        if self.set_up(f"{self.url}/trackID=0", "interleaved=4-5") != 200:
            raise AssertionError("no SETUP")
        if plays:
            wanted(self.play())

    def play(self):
        return self.ask("PLAY", self.url)

    def plays_at_last(self):
        """Asks to play until a seat is free, for fifty seconds. Whether it plays."""
        return until(50, lambda: self.play().status == 200)

    def numbers(self, count):
        """The numbers of the next so many packets, or fewer where there are no more."""
        came = []
        while len(came) < count and isinstance(it := self.next(), Frame):
            came.append(it.number)
        return came
