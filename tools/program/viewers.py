"""Players that keep what they read, for what is held against their accounts."""
import contextlib
import re
from dataclasses import dataclass, field

from peers import OUT, Player, frame, numbers_in

# How many packets a round has.
ROUND = 150

# How many packets of a round a player reads.
ALL, HALF, LITTLE, NOTHING = ROUND, ROUND // 2, 5, 0

# How a player leaves. One that cycles plays and pauses in each round, one that errs sends what is no request, one that drains reads up to
# the end of the mount, one that stays reads on a second after the mount's end, or just closes then if it has read nothing, and one that
# waits is disconnected by the server: what it hasn't been sent by then never comes.
CLOSES, RESETS, HALF_CLOSES, ERRS, PAUSES, TEARS_DOWN = "closes", "resets", "half-closes", "errs", "pauses", "tears down"

CYCLES, DRAINS, STAYS, WAITS = "cycles", "drains", "stays", "waits"

# How many packets that a player took may be unsent: those that were gathered for one write, and one that was cut.
ON_THE_WAY = 17

LEFT = re.compile(r"\[INFO  relay_server::events\] (\S+): leaves seat \d+ of \S+: (.+)")


@dataclass
class Stay:
    """A player's stay on its seat: the number of the first packet that is published during it, the number after the last one, and the
    numbers that it read."""

    begin: int
    end: int = 0
    numbers: list = field(default_factory=list)


class Viewer(Player):
    """A player that keeps what it reads."""

    def __init__(self, server, most, way):
        super().__init__(server, plays=False)
        self.take_little()
        self.most, self.way, self.address = most, way, self.name()
        self.stays, self.replies, self.asked, self.said = [], [], 0, 0

    def begins(self, number):
        """Plays, before this packet is published."""
        self.stays.append(Stay(number))
        self.asks("PLAY")

    def speaks(self):
        """Sends a frame, which the server counts as heard."""
        with contextlib.suppress(OSError):
            self.send(frame(bytes(8), 5))
            self.said += 1

    def pauses(self, number):
        """Pauses, before the packet of this number is published."""
        self.asks("PAUSE")
        self.stays[-1].end = number

    def says(self, method):
        """Asks for its mount."""
        self.asked += 1
        self.say(method, self.url)

    def asks(self, method):
        """Asks for its mount, and reads up to the reply."""
        self.says(method)
        self.reads(30, lambda: len(self.replies) == self.asked)
        if len(self.replies) != self.asked or not all(it.startswith(b"RTSP/1.0 200 ") for it in self.replies):
            raise AssertionError(f"{method} of one that {self.way}: {len(self.replies)} of {self.asked} replies, {self.replies[-3:]}")

    def reads(self, seconds, is_enough):
        """Reads until that is enough, nothing comes for this time in seconds, or the end comes."""
        self.socket.settimeout(seconds)
        with contextlib.suppress(TimeoutError, ConnectionResetError):
            while not is_enough() and (piece := self.socket.recv(1 << 14)):
                self.rest += piece
                self.parse()

    def parse(self):
        """Takes whole frames and replies out of what came."""
        while len(self.rest) >= 8:
            if self.rest[0] == 0x24:
                size = 4 + int.from_bytes(self.rest[2:4], "big")
                if len(self.rest) < size:
                    return
                self.stays[-1].numbers.append(int.from_bytes(self.rest[6:8], "big"))
            else:
                size = self.rest.find(b"\r\n\r\n") + 4
                if size < 4:
                    return
                self.replies.append(bytes(self.rest[:size]))
            del self.rest[:size]

    def reads_round(self, last):
        """Reads what it reads of a round whose last packet has this number. It asks something before, so that a reply comes among frames,
        unless it waits for the mount's end: a connection that is hung up then may be reset if a reply waits."""
        if self.way not in (DRAINS, STAYS):
            self.says("OPTIONS")
        numbers = self.stays[-1].numbers
        most = len(numbers) + self.most
        if self.most == ALL:
            self.reads(2, lambda: numbers[-1:] == [last])
        else:
            self.reads(0.3, lambda: len(numbers) >= most)

    def leaves(self, number):
        """Leaves as it does, before the packet of this number is published."""
        if self.way != CYCLES:
            self.stays[-1].end = number
        if self.way in (CLOSES, CYCLES):
            self.close()
        elif self.way == RESETS:
            self.reset()
        elif self.way == HALF_CLOSES:
            self.fall_silent()
            self.reads(30, lambda: False)
        elif self.way == ERRS:
            self.send(b"HELLO\r\n")
            self.reads(30, lambda: False)
        else:
            for method in {PAUSES: ("PAUSE", "TEARDOWN"), TEARS_DOWN: ("TEARDOWN",)}.get(self.way, ()):
                self.asks(method)

    def ends(self, number, is_hung_up):
        """Leaves after the mount's end, before which the last packet had the number before this one."""
        self.stays[-1].end = number
        if self.most != NOTHING:
            self.reads(30 if is_hung_up else 1, lambda: False)
        if self.most != NOTHING and not is_hung_up:
            self.asks("TEARDOWN")
        self.close()

    def has_read_all(self):
        """Whether it has read all that it was sent."""
        return self.most != NOTHING and self.way not in (CLOSES, RESETS, WAITS)

    def most_unsent(self, keep):
        """How many packets may be unsent when it leaves a seat of a ring that keeps this many. Replies to requests, and the end of a mount,
        come after all that was taken."""
        if self.way in (DRAINS, STAYS) and self.most != NOTHING:
            return 0
        return keep if self.way in (PAUSES, TEARS_DOWN, CYCLES) else keep + ON_THE_WAY


def left_by(server, address):
    """The counts of the lines about each seat that this player has left."""
    found = [it for it in map(LEFT.fullmatch, server.lines) if it and it[1] == address]
    return [dict.fromkeys(OUT, 0) | numbers_in(it[2]) for it in found]


def all_left(server, addresses):
    """Whether a line tells of each of these players that it has left its seat."""
    left = {found[1] for found in map(LEFT.fullmatch, list(server.lines)) if found}
    return left.issuperset(addresses)
