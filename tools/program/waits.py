"""Waits: for what a peer's system is waited for, and for how long a publisher waits for its players."""
import concurrent.futures
import contextlib
import pathlib
import socket
import subprocess
import sys
import threading
import time

from leaving import stall
from peers import GATHER, MODES, NO_ACKNOWLEDGEMENT, Camera, Peer, Player, counts, ending, ends_told, leave_out, serving, until, wanted

# The timer of a socket for which nothing is waited but a keepalive (proc(5): /proc/net/tcp, the column `tr`), and in how many hundredths
# of a second that is due at most.
KEEPALIVE, IDLE = 2, 1_000

# How often a server is started, while a peer tries to connect.
STARTS = 5


def timer_of(server, peer):
    """The timer of the server's socket of a peer, and in how many hundredths of a second it is due."""
    ports = f"{server.port:04X}", f"{peer.socket.getsockname()[1]:04X}"
    with open("/proc/net/tcp", encoding="ascii") as table:
        rows = [line.split() for line in table]
    timers = [row[5] for row in rows if (row[1][9:], row[2][9:]) == ports]
    return tuple(int(it, 16) for it in timers[0].split(":")) if timers else None


def has_keepalive(server, peer):
    """Yields what is wrong if a peer that has asked isn't asked by the system whether it's still there."""
    wanted(peer.ask("OPTIONS", "*"))
    # What the reply waits for, its acknowledgement, has a timer of its own.
    if not until(0.5, lambda: (timer_of(server, peer) or (0, 0))[0] == KEEPALIVE) or timer_of(server, peer)[1] > IDLE:
        yield f"{peer.name()} has the timer {timer_of(server, peer)}"


def each_connection_has_a_keepalive(program):
    """The system asks each silent peer after ten seconds whether it's still there."""
    with serving(program) as server, Peer(server) as first, Camera(server) as camera, Player(server) as player:
        for it in first, camera, player:
            yield from has_keepalive(server, it)


class Early(Peer):
    """A peer that tries to connect to a port until a server listens there."""

    def __init__(self, port):
        self.rest, self.session, end = bytearray(), None, time.monotonic() + 30
        while time.monotonic() < end:
            self.socket = socket.socket()
            self.socket.settimeout(30)
            with contextlib.suppress(ConnectionRefusedError):
                self.socket.connect(("127.0.0.1", port))
                return
            self.socket.close()
        raise AssertionError(f"nothing listens on {port}")


def first_connection_has_a_keepalive(program):
    """So it is with a peer that comes as soon as the server listens."""
    for _ in range(STARTS):
        with socket.create_server(("127.0.0.1", 0)) as it:
            port = it.getsockname()[1]
        with concurrent.futures.ThreadPoolExecutor(1) as pool:
            comes = pool.submit(Early, port)
            with serving(program, port=port) as server, comes.result() as peer:
                yield from has_keepalive(server, peer)


# A stream of packets of 1,200 bytes: how many a second, how many at once, and for how many seconds.
RATE, BUNCH, STREAM = 2_000, 20, 5

# For how many seconds a player doesn't read, and then does; and how many milliseconds its publisher may wait in all. It stops seven times,
# and each time its publisher would wait for some ten, if it waited at all.
STOPS, READS, SLOWED = 0.6, 0.1, 40


def stops_again(player, over):
    """Reads for a moment, and then nothing for a while, until it is over."""
    player.take_little()
    player.socket.settimeout(0.01)
    while not over.wait(STOPS):
        end = time.monotonic() + READS
        while time.monotonic() < end:
            with contextlib.suppress(TimeoutError):
                player.socket.recv(1 << 18)


def otherwise_beside_a_stopped_player(program, *options):
    """What is found where a publisher waits for a player that has stopped reading, each time it does, or another one doesn't read all."""
    used = "--seats", "2", "--send-buffer", "16384", "--verbose", *GATHER, *options
    with ending(program, 3, *used) as server, concurrent.futures.ThreadPoolExecutor(2) as pool, Camera(server) as camera:
        with Player(server) as player, Player(server) as stopping:
            over, name, begun = threading.Event(), camera.name(), time.monotonic()
            reading = pool.submit(player.numbers, STREAM * RATE)
            stopped = pool.submit(stops_again, stopping, over)
            for first in range(0, STREAM * RATE, BUNCH):
                camera.publish(range(first, first + BUNCH), 1_200)
                time.sleep(max(0, begun + first / RATE - time.monotonic()))
            camera.tear_down()
            over.set()
            stopped.result()
            came = reading.result()
    account = counts(server, name, "publisher of cam")
    if account.get("published") != STREAM * RATE or account.get("slowed", 0) > SLOWED:
        yield f"the publisher's account is {account}"
    if came != list(range(STREAM * RATE)):
        yield f"the player reads {len(came)} packets of {STREAM * RATE}"


# How often that is tried. On a machine that does other work for a while the publisher or the reader may be late in one of them.
TRIES = 3


def stopped_player_slows_no_publisher(program, *options):
    """A publisher doesn't wait for a player that has stopped reading, each time it does, while another one reads all, in one of several tries."""
    for _ in range(TRIES):
        found = list(otherwise_beside_a_stopped_player(program, *options))
        if not found:
            return
    yield from found


# Runs a program on a system that refuses TCP_USER_TIMEOUT, and the line of a server that has it so.
WITHOUT_OPTIONS = sys.executable, "-B", str(pathlib.Path(__file__).with_name("without_options.py"))

WARNS = "[WARN  relay_main::serve] the system disconnects no peer that acknowledges nothing: "

# Within how many seconds a player is disconnected there whose send buffer is full: by a writer, and by a frame thread, whose write may
# end with a part of its bytes after 20 seconds, and the next one with none 20 seconds later.
GONE = {"2": (19, 25), "0": (19, 46)}


def player_is_disconnected_without_the_options(program, *options):
    """If the system refuses to disconnect peers that acknowledge nothing, a line says so at the start, and a player that reads nothing is
    disconnected once its send buffer has been full for 20 seconds."""
    soonest, latest = GONE[options[-1]]
    if subprocess.run([*WITHOUT_OPTIONS, "true"], stderr=subprocess.DEVNULL).returncode != 0:
        leave_out(player_is_disconnected_without_the_options, "no filter for system calls (seccomp)")
        return
    with serving(program, *options, tracer=WITHOUT_OPTIONS) as server, Camera(server) as camera:
        if not any(line.startswith(WARNS) for line in server.lines):
            yield f"at the start is logged {server.lines}"
        with Player(server) as player:
            name, begun = player.name(), time.monotonic()
            stall(server, camera, player)
            stalled = time.monotonic()
            while not ends_told(server, name) and time.monotonic() < stalled + latest:
                camera.is_read()
                until(0.5, lambda: ends_told(server, name))
            now = time.monotonic()
            is_in_time = begun + soonest <= now <= stalled + latest
            if ends_told(server, name) != [f"player of cam: {NO_ACKNOWLEDGEMENT}"] or not is_in_time:
                yield f"after {now - stalled:.1f} s in which its system takes no byte is logged {server.lines}"


LONG = [(player_is_disconnected_without_the_options, mode) for mode in MODES]

PARTS = [(each_connection_has_a_keepalive, ()), (first_connection_has_a_keepalive, ())]

# By writers alone: a frame thread that waits in a write is waited for a moment each time.
ALONE = [(stopped_player_slows_no_publisher, ())]
