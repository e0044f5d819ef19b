"""How a server stops: with `--until-eof` when its standard input ends, and at signals by the script that runs it (dist/run.sh)."""
import contextlib
import os
import pathlib
import pty
import re
import shutil
import signal
import socket
import subprocess
import tempfile
import threading
import time

from leaving import PLACES, has_descriptors
from peers import ALLOCATOR, IN, MODES, OPTIONS, OUT, Camera, Frame, Peer, Player, Server, frame, mounts_reported, numbers_in, until
from peers import wanted

RUN = pathlib.Path(__file__).resolve().parent.parent.parent / "dist/run.sh"

# Within how many seconds a server ends: if its lines are read, if they aren't, and if it has to be killed.
SOON, UNREAD, KILLED = 3, 5, 8

# All connections have an account, and a report comes in the end alone.
TELLING = "--verbose", "--report", "3600"


class Stoppable(Server):
    """A server that this command starts, whose lines are read unless they shall wait. Its standard input is a pipe."""

    def __init__(self, *command, reads=True, **how):
        how = {"stdin": subprocess.PIPE, "stderr": subprocess.PIPE, "text": True, "env": {**os.environ, **ALLOCATOR}, **how}
        self.process = subprocess.Popen(command, **how)
        self.pid, self.lines = self.process.pid, []
        self.port = self.listens()
        self.address = f"127.0.0.1:{self.port}"
        self.reader = threading.Thread(target=self.read, daemon=True)
        if reads:
            self.reader.start()

    def end_input(self):
        self.process.stdin.close()

    def status(self, seconds):
        """Its status, or None if it doesn't end within this time in seconds."""
        with contextlib.suppress(subprocess.TimeoutExpired):
            return self.process.wait(seconds)

    def is_told(self, seconds=SOON):
        """Whether its standard error is closed within this time in seconds: all that it wrote is read then."""
        self.reader.join(seconds)
        return not self.reader.is_alive()


@contextlib.contextmanager
def stoppable(program, *options, command=("serve", "127.0.0.1:0"), before=(), **how):
    """The program, or a script that runs it, behind the words of what starts it. Both are killed in the end."""
    server = Stoppable(*before, program, *command, *options, **how)
    try:
        yield server
    finally:
        kill(children(server.pid))
        server.end()


def children(pid):
    """The processes that it has started."""
    with contextlib.suppress(OSError):
        return [int(it) for it in pathlib.Path(f"/proc/{pid}/task/{pid}/children").read_text().split()]
    return []


def kill(processes, number=signal.SIGKILL):
    """Sends each of them a signal, if it's still there."""
    for pid in processes:
        with contextlib.suppress(ProcessLookupError):
            os.kill(pid, number)


ACCOUNT = re.compile(r"\[INFO  relay_server::events\] (\S+): (?:(publisher|player) of cam: )?(published \d+, pinned \d+, .*)")


def all_accounts(server):
    """What lines count of each peer, by its name and part."""
    found = filter(None, map(ACCOUNT.fullmatch, list(server.lines)))
    return {(it[1], it[2]): numbers_in(it[3]) for it in found}


def has_stopped(server, begun, seconds=SOON):
    """Tells if it doesn't end in time, with status 0; if not all that it wrote can be read then; if it tells of a fault; or if its
    port still takes connections."""
    status = server.status(seconds + 2)
    took = time.monotonic() - begun
    if status != 0 or took > seconds:
        yield f"status {status} after {took:.1f} s"
    if not server.is_told():
        yield "its standard error doesn't end"
    if faults := [line for line in server.lines if line.startswith("[WARN")]:
        yield f"it tells {faults[:3]}"
    with contextlib.suppress(ConnectionRefusedError), socket.create_connection(("127.0.0.1", server.port), timeout=5):
        yield "its port takes a connection"


# How many packets of how many bytes: more than the sockets of a player hold.
PACKETS, LARGE = 2_000, 6_000


def reads_to_the_end(player, came):
    """Counts its packets, up to the end of its connection."""
    with contextlib.suppress(OSError):
        while isinstance(player.next(), Frame):
            came.append(1)


def dribbles(peer, count):
    """Sends a frame, which counts in its account, and then a byte of a request now and then, as long as its connection takes it; at most
    so many."""
    peer.send(frame(bytes(8)))
    with contextlib.suppress(OSError):
        for _ in range(count):
            peer.send(b"O")
            time.sleep(0.01)


def all_accounts_are_told(program, *options):
    """It stops beside a camera, a player that reads, one that reads nothing, and a peer that dribbles: the account of each is told, and
    adds up, and so is the last report."""
    with stoppable(program, "--until-eof", *TELLING, "--keep", "64", "--seats", "2", *options) as server, contextlib.ExitStack() as peers:
        camera, reading, stalled, other = (peers.enter_context(it(server)) for it in (Camera, Player, Player, Peer))
        came = []
        threads = [threading.Thread(target=reads_to_the_end, args=(reading, came)), threading.Thread(target=dribbles, args=(other, 1000))]
        for it in threads:
            it.start()
        for first in range(0, PACKETS, PACKETS // 100):
            camera.publish(range(first, first + PACKETS // 100), LARGE)
            time.sleep(0.005)
        camera.is_read()
        begun = time.monotonic()
        server.end_input()
        yield from has_stopped(server, begun)
        for it in threads:
            it.join()
        yield from add_up(server, camera.name(), reading.name(), stalled.name(), other.name(), len(came))


def add_up(server, camera, reading, stalled, other, came):
    """Tells if an account isn't there, or doesn't add up to what was published, or to what came to the player that reads."""
    told = all_accounts(server)
    wanted_names = {(camera, "publisher"), (reading, "player"), (stalled, "player"), (other, None)}
    if told.keys() != wanted_names:
        yield f"accounts are told of {sorted(told, key=str)}, and not of {sorted(wanted_names, key=str)}"
        return
    owner = told[camera, "publisher"]
    if sum(owner[word] for word in IN) != PACKETS:
        yield f"the camera's account is {owner}"
    for name in (reading, stalled):
        account = told[name, "player"]
        if sum(account[word] for word in OUT) != owner["published"]:
            yield f"a player's account is {account}, and {owner['published']} were published"
    if told[reading, "player"]["sent"] != came:
        yield f"a player's account is {told[reading, 'player']}, and {came} came"
    if not told[stalled, "player"]["lost"]:
        yield f"the stalled player's account is {told[stalled, 'player']}"
    reports = [(it["publisher"], it["packets"], it["pinned"]) for it in mounts_reported(server.lines)]
    if reports != [(camera, owner["published"], owner["pinned"])]:
        yield f"the last report is {reports}, and the camera's account {owner}"


def losses_are_told_unasked(program, *options):
    """Without an option that asks for lines the account of a player that lost packets is told, and no other."""
    with stoppable(program, "--until-eof", "--keep", "64", "--seats", "2", *options) as server, Camera(server) as camera:
        with Player(server) as stalled, Peer(server) as other:
            wanted(other.ask("OPTIONS", "*"))
            camera.publish(range(PACKETS), LARGE)
            camera.is_read()
            begun = time.monotonic()
            server.end_input()
            yield from has_stopped(server, begun)
            told = all_accounts(server)
            if (stalled.name(), "player") not in told or (other.name(), None) in told:
                yield f"{told} are told"


def accounts_of(count, program, options):
    """It stops with this number of connected players: the account of each is logged."""
    with stoppable(program, "--until-eof", "--verbose", *options) as server, contextlib.ExitStack() as peers:
        camera = peers.enter_context(Camera(server))
        players = [peers.enter_context(Player(server, plays=False)) for _ in range(count)]
        names = {(camera.name(), "publisher"), *((it.name(), "player") for it in players)}
        begun = time.monotonic()
        server.end_input()
        yield from has_stopped(server, begun)
        if (told := all_accounts(server).keys()) != names:
            yield f"{len(told & names)} of {len(names)} have an account, and {len(told - names)} others"


def all_of_many_are_told(program, *options):
    """It stops with 300 connections of players: the account of each is told."""
    yield from accounts_of(300, program, options)


def all_of_as_many_as_may_be_are_told(program, *options):
    """So it is with as many connections as it takes."""
    if has_descriptors(all_of_as_many_as_may_be_are_told):
        yield from accounts_of(PLACES - 1, program, options)


# How many requests are refused, with a line each: more than a pipe and those that wait in the server take.
REFUSED = 3_000

DROPPED = re.compile(r"\[WARN  relay_server::lines\] (\d+) lines were dropped, since nobody read them")


def refuse_many(server, peer):
    """A peer asks for what isn't there, so that more lines are told than wait."""
    asked = f"DESCRIBE rtsp://{server.address}/none RTSP/1.0\r\nCSeq: 1\r\n\r\n".encode()
    for _ in range(REFUSED // 100):
        peer.send(asked * 100)
        for _ in range(100):
            wanted(peer.reply(), 404)


# How many connections come and go, a third of which play.
GONE = 300


def descriptors(server):
    return len(os.listdir(f"/proc/{server.pid}/fd"))


def closed_connections_leave_no_descriptor(program, *options):
    """Connections that came and went have left no descriptor, and the server stops afterwards."""
    with stoppable(program, "--until-eof", *options) as server, Camera(server), contextlib.ExitStack() as peers:
        before = descriptors(server)
        for place in range(GONE):
            with Peer(server) if place % 3 else Player(server) as peer:
                peer.is_read() if place % 3 else peer.tear_down()
        if not until(5, lambda: descriptors(server) == before):
            yield f"it has {descriptors(server)} descriptors, and had {before}"
        staying = [peers.enter_context(it(server)) for it in (Peer, Player)]
        begun = time.monotonic()
        server.end_input()
        yield from has_stopped(server, begun)
        if not all(it.is_hung_up() for it in staying):
            yield "those that stay aren't hung up"


def lines_nobody_reads_hold_up_no_stop(program):
    """It ends in time even if its lines aren't read."""
    with stoppable(program, "--until-eof", *TELLING, reads=False) as server, Camera(server), Peer(server) as peer:
        refuse_many(server, peer)
        begun = time.monotonic()
        server.end_input()
        status, took = server.status(30), time.monotonic() - begun
        if status != 0 or took > UNREAD:
            yield f"status {status} after {took:.1f} s"


def lines_read_late_are_told_or_counted(program):
    """If its lines are read only from the stop on, each is told, or counted by a line that tells how many were dropped."""
    with stoppable(program, "--until-eof", *TELLING, reads=False) as server, Camera(server) as camera, Peer(server) as peer:
        camera.publish([7])
        refuse_many(server, peer)
        server.end_input()
        time.sleep(0.3)
        server.reader.start()
        if server.status(UNREAD) != 0 or not server.is_told():
            yield "it doesn't end with status 0"
        told = sum(line.startswith("[INFO  relay_server::") for line in server.lines)
        dropped = sum(int(it[1]) for it in filter(None, map(DROPPED.fullmatch, server.lines)))
        # Beside the refusals three lines tell of the mount, one is the camera's account, and one the report.
        if dropped == 0 or told + dropped != REFUSED + 5:
            yield f"{told} lines are told and {dropped} dropped, of {REFUSED + 5}"


def next_server_has_its_port(program):
    """The next server can listen on its port at once, though connections of the one before aren't forgotten yet."""
    with stoppable(program, "--until-eof") as server, Peer(server) as peer:
        wanted(peer.ask("OPTIONS", "*"))
        server.end_input()
        if server.status(SOON) != 0:
            yield "it doesn't end"
        with stoppable(program, "--until-eof", command=("serve", server.address)) as another:
            if not another.answers():
                yield "the next one doesn't answer"


@contextlib.contextmanager
def installed(program):
    """The script as it is installed, which runs the program."""
    with tempfile.TemporaryDirectory() as folder:
        top = pathlib.Path(folder)
        for it in ("bin", "lib/vasklun"):
            (top / it).mkdir(parents=True)
        shutil.copy(RUN, top / "bin/vasklun")
        (top / "lib/vasklun/relay").symlink_to(pathlib.Path(program).resolve())
        yield top / "bin/vasklun"


@contextlib.contextmanager
def scripted(program, *options, **how):
    """A server that the script runs, in a session of its own, and a camera that has published a packet."""
    with installed(program) as script, stoppable(script, *TELLING, *options, start_new_session=True, **how) as server:
        with Camera(server) as camera:
            camera.publish([7])
            camera.is_read()
            yield server, camera


def stops(server, camera, begun):
    """Tells if it doesn't stop in time, with the camera's account and the report."""
    yield from has_stopped(server, begun)
    if all_accounts(server).get((camera.name(), "publisher"), {}).get("published") != 1:
        yield f"the camera's account isn't told: {server.lines}"
    if not mounts_reported(server.lines):
        yield f"no report is told: {server.lines}"


def signal_stops_it(program, number, kills):
    """At a signal, to the script or to its process group, as a stop of systemd's is without KillMode, it stops."""
    with scripted(program) as (server, camera):
        begun = time.monotonic()
        kills(server.pid, number)
        yield from stops(server, camera, begun)


def term_stops_it(program):
    """TERM to the script stops it."""
    yield from signal_stops_it(program, signal.SIGTERM, os.kill)


def hangup_stops_it(program):
    """HUP to the script stops it."""
    yield from signal_stops_it(program, signal.SIGHUP, os.kill)


def term_of_all_stops_it(program):
    """TERM to all its processes stops it."""
    yield from signal_stops_it(program, signal.SIGTERM, os.killpg)


# Opens this terminal, which becomes that of its session, and runs the words that follow.
ON_TERMINAL = "bash", "-c", 'exec "$@" < "$0"'


def interrupt_stops_it(program):
    """Ctrl-C on its terminal stops it, and so does more than one."""
    for times in (1, 3):
        master, slave = pty.openpty()
        try:
            with scripted(program, before=(*ON_TERMINAL, os.ttyname(slave))) as (server, camera):
                begun = time.monotonic()
                for _ in range(times):
                    os.write(master, b"\x03")
                    time.sleep(0.02)
                yield from stops(server, camera, begun)
        finally:
            os.close(master)
            os.close(slave)


def closed_terminal_stops_it(program):
    """So does its terminal's end."""
    master, slave = pty.openpty()
    with scripted(program, before=(*ON_TERMINAL, os.ttyname(slave))) as (server, camera):
        os.close(slave)
        begun = time.monotonic()
        os.close(master)
        yield from stops(server, camera, begun)


def killed_script_stops_it(program):
    """If the script is killed, the program tells all the same, and ends by itself."""
    with scripted(program) as (server, camera):
        its = children(server.pid)
        server.process.kill()
        if not server.is_told():
            yield "the program stays"
            kill(its)
        if (camera.name(), "publisher") not in all_accounts(server):
            yield f"the camera's account isn't told: {server.lines}"


def killed_program_is_told(program):
    """The script has the status of a program that was killed."""
    with scripted(program) as (server, _):
        kill(children(server.pid))
        if (status := server.status(SOON)) != 128 + signal.SIGKILL:
            yield f"status {status}"
        if not server.is_told() or server.lines[2:]:
            yield f"it tells {server.lines}"


def held_program_is_killed(program):
    """A program that doesn't stop is killed after five seconds."""
    with scripted(program) as (server, _):
        kill(children(server.pid), signal.SIGSTOP)
        begun = time.monotonic()
        os.kill(server.pid, signal.SIGTERM)
        status, took = server.status(KILLED), time.monotonic() - begun
        if status != 128 + signal.SIGKILL or took < 5:
            yield f"status {status} after {took:.1f} s"


def program_that_ends_by_itself(program):
    """With a program that ends by itself the script ends too, with its status."""
    with scripted(program, "--accept", "1") as (server, camera):
        camera.close()
        if (status := server.status(SOON)) != 0:
            yield f"status {status}"


def signal_at_any_moment(program):
    """A signal to all its processes stops it whenever it comes, from its start on: at first it may end the script before its program is
    there, or the program before it ignores the signal."""
    with installed(program) as script:
        for moment in range(60):
            how = {"stderr": subprocess.PIPE, "start_new_session": True}
            with subprocess.Popen([script, "serve", "127.0.0.1:0"], **how) as process:
                time.sleep(moment / 2000)
                os.killpg(process.pid, signal.SIGTERM)
                try:
                    process.communicate(timeout=SOON)
                except subprocess.TimeoutExpired:
                    yield f"it stays after {moment / 2} ms"
                    os.killpg(process.pid, signal.SIGKILL)
            if process.returncode not in (0, -signal.SIGTERM, 128 + signal.SIGTERM):
                yield f"status {process.returncode} after {moment / 2} ms"


def ran(words, **how):
    """What a command that ends by itself has told: its status and its two outputs."""
    it = subprocess.run(words, capture_output=True, text=True, timeout=30, **how)
    return it.returncode, it.stdout, it.stderr


def script_ends_as_the_program(program):
    """What ends by itself does so by the script as without it, and has its standard input: help, a talk, an option that isn't there, a
    port that is taken, and a server that its own standard input ends."""
    with installed(program) as script, socket.socket() as other:
        other.bind(("127.0.0.1", 0))
        other.listen()
        taken = "127.0.0.1:%d" % other.getsockname()[1]
        rows = (
            (0, "--help"), (0, "--version"), (0, "serve --help"), (0, "talk --word 0000abcd"), (2, ""), (2, "serve 127.0.0.1:0 --nothing"),
            (2, "serve"), (1, f"serve {taken}"),
        )
        for status, words in rows:
            came = ran([script, *words.split()], input=OPTIONS.decode())
            alone = ran(["vasklun", *words.split()], executable=program, input=OPTIONS.decode())
            # The usage beside a fault names the options that were given.
            if (came[0], came[1], came[2].replace(" --until-eof", "")) != alone or came[0] != status:
                yield f"{words}: {came}, and not {alone}"
        status, _, told = ran([script, "serve", "127.0.0.1:0", "--until-eof"], input="")
        if status != 0 or "relay: listening on " not in told:
            yield f"--until-eof: status {status}, {told!r}"


LONG = [(held_program_is_killed, ()), (lines_nobody_reads_hold_up_no_stop, ())]

PARTS = [(part, mode) for part in (all_accounts_are_told, losses_are_told_unasked, all_of_many_are_told) for mode in MODES]
PARTS += [(closed_connections_leave_no_descriptor, mode) for mode in MODES]
PARTS += [(part, ()) for part in (lines_read_late_are_told_or_counted, next_server_has_its_port)]
PARTS += [(part, ()) for part in (term_stops_it, hangup_stops_it, term_of_all_stops_it, interrupt_stops_it, closed_terminal_stops_it)]
PARTS += [(part, ()) for part in (killed_script_stops_it, killed_program_is_told, program_that_ends_by_itself, script_ends_as_the_program)]

ALONE = []

# What takes too long for the gate, or needs more descriptors.
SLOW = [(part, ("--direct",)) for part in (all_accounts_are_told, losses_are_told_unasked)]
SLOW += [(all_of_as_many_as_may_be_are_told, mode) for mode in MODES] + [(signal_at_any_moment, ())]
