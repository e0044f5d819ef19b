"""Whom the port of a server's status pages lets wait, and what a peer can make it hold."""
import collections
import contextlib
import email.utils
import os
import pathlib
import re
import resource
import socket
import subprocess
import time

from peers import Camera, Player
from status_pages import PROMPT, SILENT, answer, pages_of, said

# How many strangers come, in how many turns.
STRANGERS, TURNS = 1_000, 100


def silent_peers_wait_alone(program):
    """A page comes in time beside 200 peers that ask for nothing, of which each gives way to a new one."""
    with pages_of(program) as (server, port), contextlib.ExitStack() as held:
        for _ in range(200):
            held.enter_context(socket.create_connection(("127.0.0.1", port), timeout=30))
        begun = time.monotonic()
        if answer(port, "/metrics")[0] != 200 or time.monotonic() - begun > PROMPT:
            yield f"the page comes after {time.monotonic() - begun:.1f} s"
        if server.descriptors() > 100:
            yield f"{server.descriptors()} descriptors are open"


def strangers_hurt_no_stream(program):
    """Beside 1,000 silent connections to the pages, each in place of one before it, 50 players get each packet of a camera, and each
    scrape is answered in time."""
    with pages_of(program) as (server, port), contextlib.ExitStack() as held, Camera(server) as camera:
        players = [held.enter_context(Player(server)) for _ in range(50)]
        strangers = collections.deque()
        for turn in range(TURNS):
            for _ in range(STRANGERS // TURNS):
                strangers.append(held.enter_context(socket.create_connection(("127.0.0.1", port), timeout=30)))
                if len(strangers) > 200:
                    strangers.popleft().close()
            camera.publish(range(turn * 5, turn * 5 + 5), 200)
            if turn % 10 == 0:
                begun = time.monotonic()
                if answer(port, "/metrics")[0] != 200 or time.monotonic() - begun > PROMPT:
                    yield f"a scrape takes {time.monotonic() - begun:.1f} s"
            time.sleep(0.05)
        for place, player in enumerate(players):
            if player.numbers(5 * TURNS) != list(range(5 * TURNS)):
                yield f"player {place} has lost packets"


def dripping_peer_is_closed(program):
    """A peer that sends its request in single bytes is closed after two seconds, too."""
    with pages_of(program) as (_, port), socket.create_connection(("127.0.0.1", port), timeout=30) as peer:
        begun = time.monotonic()
        with contextlib.suppress(ConnectionError):
            while time.monotonic() - begun < 6:
                peer.sendall(b"G")
                peer.settimeout(0.1)
                with contextlib.suppress(TimeoutError):
                    if not peer.recv(1):
                        break
        if not SILENT[0] < time.monotonic() - begun < SILENT[1]:
            yield f"it is closed after {time.monotonic() - begun:.1f} s"


def answers_end(program):
    """An answer is followed at once by the end, although the peer doesn't close; its date is now."""
    with pages_of(program) as (_, port):
        for text in b"GET /health HTTP/1.1\r\nHost: x\r\n\r\n", b"GET /health HTTP/1.1\r\n\r\n":
            came, seconds = said(port, text)
            if not came.startswith(b"HTTP/1.1 ") or seconds > PROMPT:
                yield f"{came[:20]!r} ends after {seconds:.1f} s"
        date = email.utils.parsedate_to_datetime(answer(port, "/health")[1]["date"]).timestamp()
        if abs(date - time.time()) > 2:
            yield f"its date is {date - time.time():.0f} s from now"


def rest_is_bounded(program):
    """A peer that goes on sending after its answer is closed after 1 MiB."""
    with pages_of(program) as (_, port), socket.create_connection(("127.0.0.1", port), timeout=30) as peer:
        peer.sendall(b"GET /health HTTP/1.1\r\nHost: x\r\n\r\n")
        sent, begun = 0, time.monotonic()
        try:
            while time.monotonic() - begun < 8:
                sent += peer.send(bytes(1 << 16))
                time.sleep(0.01)
        except ConnectionError:
            pass
        if not 1 << 20 <= sent < 16 << 20 or time.monotonic() - begun > 5:
            yield f"it is closed after {sent} bytes and {time.monotonic() - begun:.1f} s"


def accepts_again(program):
    """Where no descriptor is left for a connection, the listener waits and doesn't take the processor."""
    with pages_of(program) as (server, port):
        soft, hard = resource.prlimit(server.pid, resource.RLIMIT_NOFILE)
        resource.prlimit(server.pid, resource.RLIMIT_NOFILE, (server.descriptors(), hard))
        with socket.create_connection(("127.0.0.1", port), timeout=30) as peer:
            peer.sendall(b"GET /health HTTP/1.1\r\nHost: x\r\n\r\n")
            before = cpu(server.pid)
            time.sleep(1)
            if cpu(server.pid) - before > 0.2:
                yield f"it takes {cpu(server.pid) - before} s of a second"
            resource.prlimit(server.pid, resource.RLIMIT_NOFILE, (soft, hard))
            if not peer.recv(100).startswith(b"HTTP/1.1 200"):
                yield "no answer comes later"


def pages_end_with_the_server(program):
    """When the server stops, its status pages end with it, whoever is connected."""
    with subprocess.Popen([program, "serve", "127.0.0.1:0", "--http", "127.0.0.1:0", "--until-eof"], stdin=subprocess.PIPE, stderr=subprocess.PIPE, text=True) as ran:
        port = int(next(found[1] for line in ran.stderr if (found := re.match(r"relay: status pages on http://127\.0\.0\.1:(\d+)/", line))))
        with contextlib.ExitStack() as held:
            for text in b"", b"GET /health HT", b"GET /health HTTP/1.1\r\nHost: x\r\n\r\n":
                held.enter_context(socket.create_connection(("127.0.0.1", port), timeout=30)).sendall(text)
            ran.stdin.close()
            try:
                if ran.wait(10) != 0:
                    yield f"it ends with {ran.returncode}"
            except subprocess.TimeoutExpired:
                ran.kill()
                yield "it doesn't end"
        with contextlib.suppress(ConnectionRefusedError), socket.create_connection(("127.0.0.1", port), timeout=5):
            yield "its port is open"


def unsent_bytes(port):
    """How many bytes the system holds for the peers of this port."""
    rows = [line.split() for line in open("/proc/net/tcp").read().splitlines()[1:]]
    return sum(int(row[4].partition(":")[0], 16) for row in rows if row[1].endswith(f":{port:04X}"))


def slow_readers_hold_little(program):
    """Of a page of 1 MB the system holds little for each of 64 peers that read nothing."""
    with pages_of(program) as (server, port), contextlib.ExitStack() as held:
        for number in range(256):
            with Camera(server, f"{number:04}" + "\\" * 124) as camera:
                camera.publish([1])
        time.sleep(0.3)
        for _ in range(64):
            peer = held.enter_context(socket.socket())
            peer.setsockopt(socket.SOL_SOCKET, socket.SO_RCVBUF, 4_096)
            peer.connect(("127.0.0.1", port))
            peer.sendall(b"GET /metrics HTTP/1.1\r\nHost: x\r\n\r\n")
        time.sleep(5)
        if unsent_bytes(port) > 64 * 200_000:
            yield f"{unsent_bytes(port)} bytes wait"


def finished_peers_give_way(program):
    """A page comes in time beside 64 peers that have their answer and don't close."""
    with pages_of(program) as (_, port), contextlib.ExitStack() as held:
        for _ in range(64):
            peer = held.enter_context(socket.create_connection(("127.0.0.1", port), timeout=30))
            peer.sendall(b"GET /health HTTP/1.1\r\nHost: x\r\n\r\n")
        time.sleep(0.2)
        try:
            if answer(port, "/health")[0] != 200:
                yield "no page"
        except OSError as error:
            yield f"no page: {error!r}"


def cpu(pid):
    fields = pathlib.Path(f"/proc/{pid}/stat").read_text().rpartition(")")[2].split()
    return (int(fields[11]) + int(fields[12])) / os.sysconf("SC_CLK_TCK")


PARTS = [(part, ()) for part in (silent_peers_wait_alone, strangers_hurt_no_stream, dripping_peer_is_closed, answers_end, rest_is_bounded, accepts_again, pages_end_with_the_server, slow_readers_hold_little, finished_peers_give_way)]
