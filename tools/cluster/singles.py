"""Trials of single clients through HAProxy, and the same ones at a relay itself where a time is compared."""
import contextlib
import os
import pathlib
import threading
import time
import types

from net import PROXY, RELAYS
from peers import SDP, Camera, Frame, Peer, Player, frame, packet, until, wanted

# The port of cameras and that of players of dist/haproxy.cfg.
CAMERAS, PLAYERS = 8555, 8554

# A fast camera: packets a second, their bytes, and the part of them that a slow player reads.
FAST, SIZE, PART = 3_000, 1_200, 10

# Within how many seconds a client has to be gone whose link is cut or that reads nothing, as at the relay itself.
GONE = 24


def place(address, port):
    return types.SimpleNamespace(reach=address, port=port, address=f"{address}:{port}")


def places(direct):
    """Where cameras and players connect to: HAProxy, or the first relay itself."""
    return [place(RELAYS[0], 8554)] * 2 if direct else [place(PROXY, CAMERAS), place(PROXY, PLAYERS)]


def timed(limit, holds):
    """After how many seconds this holds; None if it doesn't within the limit."""
    begun = time.monotonic()
    return time.monotonic() - begun if until(limit, lambda: holds() or time.sleep(0.2)) else None


class Feed:
    """A thread that publishes a mount."""

    def __init__(self, cluster, at, mount, rate=FAST, size=SIZE):
        self.rate, self.size, self.sent, self.is_over = rate, size, 0, False
        self.camera = Camera(at, mount)
        self.thread = threading.Thread(target=self.publish, daemon=True)

    def __enter__(self):
        self.thread.start()
        return self

    def __exit__(self, *_):
        self.is_over = True
        self.thread.join()
        self.camera.close()

    def publish(self):
        begun, step = time.monotonic(), max(1, self.rate // 100)
        with contextlib.suppress(OSError):
            while not self.is_over:
                frames = (frame(packet(number, self.size, number)) for number in range(self.sent, self.sent + step))
                self.camera.send(b"".join(frames))
                self.sent += step
                time.sleep(max(0, begun + self.sent / self.rate - time.monotonic()))


def cut_camera(cluster, direct=False):
    """After how many seconds the name of a camera is free whose link was cut."""
    cameras, _ = places(direct)
    with cluster.net.on("far"):
        camera = Camera(cameras, "far")
    camera.publish(range(10))
    cluster.net.cut("far")
    try:
        with cluster.net.on("clients"):
            return timed(60, lambda: announces(cameras, "far"))
    finally:
        mended(cluster)
        camera.close()


def mended(cluster):
    """Mends the link, and waits until the system has dropped that no address there answered."""
    cluster.net.mend("far")
    cluster.net.ip("far", "neigh flush dev eth0")
    time.sleep(2)


def announces(cameras, mount):
    with Peer(cameras) as peer:
        return peer.ask("ANNOUNCE", f"rtsp://h/{mount}", body=SDP).status == 200


def players_of(cluster, mount):
    """How many players of a mount the relays have. None if no relay has the mount."""
    pages = [it.status() for it in cluster.relays]
    found = [row["players"] for page in pages if page for row in page["recorded"] if row["name"] == mount]
    return sum(found) if found else None


def is_seen(cluster, mount):
    """Waits until the relays' pages have the player."""
    if not until(5, lambda: players_of(cluster, mount) == 1):
        raise AssertionError(f"no player of {mount}")


def cut_player(cluster, direct=False):
    """After how many seconds a silent player is gone whose link was cut, of a mount that sends nothing."""
    cameras, players = places(direct)
    with cluster.net.on("clients"):
        camera = Camera(cameras, "quiet")
    with cluster.net.on("far"):
        player = Player(players, "quiet")
    with cluster.net.on("clients"):
        is_seen(cluster, "quiet")
    cluster.net.cut("far")
    try:
        with cluster.net.on("clients"):
            return timed(50, lambda: players_of(cluster, "quiet") == 0)
    finally:
        mended(cluster)
        player.close()
        camera.close()


def stalled_player(cluster, direct=False):
    """After how many seconds a player is gone that reads nothing."""
    cameras, players = places(direct)
    with cluster.net.on("clients"):
        with Feed(cluster, cameras, "fast"):
            player = Player(players, "fast", plays=False)
            player.take_little()
            wanted(player.play())
            is_seen(cluster, "fast")
            gone = timed(50, lambda: players_of(cluster, "fast") == 0)
            player.close()
            return gone


def slow_player(cluster, direct=False, seconds=15, takes_little=False):
    """How many MB a player is behind at most that reads a tenth of a mount."""
    cameras, players = places(direct)
    behind = 0
    with cluster.net.on("clients"), Feed(cluster, cameras, "fast") as feed, Player(players, "fast", plays=False) as player:
        if takes_little:
            player.take_little()
        wanted(player.play())
        begun, read = time.monotonic(), 0
        while time.monotonic() < begun + seconds:
            came = player.next()
            if not isinstance(came, Frame):
                break
            read += 1
            behind = max(behind, feed.sent - int.from_bytes(came.packet[4:8], "big"))
            time.sleep(max(0, begun + read * PART / FAST - time.monotonic()))
    return behind * SIZE / 1e6


def compared(cluster, what, measure, unit, limit, **how):
    """A row: a figure through HAProxy and at a relay itself. Keeps it if it's over its limit, a function of the relay's own figure."""
    through, direct = measure(cluster, **how), measure(cluster, direct=True, **how)
    cells = [f"{it:.1f} {unit}" if it is not None else "never" for it in (through, direct)]
    cluster.print_row(HEAD, (what, *cells))
    cluster.notes.append(f"{what} {cells[0]}, at the relay itself {cells[1]}")
    if through is None or direct is None or through > limit(direct):
        cluster.faults.append(f"{what}: {cells[0]}, and at the relay itself {cells[1]}")


HEAD = "| client | through HAProxy | at the relay itself |"


def cuts(cluster):
    """A camera and a silent player whose link is cut."""
    compared(cluster, "a camera's link is cut: its name is free after", cut_camera, "s", lambda _: GONE)
    compared(cluster, "a silent player's link is cut: it is gone after", cut_player, "s", lambda _: GONE)


def stalls(cluster):
    """A player that reads nothing."""
    compared(cluster, "a player reads nothing: it is gone after", stalled_player, "s", lambda it: it + 3)


def lag(cluster):
    """A player that reads slowly."""
    compared(cluster, "a player reads a tenth: it is behind by", slow_player, "MB", lambda it: 2 * it)
    compared(cluster, "the same with a receive buffer of 64 KB", slow_player, "MB", lambda it: 2 * it, takes_little=True)


def silent(cluster):
    """A player that sends nothing, of a camera that sends nothing for 50 seconds."""
    cameras, players = places(False)
    with cluster.net.on("clients"), Camera(cameras, "quiet") as camera, Player(players, "quiet") as player:
        time.sleep(50)
        with contextlib.suppress(OSError):
            camera.publish([1])
        with contextlib.suppress(OSError):
            player.socket.settimeout(3)
            if isinstance(player.next(), Frame):
                cluster.note("a player that was silent for 50 s has the next packet")
                return
    cluster.faults.append("a player that was silent for 50 s has no packet")


def processor_seconds(pid):
    fields = pathlib.Path(f"/proc/{pid}/stat").read_text().rsplit(")", 1)[1].split()
    return (int(fields[11]) + int(fields[12])) / os.sysconf("SC_CLK_TCK")


def drain(player, over, counts):
    """Reads all that comes, and counts its bytes."""
    while not over.is_set():
        counts.append(len(player.socket.recv(1 << 18)))


def cost(cluster, players=20, seconds=10):
    """HAProxy's processor seconds for each GB that the players of a fast mount get."""
    cameras, at = places(False)
    over, counts = threading.Event(), []
    with cluster.net.on("clients"), contextlib.ExitStack() as stack:
        stack.enter_context(Feed(cluster, cameras, "fast"))
        found = [stack.enter_context(Player(at, "fast")) for _ in range(players)]
        threads = [threading.Thread(target=drain, args=(it, over, counts)) for it in found]
        for it in threads:
            it.start()
        before = sum(map(processor_seconds, cluster.proxy.workers()))
        got = sum(counts)
        time.sleep(seconds)
        spent, bytes_read = sum(map(processor_seconds, cluster.proxy.workers())) - before, sum(counts) - got
        over.set()
        for it in threads:
            it.join()
    cluster.note(f"1 x {players} players: HAProxy takes {spent / bytes_read * 1e9:.1f} processor seconds for a delivered GB")


TRIALS = cuts, stalls, lag, silent, cost
