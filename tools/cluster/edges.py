"""Trials of a mount on edges: relays that get it by `relay pull`, for more players than one relay carries."""
import dataclasses
import re
import signal
import subprocess
import threading
import time

import proxy
import relays
from net import PROXY
from peers import Frame, Player, until
from singles import CAMERAS, Feed, place
from trials import Cluster

# The mount of the fleet's camera.
BIG = "cam-000"

# Packets a second of a fast camera, and how long its pull is stopped, in seconds: half a second longer until its seat has lost some, and fewer than
# 3,000, which a pull counts as a restart.
FAST, STOPPED, LONGER = 1_000, 3.0, 0.5

COUNTS = re.compile(r"camera of \S+: sent (\d+), unknown channel (\d+), before recording (\d+), unsent (\d+), missing (\d+), late (\d+), restarts (\d+)")


class Pull:
    """`relay pull` beside an edge, which gets a mount from the relay that has it. Its lines are in a file."""

    def __init__(self, net, edge, program, mount, folder):
        source, target = f"rtsp://{PROXY}:{CAMERAS}/{mount}", f"rtsp://127.0.0.1:{edge.port}/{mount}"
        self.words = [*net.command(edge.name), program, "pull", source, target, "--until-eof"]
        self.lines_at, self.process = f"{folder}/{edge.name}-{mount}.log", None

    def start(self):
        with open(self.lines_at, "a", encoding="utf-8") as lines:
            self.process = subprocess.Popen(self.words, stdin=subprocess.PIPE, stderr=lines)

    def stop(self):
        """Ends it. The counts of its last try."""
        if self.process.poll() is None:
            self.process.stdin.close()
            self.process.wait(10)
        with open(self.lines_at, encoding="utf-8") as lines:
            found = COUNTS.findall(lines.read())
        words = "sent", "unknown", "before", "unsent", "missing", "late", "restarts"
        return dict(zip(words, map(int, found[-1]))) if found else {}

    def kill(self):
        if self.process.poll() is None:
            self.process.kill()
        self.process.wait()
        self.process.stdin.close()


class Edges(Cluster):
    """The cluster with edges of the mount of its one camera."""

    def __init__(self, load):
        super().__init__(dataclasses.replace(load, mounts=1, players=load.edge_players), proxy.with_edges(proxy.config(), BIG))

    def prepare(self, stack, folder):
        self.folder = folder
        self.edges = self.started(stack, relays.edges(self.net, self.load.program, [*self.options, "--seats", "900"], folder))
        for it in self.edges:
            self.proxy.ask(f"set server edges_of_big/{it.name} state maint")
        self.pulls = [self.pulling(stack, it, BIG) for it in self.edges]
        threading.Thread(target=self.open, daemon=True).start()

    def open(self):
        """Lets players in once all edges have the mount: the first one would have all of them otherwise."""
        with self.net.on("clients"):
            until(60, lambda: all(row_of(it, "recorded", "name", BIG) for it in self.edges) or time.sleep(0.2))
        for it in self.edges:
            self.proxy.ask(f"set server edges_of_big/{it.name} state ready")

    def pulling(self, stack, edge, mount):
        made = Pull(self.net, edge, self.load.program, mount, self.folder)
        made.start()
        stack.callback(made.kill)
        return made

    def is_up(self, edge):
        return self.proxy.is_up(edge.name, "edges_of_big")

    def sessions(self, edge):
        """How many connections HAProxy has given an edge so far."""
        return int(self.proxy.stat()["edges_of_big", edge.name]["stot"])

    def carried(self):
        """How many players each edge has."""
        with self.net.on("clients"):
            pages = [it.status() for it in self.edges]
        return [sum(row["players"] for row in page["recorded"]) if page else None for page in pages]


def edge_spread(cluster):
    """How many players each edge has."""
    cluster.note(f"{cluster.load.players:,} players of one mount, on each of three edges: {', '.join(map(str, cluster.carried()))}")


def losses(cluster, edges):
    """How many packets each player of some edges has lost, by its address."""
    with cluster.net.on("clients"):
        pages = [it.status() for it in edges]
    return {row["peer"]: row["lost"] for page in pages for row in page["players"] if row["mount"] == BIG}


def edge_without_pull(cluster):
    """The pull of one edge is stopped, and started again. The players of the others lose nothing."""
    edge, pull, others = cluster.edges[0], cluster.pulls[0], cluster.edges[1:]
    held, before_all = min(cluster.load.players, 1_800), losses(cluster, others)
    cluster.mark()
    pull.stop()
    if not until(3, lambda: not cluster.is_up(edge)):
        cluster.faults.append("an edge without the mount isn't marked down")
    before = cluster.sessions(edge)
    time.sleep(10)
    after_all = losses(cluster, others)
    gone, lost = set(before_all) - set(after_all), sum(after_all[it] - count for it, count in before_all.items() if it in after_all)
    cluster.note(f"of {len(before_all)} players of other edges {len(gone)} were disconnected, and {lost} packets lost")
    if gone or lost or not before_all:
        cluster.faults.append("players of other edges were touched")
    cluster.row("the pull of one edge is stopped", {BIG}, without=cluster.load.players - held, has_ended=True)
    cluster.note(f"players then: {', '.join(map(str, cluster.carried()))}; new ones of this edge: {cluster.sessions(edge) - before}")
    if cluster.sessions(edge) != before:
        cluster.faults.append("an edge without the mount gets players")
    cluster.mark()
    pull.start()
    if not until(20, lambda: cluster.is_up(edge)):
        cluster.faults.append("the edge isn't marked up again")
    cluster.settles()
    cluster.row("the pull is started again", {BIG}, has_ended=True)


def edge_origin(cluster):
    """The relay is ended by KILL that the camera publishes to, and the edges' pulls play from."""
    origin = next(it for it in cluster.relays if BIG in cluster.watch.of(it.name))
    cluster.mark()
    origin.kill()
    time.sleep(3)
    cluster.settles()
    cluster.row(f"KILL of {origin.name}, to which the camera publishes", {BIG}, has_ended=True)
    edge_spread(cluster)


def played(player, seconds):
    """How many packets a player gets until none comes for this long, and how many numbers are missing between them."""
    count, missing, following = 0, 0, None
    player.socket.settimeout(seconds)
    try:
        while isinstance(came := player.next(), Frame):
            number = int.from_bytes(came.packet[4:8], "big")
            missing += number - following if following is not None else 0
            count, following = count + 1, number + 1
    except OSError:
        pass
    return count, missing


def row_of(relay, kind, key, mount):
    """The row of a mount on a relay's page, among its mounts or players, or nothing."""
    page = relay.status()
    return next((it for it in page[kind] if it[key] == mount), {}) if page else {}


def counts_of_hops(cluster, edge, stopped):
    """What became of a fast mount whose pull was stopped for some seconds: what the relay, the pull and the edge count, and what a player of
    the edge got and didn't."""
    with cluster.net.on("clients"), Feed(cluster, place(PROXY, CAMERAS), "fast", FAST) as feed:
        pull = cluster.pulling(cluster.stack, edge, "fast")
        until(10, lambda: row_of(edge, "recorded", "name", "fast"))
        with Player(edge, "fast") as player:
            pull.process.send_signal(signal.SIGSTOP)
            threading.Timer(stopped, pull.process.send_signal, [signal.SIGCONT]).start()
            threading.Timer(stopped + 5, setattr, [feed, "is_over", True]).start()
            got, missing = played(player, stopped + 4)
            seats = [row_of(it, "players", "mount", "fast") for it in (*cluster.relays, edge)]
            mounts = [row_of(it, "mounts", "name", "fast") for it in (*cluster.relays, edge)]
        counts = pull.stop()
    origin = next(it for it in seats if it)
    published = next(it for it in mounts if it)["packets"]["published"]
    track = mounts[-1]["tracks"][0]
    return {
        "camera": (feed.sent, 0), "origin": (published, 0), "its seat": (origin["sent"], origin["lost"]),
        "pull": (counts["sent"] + counts["before"], counts["missing"]), "edge": (mounts[-1]["packets"]["published"] + counts["before"], track["missing"]),
        "player": (got, missing),
    }, seats[-1]["lost"]


def edge_counts(cluster):
    """The counts of three hops add up: what the seat of a pull loses is what is missing at the edge, and for the edge's players."""
    edge = cluster.edges[0]
    for turn in range(6):
        counts, lost = counts_of_hops(cluster, edge, STOPPED + turn * LONGER)
        if 0 < counts["its seat"][1]:
            break
    cluster.note("; ".join(f"{name} {sent}, lost {missing}" for name, (sent, missing) in counts.items()) + f"; lost by the edge's seat {lost}")
    rows = counts["its seat"], counts["pull"], counts["edge"]
    if len(set(rows)) > 1 or counts["camera"][0] != counts["origin"][0] or not rows[0][1]:
        cluster.faults.append(f"the counts of the hops differ: {counts}")
    if counts["player"][1] != rows[0][1] + lost:
        cluster.faults.append(f"a player misses {counts['player'][1]} packets, and {rows[0][1]} and {lost} were lost")


TRIALS = [(Edges, it) for it in (edge_spread, edge_without_pull, edge_origin, edge_counts)]
