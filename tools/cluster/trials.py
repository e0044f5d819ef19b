"""The trials of `tools/try-cluster`. Each gives rows of its table, and what must not be."""
import contextlib
import dataclasses
import tempfile
import time

import fleet
import proxy
import relays
from net import FIRST, SECOND, Network
from peers import OPTIONS, Camera, Peer, until

# How long after a trial all pictures have to be there, in seconds.
SETTLES = 40

# How long a name may be on two relays, in seconds: two looks at status pages that aren't made at the same moment. A relay that was cut off
# has mounts whose camera publishes to another relay by now, until it is reached or its keepalives end them. HAProxy sends no client there.
TWICE, CUT_OFF = 1.0, 22.0

HEAD = "| trial | mounts | players | pictures back: median, all | without | lost by others | ends of others | 404 of live mounts | on two relays |"


@dataclasses.dataclass
class Load:
    """What a run is: the program, numbers of mounts, players and unknown names, how long a minute is, and how many players a mount on edges
    has."""

    program: str
    mounts: int
    players: int
    unknown: int
    minute: float
    edge_players: int


class Cluster:
    """Four relays, HAProxy, cameras and players; all is ended at the end."""

    def __init__(self, load, text=None):
        self.load, self.text, self.faults, self.notes, self.head = load, text or proxy.config(), [], [], None
        self.stack = contextlib.ExitStack()

    def __enter__(self):
        with contextlib.ExitStack() as stack:
            folder = stack.enter_context(tempfile.TemporaryDirectory())
            self.net = stack.enter_context(Network())
            has_header = any(line.endswith("send-proxy-v2") and not line.startswith("#") for line in self.text.splitlines())
            self.options = ["--proxy-from", f"{FIRST},{SECOND}"] if has_header else []
            self.relays = self.started(stack, relays.making(self.net, self.load.program, self.options, folder))
            self.proxy = stack.enter_context(proxy.Proxy(self.net, folder, self.text))
            self.prepare(stack, folder)
            self.watch = stack.enter_context(relays.Watch(self.net, self.relays))
            time.sleep(1)
            self.fleet = stack.enter_context(fleet.Fleet(self.net, fleet.built(folder), self.load.mounts, self.load.players))
            self.fleet.waits_for("playing", 60 + self.load.players / 50)
            time.sleep(1)
            self.stack = stack.pop_all()
        return self

    def __exit__(self, *_):
        self.stack.close()

    def started(self, stack, made):
        """Starts relays, which are ended with the stack."""
        for it in made:
            stack.callback(it.kill)
        relays.have_started(made)
        return made

    def prepare(self, stack, folder):
        """What else has to be there before cameras and players come."""

    def settles(self, seconds=SETTLES):
        """Whether all pictures are there within this time."""
        return until(seconds, lambda: time.sleep(0.3) or not self.fleet.report().dark())

    def mark(self):
        self.watch.taken()
        self.fleet.say("mark")

    def row(self, what, names=frozenset(), twice_for=TWICE, without=0, has_ended=False):
        """A row about what was counted since the mark, in which these names were away. Keeps what must not be: as many players may be without a
        picture, and if the mount has ended on an edge, the edge may answer 404."""
        found, twice = self.fleet.report(), self.watch.taken()
        away, others = found.of(names), found.of(names, False)
        median, longest = fleet.backs(away)
        ends, missing, dark = sum(it["closes"] for it in others), found.refused_live(), found.dark()
        cells = (what, len(names), len(away), f"{median:.1f} s, {longest:.1f} s" if names else "", dark, fleet.lost(others), ends, missing,
                 f"{len(twice)}, {max(twice.values()):.1f} s" if twice else 0)
        self.print_row(HEAD, cells)
        wrong = {"players without a picture": max(0, dark - without), "packets lost by others": fleet.lost(others), "ends of others": ends,
                 "404s of live mounts": 0 if has_ended else missing, "names on two relays": sum(it > twice_for for it in twice.values())}
        self.faults += [f"{what}: {count} {word}" for word, count in wrong.items() if count]
        return found

    def print_row(self, head, cells):
        """Prints a row of a table, whose head comes before its first row."""
        if self.head != head:
            print(f"{head}\n|{'---|' * (head.count('|') - 1)}", flush=True)
            self.head = head
        print(f"| {' | '.join(map(str, cells))} |", flush=True)

    def note(self, text):
        """Prints a line below a table, and keeps it."""
        print(f"    {text}", flush=True)
        self.head = None
        self.notes.append(text)

    def asked(self, what, may_fail=True):
        """A line about the peers that asked for mounts meanwhile."""
        it = self.fleet.report().asked
        failed = it["closed"] + it["other"]
        if failed and not may_fail:
            self.faults.append(f"{failed} requests got no reply, or another status")
        counts = f"{it['ok']} got 200, {it['missing']} 404, {it['other']} another status, {it['closed']} no reply"
        self.note(f"{what}: {counts}; slowest {it['slowest'] / 1000:.1f} s")


def is_down(cluster, relay):
    """Waits until HAProxy has marked a relay down."""
    if not until(30, lambda: not cluster.proxy.is_up(relay.name)):
        cluster.faults.append(f"{relay.name} isn't marked down")


def is_up(cluster, relay):
    """Waits until HAProxy has marked a relay up."""
    if not until(30, lambda: cluster.proxy.is_up(relay.name)):
        cluster.faults.append(f"{relay.name} isn't marked up")


def kill(cluster):
    """One relay is ended by KILL."""
    relay = cluster.relays[0]
    names = cluster.watch.of(relay.name)
    cluster.mark()
    relay.kill()
    time.sleep(3)
    cluster.settles()
    cluster.row("KILL of one relay", names)


def back(cluster):
    """A relay that was killed is back after a minute. Other peers ask for mounts meanwhile and then."""
    relay = cluster.relays[0]
    names = cluster.watch.of(relay.name)
    relay.kill()
    time.sleep(3)
    cluster.settles()
    cluster.mark()
    cluster.fleet.say("ask 100")
    time.sleep(cluster.load.minute)
    relay.start()
    is_up(cluster, relay)
    time.sleep(10)
    cluster.row("the same relay is back after a minute")
    cluster.asked(f"asked meanwhile, {len(names)} names of {cluster.load.mounts} are away from their first relay")
    if cluster.watch.of(relay.name):
        cluster.faults.append(f"{len(cluster.watch.of(relay.name))} mounts on a relay that was just started")


def stop(cluster):
    """One relay is stopped by SIGSTOP for a minute, and goes on."""
    relay = cluster.relays[0]
    names = cluster.watch.of(relay.name)
    cluster.mark()
    relays.stopped(relay)
    try:
        time.sleep(cluster.load.minute)
        cluster.row("SIGSTOP of one relay for a minute", names)
        cluster.mark()
        cluster.fleet.say("ask 100")
    finally:
        relays.resumed(relay)
    is_up(cluster, relay)
    time.sleep(10)
    cluster.row("SIGCONT of it")
    cluster.asked("asked meanwhile")


def cut(cluster):
    """The link of one relay is cut for a minute: no reset comes."""
    relay = cluster.relays[0]
    names = cluster.watch.of(relay.name)
    cluster.mark()
    cluster.net.cut(relay.name)
    time.sleep(cluster.load.minute)
    cluster.row("the link of one relay is cut for a minute", names)
    cluster.mark()
    cluster.fleet.say("ask 100")
    cluster.net.mend(relay.name)
    is_up(cluster, relay)
    time.sleep(10)
    cluster.row("the link is there again", twice_for=CUT_OFF)
    cluster.asked("asked meanwhile")


def short_cut(cluster):
    """The link of one relay is cut until it is marked down: its own mounts live on when it is reached again."""
    relay = cluster.relays[0]
    names = cluster.watch.of(relay.name)
    cluster.mark()
    cluster.net.cut(relay.name)
    is_down(cluster, relay)
    cluster.net.mend(relay.name)
    cluster.fleet.say("ask 100")
    is_up(cluster, relay)
    time.sleep(3)
    cluster.settles()
    cluster.row("the link of one relay is cut until it is marked down", names, CUT_OFF)
    cluster.asked("asked meanwhile")


def full_mounts(cluster):
    """Other cameras take the mounts of a relay that are left, up to 64."""
    relay = cluster.relays[0]
    count, downs = 64 - len(cluster.watch.of(relay.name)), cluster.proxy.downs()
    cluster.mark()
    with cluster.net.on("clients"), contextlib.ExitStack() as stack:
        direct = relay.place()
        for place in range(count):
            stack.enter_context(Camera(direct, f"own-{place}"))
        status = stack.enter_context(Peer(direct)).ask("ANNOUNCE", "rtsp://h/more", body=b"v=0\r\nm=video 0 RTP/AVP 96\r\n").status
        time.sleep(15)
    if status != 503:
        cluster.faults.append(f"the relay has another place: ANNOUNCE gets {status}")
    cluster.row(f"a relay with its 64 mounts taken for 15 s (another ANNOUNCE gets {status})")
    is_taken_for_dead(cluster, downs)


def full_connections(cluster):
    """Other clients take the connections of a relay that are left, up to 1,024."""
    relay, held, downs = cluster.relays[0], [], cluster.proxy.downs()
    cluster.mark()
    with cluster.net.on("clients"), contextlib.ExitStack() as stack:
        direct = relay.place()
        for _ in range(1_100):
            peer = stack.enter_context(Peer(direct))
            peer.send(OPTIONS)
            if (reply := peer.reply()) is None or reply.status != 200:
                break
            held.append(peer)
        end, refused = time.monotonic() + 15, []
        while time.monotonic() < end:
            with Peer(direct) as peer, contextlib.suppress(OSError):
                reply = peer.reply()
                refused.append(reply.status if reply else 0)
            time.sleep(0.5)
    if set(refused) != {503}:
        cluster.faults.append(f"the relay had places: others got {sorted(set(refused))}")
    cluster.row(f"a relay with its 1,024 connections taken for 15 s ({len(held)} by others, {len(refused)} more get 503)")
    is_taken_for_dead(cluster, downs)


def is_taken_for_dead(cluster, downs):
    if cluster.proxy.downs() != downs:
        cluster.faults.append("a full relay is marked down")


def unknown(cluster):
    """Many names are asked for that no camera has."""
    used, memory, downs, begun = cluster.proxy.used(), cluster.proxy.memory(), cluster.proxy.downs(), time.monotonic()
    cluster.mark()
    cluster.fleet.say(f"unknown {cluster.load.unknown}")
    cluster.fleet.waits_for("unknown done", 60 + cluster.load.unknown / 100)
    took = time.monotonic() - begun
    cluster.row(f"{cluster.load.unknown:,} unknown names asked for in {took:.0f} s")
    cluster.asked("they", may_fail=False)
    cluster.note(f"names in the table: {used} before, {cluster.proxy.used()} after")
    cluster.note(f"memory of HAProxy: {memory:.0f} MB before, {cluster.proxy.memory():.0f} MB after")
    if cluster.proxy.used() != used:
        cluster.faults.append("unknown names are in the table")
    if cluster.proxy.downs() != downs:
        cluster.faults.append("a relay was marked down meanwhile")


TRIALS = kill, back, stop, cut, short_cut, full_mounts, full_connections, unknown
