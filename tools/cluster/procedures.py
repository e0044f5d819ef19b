"""Trials of what is done to a cluster: HAProxy is reloaded, relays are upgraded, added and taken out, and a second HAProxy takes over."""
import pathlib
import subprocess
import time

import names
import proxy
from net import FIRST, PROXY, SECOND
from peers import until
from trials import Cluster, is_down, is_up

VRRP = proxy.CONFIG.parent / "keepalived.conf"

# How long pictures may be away after a takeover, in seconds: a relay keeps the name of a camera that it can't reach for 20 seconds.
TAKEOVER = 40


def upgrade(cluster):
    """Each relay is stopped and started anew, one after the other."""
    for relay in cluster.relays:
        away = cluster.watch.of(relay.name)
        cluster.mark()
        relay.stop()
        relay.start()
        time.sleep(3)
        is_up(cluster, relay)
        cluster.settles()
        cluster.row(f"upgrade of {relay.name}", away)


def moved_away(cluster, relay):
    """Names of a relay move to others, and the relay is there again. The names."""
    away = cluster.watch.of(relay.name)
    relay.kill()
    is_down(cluster, relay)
    time.sleep(1)
    cluster.settles()
    relay.start()
    is_up(cluster, relay)
    return away


def reload(cluster):
    """HAProxy is reloaded a second and a minute after names were moved; then a relay is killed that the old processes have sessions to."""
    if not moved_away(cluster, cluster.relays[0]):
        cluster.faults.append("no name has moved")
    for seconds, what in (1, "a second"), (cluster.load.minute, "a minute"):
        time.sleep(seconds)
        cluster.mark()
        cluster.fleet.say("ask 500")
        cluster.proxy.reload()
        time.sleep(10)
        cluster.row(f"a reload {what} after names have moved")
        cluster.asked("asked meanwhile", may_fail=False)
    cluster.fleet.say("ask 0")
    cluster.note(f"processes of HAProxy: {len(cluster.proxy.workers())}")
    if len(cluster.proxy.workers()) < 2:
        cluster.faults.append("no old process of HAProxy has sessions")
    relay = cluster.relays[1]
    away = cluster.watch.of(relay.name)
    cluster.mark()
    relay.kill()
    time.sleep(3)
    cluster.settles()
    cluster.row("KILL of a relay to which an old process has sessions", away)


def without(text, server):
    """The configuration without a server."""
    return "".join(line for line in text.splitlines(True) if not line.strip().startswith(f"server {server} "))


class Three(Cluster):
    """The cluster whose fourth relay runs, and isn't in the configuration of HAProxy yet."""

    def __init__(self, load):
        super().__init__(load, without(proxy.config(), "relay4"))


def added(cluster):
    """A fourth relay is added, while other peers ask for mounts: each live mount stays where it is, and new names come to it."""
    before = {it.name: cluster.watch.of(it.name) for it in cluster.relays}
    cluster.mark()
    cluster.fleet.say("ask 100")
    cluster.proxy.reload(proxy.config())
    time.sleep(15)
    cluster.row("a fourth relay is added")
    cluster.asked("asked meanwhile", may_fail=False)
    if {it.name: cluster.watch.of(it.name) for it in cluster.relays} != before:
        cluster.faults.append("mounts have moved")
    found = names.servers_of(cluster, [f"new-{it:03d}" for it in range(100)])
    count = sum(server == 4 for name, server in found.items() if name.startswith("new-"))
    cluster.note(f"mounts on each relay: {list(cluster.watch.count().values())}; of 100 new names {count} fall to the fourth")
    if not count:
        cluster.faults.append("no name falls to the added relay")


def taken_out(cluster):
    """A relay is taken out: maintenance, then it is stopped."""
    take_out(cluster, "relay1 is taken out")


def taken_out_late(cluster):
    """The same after a reload: the old process has the relay's sessions."""
    cluster.proxy.reload()
    time.sleep(12)
    take_out(cluster, "relay1 is taken out after a reload")


def take_out(cluster, what):
    relay = cluster.relays[0]
    away = cluster.watch.of(relay.name)
    cluster.mark()
    cluster.fleet.say("ask 100")
    # At once: an old process keeps its sessions, and new players are sent elsewhere by now.
    cluster.proxy.ask(f"set server relays/{relay.name} state maint")
    relay.stop()
    time.sleep(3)
    cluster.settles()
    cluster.row(what, away)
    cluster.asked("asked meanwhile")


def brought_back(cluster):
    """Names that were moved are brought back to their first relay: the table is emptied, and all connections are closed."""
    relay = cluster.relays[0]
    away = moved_away(cluster, relay)
    cluster.mark()
    cluster.proxy.ask("clear table relays")
    for it in cluster.relays:
        cluster.proxy.ask(f"shutdown sessions server relays/{it.name}")
    time.sleep(3)
    cluster.settles()
    cluster.row(f"the names of {relay.name} are brought back to it", set().union(*(cluster.watch.of(it.name) for it in cluster.relays)))
    if cluster.watch.of(relay.name) != away:
        cluster.faults.append(f"{relay.name} has {sorted(cluster.watch.of(relay.name))}, and not {sorted(away)}")


class Keepalived:
    """keepalived with dist/keepalived.conf on a machine with HAProxy."""

    def __init__(self, net, machine, priority, folder):
        path = pathlib.Path(f"{folder}/{machine}.keepalived")
        path.write_text(VRRP.read_text(encoding="utf-8").replace("priority 101", f"priority {priority}"), encoding="utf-8")
        words = [*net.command(machine), "keepalived", "-n", "-l", "-P", "-f", path, "-p", f"{path}.pid", "-r", f"{path}.vrrp"]
        self.process = subprocess.Popen([*map(str, words)], stdout=subprocess.DEVNULL, stderr=subprocess.DEVNULL)

    def end(self):
        self.process.terminate()
        self.process.wait()


class Pair(Cluster):
    """The cluster with a second HAProxy on a machine of its own, which has the table of the first one, and keepalived on both."""

    def __init__(self, load):
        text = proxy.config().replace("127.0.0.1:10000", f"{FIRST}:10000")
        super().__init__(load, text.replace("#peer haproxy2 10.0.0.3:10000", f"peer haproxy2 {SECOND}:10000"))

    def prepare(self, stack, folder):
        text = self.text.replace("localpeer haproxy1", "localpeer haproxy2")
        self.second = stack.enter_context(proxy.Proxy(self.net, folder, text, "proxy2"))
        self.net.ip("proxy", f"addr del {PROXY}/24 dev eth0")
        for machine, priority in ("proxy", 101), ("proxy2", 100):
            stack.callback(Keepalived(self.net, machine, priority, folder).end)
            if not until(15, lambda: self.serves("proxy") or time.sleep(0.2)):
                raise AssertionError("keepalived gives the first machine no address")

    def serves(self, machine):
        """Whether a machine has the address that clients connect to."""
        words = ["ip", "-n", self.net.head + machine, "-4", "-o", "addr", "show", "dev", "eth0"]
        return f"{PROXY}/" in subprocess.run(words, capture_output=True, text=True).stdout


def takes_over(cluster, what, fails):
    """The first HAProxy fails, and the second one gets its address."""
    away = set().union(*(cluster.watch.of(it.name) for it in cluster.relays))
    same = cluster.second.table() == cluster.proxy.table()
    cluster.mark()
    fails()
    if not until(10, lambda: cluster.serves("proxy2") or time.sleep(0.1)):
        cluster.faults.append("the second HAProxy doesn't get the address")
    time.sleep(3)
    cluster.settles(TAKEOVER)
    cluster.row(what, away)
    cluster.note(f"the second HAProxy had the same table: {same}")
    if not same:
        cluster.faults.append("the second HAProxy has another table")


def lost_process(cluster):
    """The first HAProxy is ended by KILL."""
    takes_over(cluster, "HAProxy is ended by KILL; a second one takes over by keepalived", cluster.proxy.kill)


def lost_machine(cluster):
    """The machine of the first HAProxy is cut off."""
    takes_over(cluster, "HAProxy's machine is cut off; a second one takes over by keepalived", lambda: cluster.net.cut("proxy"))


def half_blind(cluster):
    """The second HAProxy alone loses sight of a relay. Nobody is sent through it meanwhile."""
    relay = cluster.relays[0]
    cluster.mark()
    cluster.fleet.say("ask 100")
    cluster.net.ip("proxy2", f"route add blackhole {relay.address}/32")
    time.sleep(10)
    cluster.row("the second HAProxy, which has no clients, loses sight of a relay")
    cluster.asked("asked through the first one meanwhile", may_fail=False)
    cluster.note(f"the relay is up for the first: {cluster.proxy.is_up(relay.name)}, for the second: {cluster.second.is_up(relay.name)}")
    away = sorted(cluster.watch.of(relay.name))[:20]
    with cluster.net.on("clients"):
        found = [names.asks(names.place(SECOND, names.PLAYERS), f"DESCRIBE rtsp://h/{it} RTSP/1.0\r\nCSeq: 1\r\n\r\n".encode())[0] for it in away]
    cluster.note(f"{len(away)} names of that relay asked for through the second: {found.count(200)} got 200, {found.count(404)} 404")


TRIALS = ((Cluster, upgrade), (Cluster, reload), (Three, added), (Cluster, taken_out), (Cluster, taken_out_late), (Cluster, brought_back), (Pair, lost_process), (Pair, lost_machine), (Pair, half_blind))
