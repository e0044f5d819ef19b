"""What happens without each directive of dist/haproxy.cfg: a run of one trial for each, on a configuration without it."""
import dataclasses
import time

import names
import procedures
import relays
import singles
import trials
from trials import is_up


def pause(cluster):
    """A relay is busy: it answers nothing for 5 seconds."""
    downs, away = cluster.proxy.downs(), cluster.watch.of(cluster.relays[0].name)
    cluster.mark()
    relays.stopped(cluster.relays[0])
    time.sleep(5)
    relays.resumed(cluster.relays[0])
    time.sleep(5)
    cluster.row("a relay that answers nothing for 5 s", away)
    if cluster.proxy.downs() != downs:
        cluster.faults.append("a busy relay is marked down, and all its connections are closed")


def reload_cut(cluster):
    """HAProxy is reloaded, and then the link of a relay is cut: the old process, which has all sessions, checks no relay."""
    relay = cluster.relays[0]
    cluster.proxy.reload()
    time.sleep(12)
    away = cluster.watch.of(relay.name)
    cluster.mark()
    cluster.net.cut(relay.name)
    time.sleep(40)
    cluster.row("the link of a relay is cut after a reload", away)


def reorder(cluster):
    """The second relay is taken out of the configuration: only its own names may move."""
    found = [f"new-{it:03d}" for it in range(200)]
    before = named(cluster, names.servers_of(cluster, found))
    cluster.proxy.reload(procedures.without(cluster.text, "relay2"))
    time.sleep(12)
    cluster.proxy.ask("clear table relays")
    after = named(cluster, names.servers_of(cluster, found))
    moved = sum(before[it] != after.get(it) for it in found if before[it] != "relay2")
    cluster.note(f"{moved} of {sum(it != 'relay2' for it in before.values())} names of other relays have moved")
    if moved:
        cluster.faults.append(f"{moved} names of other relays move, too")


def named(cluster, table):
    """The server of each name, by the server's name."""
    by_id = {int(row["sid"]): server for (backend, server), row in cluster.proxy.stat().items() if backend == "relays" and server.startswith("relay")}
    return {it: by_id[server] for it, server in table.items()}


def late(cluster):
    """A relay that was killed is back after a minute in which no player asks for its names. Then players come late."""
    relay = cluster.relays[0]
    relay.kill()
    time.sleep(3)
    cluster.settles()
    time.sleep(cluster.load.minute)
    cluster.mark()
    relay.start()
    is_up(cluster, relay)
    cluster.fleet.say("ask 100")
    time.sleep(5)
    cluster.row("late players, after the relay is back")
    cluster.asked("asked then")


def ports(cluster, reuse=1):
    """Many unknown names are asked for, while the proxy has 3,000 ports for connections to a relay and not 28,000. A port is free again after a
    second: the names are asked for as fast as they have replies, some thousands a second at four relays."""
    cluster.net.set("proxy", f"net.ipv4.tcp_tw_reuse={reuse}")
    cluster.net.set("proxy", "net.ipv4.ip_local_port_range=32768 35767")
    cluster.load = dataclasses.replace(cluster.load, unknown=24_000)
    trials.unknown(cluster)


def used_up_ports(cluster):
    """The same with the default of Linux for ports that were used."""
    ports(cluster, 2)


def kill_moved(cluster):
    """A relay is ended by KILL that has names of another one, which is up again."""
    procedures.moved_away(cluster, cluster.relays[0])
    relay = cluster.relays[1]
    away = cluster.watch.of(relay.name)
    cluster.mark()
    relay.kill()
    time.sleep(3)
    cluster.settles()
    cluster.row("KILL of a relay that has names of another one", away)


# These are run with the whole configuration too. `reload` has the case of `kill_moved`.
TRIALS = pause, reload_cut, reorder, late, ports


@dataclasses.dataclass
class Without:
    """A directive, what is put in place of which text, and the trial that is run then."""

    directive: str
    changes: tuple
    trial: object

    def text(self, text):
        """The configuration without it. A change is a text and what is put in its place; lines that are emptied are left out."""
        for old, new in self.changes:
            if old not in text:
                raise AssertionError(f"{self.directive}: {old!r} isn't in the configuration")
            text = text.replace(old, new)
        return text


STICK = ("    stick match var(txn.name)\n", ""), ("    stick store-request var(txn.name) if { so_name -m beg cameras }\n", "")
WAIT = ("    tcp-request content accept unless is_new\n    tcp-request content accept if WAIT_END\n", "")
STOPPING = ("    tcp-request content reject if { stopping }\n", "")
STRIPPED = ''',regsub("[?#].*",""),regsub("^rtsps?:(//[^/]*)?/?","",i),regsub("/$",""),regsub("/trackID=[0-9]+$","")'''

ALL = [
    Without("`id` of servers", tuple((f" id {it} ", " ") for it in range(1, 5)), reorder),
    Without("the name less query, slash and `/trackID=k`", ((STRIPPED, ',regsub("^rtsps?:(//[^/]*)?/?","",i)'),), names.forms),
    Without("`hash-type consistent`", (("    hash-type consistent\n", ""),), reorder),
    Without("`balance hash` (`leastconn`)", (("balance hash var(txn.name)", "balance leastconn"), ("    hash-type consistent\n", "")), trials.kill),
    Without("`stick match` and `stick store-request`", STICK, late),
    Without("the table written by cameras alone", ((" if { so_name -m beg cameras }\n    # After a reload", "\n    # After a reload"),), trials.unknown),
    Without("no `expire` (with `expire 10s`)", ((" size 100k peers", " size 100k expire 10s peers"),), late),
    Without("`peers` with itself", ((" peers haproxies\n    stick", "\n    stick"),), procedures.reload),
    Without("the wait for the table, and `reject if { stopping }`", (WAIT, STOPPING), procedures.reload),
    Without("no `redispatch`, no retries", (("no option redispatch", "option redispatch 1"), ("retries 0", "retries 3")), kill_moved),
    Without("`on-marked-down shutdown-sessions`", ((" on-marked-down shutdown-sessions", ""),), trials.cut),
    Without("`maxconn` of servers", ((" maxconn 900 ", " "),), names.crowd),
    Without("`timeout queue`", (("    timeout queue 3s\n", ""),), names.crowd),
    Without("`timeout check`", (("    timeout check 3s\n", ""),), pause),
    Without("503 as an answer of the check", (("(200|503)", "200"),), trials.full_connections),
    Without("`option tcp-check`", (("    option tcp-check\n", ""), ('    tcp-check connect default linger\n', ""),
                                   ('    tcp-check send "OPTIONS * RTSP/1.0\\r\\nCSeq: 1\\r\\n\\r\\n"\n', ""),
                                   ('    tcp-check expect min-recv 13 rstring "^RTSP/1\\.0 (200|503) "\n', "")), trials.stop),
    Without("`clitcpka` 10 s, 5 s, 2", (("    option clitcpka\n", ""),), singles.cuts),
    Without("`tcp-ut 20s` of `bind`", (("tcp-ut 20s\n    bind", "\n    bind"), ("name players tcp-ut 20s", "name players")), singles.stalls),
    Without("`srvtcpka`, and `tcp-ut 20s` of servers", (("    option srvtcpka\n", ""), *((f"id {it} tcp-ut 20s", f"id {it}") for it in range(1, 5))), reload_cut),
    Without("`tune.sndbuf.client`", (("    tune.sndbuf.client 262144\n", ""),), singles.lag),
    Without("`tune.rcvbuf.server`", (("    tune.rcvbuf.server 131072\n", ""),), singles.lag),
    Without("`timeout tunnel` of an hour (30 s)", (("timeout tunnel 1h", "timeout tunnel 30s"),), singles.silent),
    Without("`splice-auto`", (("    option splice-auto\n", ""),), singles.cost),
    Without("net.ipv4.tcp_tw_reuse = 1", (), used_up_ports),
    Without("`send-proxy-v2`", ((" send-proxy-v2\n    # The hash", "\n    # The hash"),), names.addresses),
    Without("`weight 100`", ((" weight 100", ""),), names.spread),
]
