"""Trials of what a name is, which relay it falls to, and what a relay knows of the clients that HAProxy sends it."""
import concurrent.futures
import pathlib
import subprocess
import tempfile
import time

import proxy
from net import PROXY, RELAYS
from peers import OPTIONS, Camera, Peer, Player, until, wanted
from singles import CAMERAS, PLAYERS, announces, place, places
from trials import Cluster

TOOL = pathlib.Path(__file__).resolve().parent.parent / "try-clients"


def asks(players, request, spoken=b""):
    """The status of the reply to a request, or 0, after how many seconds, and the connection."""
    begun = time.monotonic()
    peer = Peer(players)
    peer.send(spoken or request)
    try:
        reply = peer.reply()
    except OSError:
        reply = None
    return reply.status if reply else 0, time.monotonic() - begun, peer


def crowd(cluster):
    """1,100 others connect for a mount of one relay, through HAProxy. A camera connects to the relay itself meanwhile."""
    relay = cluster.relays[0]
    names = sorted(cluster.watch.of(relay.name))
    request = f"OPTIONS rtsp://h/{names[0]} RTSP/1.0\r\nCSeq: 1\r\n\r\n".encode()
    cluster.mark()
    with cluster.net.on("clients"):
        found = []
        for _ in range(11):
            # A thread is of the namespace of the one that starts it.
            with concurrent.futures.ThreadPoolExecutor(100) as pool:
                found += pool.map(lambda _: asks(place(PROXY, PLAYERS), request), range(100))
        has_room = announces(place(RELAYS[0], 8554), "direct")
        # The page has the counts of a second ago.
        time.sleep(2)
        refused = relay.status()["server"]["refused_connections"]["full"]
        for *_, peer in found:
            peer.close()
    served = [took for status, took, _ in found if status == 200]
    waited = [took for status, took, _ in found if status == 0]
    cluster.note(f"1,100 connections for one relay: {len(served)} served, {len(waited)} closed after {max(waited, default=0):.1f} s at most, "
                 f"{sum(status == 503 for status, *_ in found)} got 503; the relay refused {refused}; a camera can connect directly: {has_room}")
    if refused or not has_room:
        cluster.faults.append(f"the relay has no connection left: it refused {refused}")
    if not waited or not 2.5 < max(waited) < 4:
        cluster.faults.append(f"{len(waited)} connections have waited, {max(waited, default=0):.1f} s at most")
    cluster.row("1,100 connections for one relay")


def servers_of(cluster, names):
    """Asks on the cameras' port for names. The id of each name's server by the table."""
    with cluster.net.on("clients"):
        for it in names:
            asks(place(PROXY, CAMERAS), f"OPTIONS rtsp://h/{it} RTSP/1.0\r\nCSeq: 1\r\n\r\n".encode())[2].close()
    return cluster.proxy.table()


def spread(cluster):
    """How even the parts of the relays are."""
    names = [f"cam-{it:03d}" for it in range(200)]
    found = list(servers_of(cluster, names).values())
    counts = [found.count(it) for it in range(1, 5)]
    most = max(counts) * 4 / sum(counts)
    cluster.note(f"200 names fall {', '.join(map(str, counts))}: the most of them is {most:.2f} of the mean")
    if most > 1.3:
        cluster.faults.append(f"a relay has {most:.2f} times the mean of the names")


FORMS = ("DESCRIBE rtsp://h/{}", "DESCRIBE rtsp://user:word@h:554/{}", "DESCRIBE RTSP://h/{}/", "DESCRIBE rtsp://h/{}?query=/x", "DESCRIBE rtsp:/{}",
         "SETUP rtsp://h/{}/trackID=0", "DESCRIBE rtsp://h/{}#part", "GET_PARAMETER rtsp://h/{}")


# First lines without a name.
NAMELESS = (OPTIONS, 200), (b"OPTIONS rtsp://h RTSP/1.0\r\nCSeq: 1\r\n\r\n", 200), (b"?\r\n\r\n", 400), (b"GET rtsp:/" + b"x" * 9_000, 413)


def forms(cluster):
    """Every form of a URL that names a mount comes to its relay, also in a request that comes byte by byte."""
    wrong = set()
    with cluster.net.on("clients"):
        for number in range(min(cluster.load.mounts, 12)):
            for text in FORMS:
                request = f"{text.format(f'cam-{number:03d}')} RTSP/1.0\r\nCSeq: 1\r\nTransport: RTP/AVP/TCP;interleaved=0-1\r\n\r\n".encode()
                status, _, peer = asks(place(PROXY, PLAYERS), request)
                peer.close()
                if status != 200:
                    wrong.add(f"{text}: {status}")
            with Peer(place(PROXY, PLAYERS)) as peer:
                for it in request:
                    peer.send(bytes([it]))
                wanted(peer.reply())
        nameless = [(asks(place(PROXY, port), text)[0], status) for port in (CAMERAS, PLAYERS) for text, status in NAMELESS]
    cluster.note(f"{len(FORMS)} forms of each name: {', '.join(sorted(wrong)) or 'each comes to its relay'}; without a name: {nameless}")
    cluster.faults += sorted(wrong) + [f"without a name: {got}, and not {due}" for got, due in nameless if got != due]


def shown(cluster, mount):
    """The publisher's address and its players' on the relays' pages."""
    pages = [page for it in cluster.relays if (page := it.status())]
    publishers = [row["publisher"] for page in pages for row in page["recorded"] if row["name"] == mount]
    return publishers, [row["peer"] for page in pages for row in page["players"] if row["mount"] == mount]


def addresses(cluster):
    """A relay knows the addresses of its clients, and not HAProxy's."""
    cameras, players = places(False)
    with cluster.net.on("far"), Camera(cameras, "named") as camera, cluster.net.on("clients"), Player(players, "named") as player:
        wanted_rows = [camera.name()], [player.name()]
        until(5, lambda: shown(cluster, "named") == wanted_rows)
        found = shown(cluster, "named")
    cluster.note(f"a camera of {wanted_rows[0][0]} and a player of {wanted_rows[1][0]} are {found[0]} and {found[1]} for their relay")
    if found != wanted_rows:
        cluster.faults.append("a relay doesn't know the addresses of its clients")


def real_clients(cluster):
    """The clients that are installed publish and play, by tools/try-clients."""
    words = [*cluster.net.command("clients"), str(TOOL), f"{PROXY}:{CAMERAS}", f"{PROXY}:{PLAYERS}"]
    done = subprocess.run(words, capture_output=True, text=True, timeout=600)
    for line in done.stdout.splitlines():
        cluster.note(line)
        if "nothing in" in line or "can't publish" in line or "RTSP/1.0" in line and " 200 " not in line:
            cluster.faults.append(line)
    if done.returncode or not done.stdout:
        cluster.faults.append(f"try-clients: {done.stderr[-300:]}")


class Tls(Cluster):
    """The cluster with the ports for RTSPS, by a certificate that nobody has signed."""

    def __init__(self, load):
        self.files = tempfile.TemporaryDirectory()
        pem, text = f"{self.files.name}/tls.pem", proxy.config().replace("    #bind :83", "    bind :83")
        make = "openssl req -x509 -newkey rsa:2048 -nodes -days 2 -subj /CN=relays -keyout {0} -out {0}.crt && cat {0}.crt >> {0}"
        subprocess.run(make.format(pem), shell=True, check=True, capture_output=True)
        super().__init__(load, text.replace("/etc/haproxy/FILE", pem))


def tls(cluster):
    """GStreamer publishes and plays by RTSPS. ffmpeg gets 400, since the relay takes no URL of `rtsps:`."""
    raw, here = "video/x-raw,width=320,height=240,framerate=25/1", cluster.net.command("clients")
    source = f"videotestsrc is-live=true ! {raw} ! x264enc tune=zerolatency key-int-max=25"
    camera = f"gst-launch-1.0 -q {source} ! rtspclientsink protocols=tcp tls-validation-flags=0 location=rtsps://{PROXY}:8323/tls"
    player = f"gst-launch-1.0 -q rtspsrc location=rtsps://{PROXY}:8322/tls protocols=tcp tls-validation-flags=0 ! rtph264depay ! fdsink"
    ffmpeg = f"ffmpeg -nostdin -loglevel error -rtsp_transport tcp -i rtsps://{PROXY}:8322/tls -t 3 -f null -"
    feed = subprocess.Popen([*here, *camera.split()], stdout=subprocess.DEVNULL, stderr=subprocess.DEVNULL)
    try:
        is_live = until(15, lambda: any("tls" in cluster.watch.of(it.name) for it in cluster.relays) or time.sleep(0.2))
        played = subprocess.run(["timeout", "8", *here, *player.split()], capture_output=True).stdout
        refused = subprocess.run([*here, *ffmpeg.split()], capture_output=True, text=True, timeout=30).stderr
    finally:
        feed.kill()
        feed.wait()
    cluster.note(f"by RTSPS GStreamer publishes: {is_live}; plays {len(played)} bytes; ffmpeg: {refused.strip()[:80]}")
    if not is_live or len(played) < 10_000 or "400 Bad Request" not in refused:
        cluster.faults.append("RTSPS isn't as docs/SCALING.md says")


TRIALS = [(Cluster, it) for it in (crowd, spread, forms, addresses, real_clients)] + [(Tls, tls)]
