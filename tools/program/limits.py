"""Limits: which peers may publish and play, how much an address may have, how long a publisher may be silent, and how fast peers are
read."""
import collections
import concurrent.futures
import contextlib
import re
import shutil
import socket
import subprocess
import sys
import threading
import time

from leaving import FULL, is_closed, waiting
from peers import MODES, SDP, Camera, Frame, Peer, Player, ending, ends_told, frame, leave_out, packet, serving, until, wanted
from refusals import A_SECOND, NOT_TOLD, counted, refused

# Source addresses of clients, by what NETWORKS let them do.
PUBLISHER, PLAYER, BOTH, NEITHER = "127.0.1.1", "127.0.2.255", "127.0.3.1", "127.0.3.2"

NETWORKS = "--publish-from", "127.0.1.0/24,127.0.3.1", "--play-from", "127.0.3.1/32,127.0.2.128/25"

TCP = "Transport: RTP/AVP/TCP;interleaved=0-1"

# Requests, and their statuses for those four. The last ones would fail a check of the book if they weren't refused before.
MAY = (
    ("OPTIONS", "cam", (), b"", (200, 200, 200, 200)),
    ("ANNOUNCE", "new-{}-{}", (), SDP, (200, 403, 200, 403)),
    ("DESCRIBE", "cam", (), b"", (403, 200, 200, 403)),
    ("SETUP", "cam/trackID=0", (TCP,), b"", (403, 200, 200, 403)),
    ("PLAY", "cam", (), b"", (454, 454, 454, 454)),
    ("RECORD", "cam", (), b"", (454, 454, 454, 454)),
    ("TEARDOWN", "cam", (), b"", (454, 454, 454, 454)),
    ("ANNOUNCE", "cam", (), SDP, (403, 403, 403, 403)),
    ("ANNOUNCE", "new-{}-{}", (), b"HELLO", (400, 403, 400, 403)),
    ("ANNOUNCE", "new-{}-{}", ("Content-Type: text/plain",), SDP, (415, 403, 415, 403)),
    ("DESCRIBE", "nothing", (), b"", (403, 404, 404, 403)),
    ("DESCRIBE", "cam", ("Accept: text/plain",), b"", (403, 406, 406, 403)),
    ("SETUP", "nothing", (TCP,), b"", (403, 404, 404, 403)),
    ("SETUP", "cam/trackID=0", ("Transport: RTP/AVP;unicast;client_port=5000-5001",), b"", (403, 461, 461, 403)),
    ("SETUP", "cam/trackID=0", (TCP, "Session: 0123456789abcdef"), b"", (403, 454, 454, 403)),
)


def is_answered(peer, status, method, path, *fields, body=b""):
    """Yields what is wrong if a request isn't answered with this status and its CSeq, or if the connection doesn't go on after it."""
    reply = peer.ask(method, f"rtsp://h/{path}", *fields, body=body)
    if (reply and reply.status, reply and reply.field("CSeq")) != (status, "1"):
        yield f"{peer.name()} asks {method} of {path} with {fields}: {reply}, and not {status}"
    elif peer.ask("OPTIONS", "*").status != 200:
        yield f"{peer.name()} gets no OPTIONS after {method} of {path} with {fields}"


def networks_say_who_may(program):
    """Each request is answered by its peer's address: 403 comes after which the connection goes on, and before all that the book checks."""
    count = 0
    with ending(program, 1 + len(MAY) * 4, *NETWORKS) as server, Camera(server, source=BOTH):
        for place, (method, path, fields, body, statuses) in enumerate(MAY):
            for source, status in zip((PUBLISHER, PLAYER, BOTH, NEITHER), statuses):
                count += status == 403 and path.startswith("cam")
                with Peer(server, source) as peer:
                    yield from is_answered(peer, status, method, path.format(place, source), *fields, body=body)
    if (reported := refused(server).get((403, "cam"), (0, ""))[0]) != count:
        yield f"of {count} requests of cam that are refused 403, {reported} are reported: {server.lines}"


# A request that fails a check which looks at nothing but the request, by its status; then one that fails none. `{}` is for the method.
CHECKS = (
    (400, "{} rtsp://h/cam RTSP/1.0\r\n"),
    (505, "{} rtsp://h/cam RTSP/2.0\r\nCSeq: 5\r\n"),
    (501, "{}S rtsp://h/cam RTSP/1.0\r\nCSeq: 5\r\n"),
    (551, "{} rtsp://h/cam RTSP/1.0\r\nCSeq: 5\r\nRequire: funky-feature\r\n"),
    (400, "{} http://h/cam RTSP/1.0\r\nCSeq: 5\r\n"),
    (400, "{} * RTSP/1.0\r\nCSeq: 5\r\n"),
    (403, "{} rtsp://h/cam RTSP/1.0\r\nCSeq: 5\r\n"),
)


def checks_of_the_request_come_first(program):
    """403 comes after the checks of CSeq, version, method, Require and URI, for the methods that a peer may not use; its reply has the
    request's CSeq."""
    with serving(program, *NETWORKS) as server, Camera(server, source=BOTH), Peer(server, NEITHER) as peer:
        for method in "ANNOUNCE", "DESCRIBE", "SETUP":
            for status, text in CHECKS:
                peer.send(text.format(method).encode() + b"\r\n")
                reply = peer.reply()
                if (reply and reply.status, reply and reply.field("CSeq")) != (status, "5" if "CSeq" in text else None):
                    yield f"{text.format(method)!r} is answered {reply}, and not {status}"


def owner_sets_up_its_own_mount_alone(program):
    """A peer that may publish and not play sets up its mount while that lives, and neither describes it nor sets up another one. The same
    SETUP of a peer that may play is answered 200."""
    with serving(program, "--keep-ended", *NETWORKS) as server, Camera(server, "other", source=BOTH) as other:
        with Camera(server, source=PUBLISHER) as owner, Player(server, source=PLAYER) as player:
            owner.publish([7])
            if (came := player.next()) != Frame(4, packet(7)):
                yield f"the player reads {came}"
            yield from is_answered(owner, 403, "DESCRIBE", "cam")
            owner.tear_down()
            yield from is_answered(owner, 403, "SETUP", "cam/streamid=0", TCP + ";mode=record")
            owner.announce(owner.url)
            owner.record()
            yield from is_answered(player, 200, "DESCRIBE", "cam")
        with Peer(server, PUBLISHER) as owner:
            wanted(owner.ask("ANNOUNCE", f"rtsp://{server.address}/mine", body=SDP))
            if owner.set_up(f"{other.url}/trackID=0", "interleaved=0-1") == 200:
                yield f"the owner of another mount sets up {other.url}, and PLAY is answered {owner.ask('PLAY', other.url)}"


def has_ipv6():
    """Whether this machine has the address ::1. What needs that is left out if it doesn't."""
    with contextlib.suppress(OSError), socket.socket(socket.AF_INET6) as it:
        it.bind(("::1", 0))
        return True
    return False


def mapped_addresses_are_ipv4(program):
    """Peers of a server on `[::]` are in IPv4 networks by their IPv4 addresses, and count by them."""
    if not has_ipv6():
        leave_out(mapped_addresses_are_ipv4, "no address ::1")
        return
    with serving(program, *NETWORKS, "--per-address", "2", host="[::]") as server:
        with Camera(server, source=PUBLISHER) as owner, Player(server, source=PLAYER) as player, Peer(server, NEITHER) as peer:
            yield from is_answered(peer, 403, "DESCRIBE", "cam")
            owner.publish([7])
            if (came := player.next()) != Frame(4, packet(7)):
                yield f"the player reads {came}"
            with Peer(server, "::1") as other, Peer(server, "::1") as one_more:
                yield from is_answered(other, 403, "ANNOUNCE", "new", body=SDP)
                yield from is_answered(one_more, 403, "DESCRIBE", "cam")
                for source in PUBLISHER, "::1":
                    with Peer(server, source) as last:
                        if source == "::1":
                            yield from reads_full(last)
                        else:
                            yield from is_answered(last, 403, "DESCRIBE", "cam")
    with serving(program, "--publish-from", "::1,127.0.1.0/24", "--limit-exempt", "::/64", "--per-address", "1", host="[::]") as server:
        with Peer(server, "::1") as first, Peer(server, "::1") as second, Peer(server, "127.0.0.1") as third, Peer(server) as fourth:
            yield from is_answered(first, 200, "ANNOUNCE", "first", body=SDP)
            yield from is_answered(second, 200, "ANNOUNCE", "second", body=SDP)
            # ::ffff:127.0.0.1 is in ::/64, and 127.0.0.1 isn't.
            yield from is_answered(third, 403, "ANNOUNCE", "third", body=SDP)
            yield from reads_full(fourth)


# Of these addresses the first three have the same first 64 bits, and the fourth has others.
GROUP = "2001:db8:1::1", "2001:db8:1::2:1", "2001:db8:1:0:ffff::", "2001:db8:1:1::1"

# An address that is exempt, and another one with the same first 64 bits, which isn't.
OTHERS, BESIDE = "2001:db8:2::1", "2001:db8:2::2"

# Twenty addresses with the same first 64 bits, and one with others.
SUBNET, ELSEWHERE = [f"2001:db8:3::{number:x}" for number in range(1, 21)], "2001:db8:3:1::1"

# Runs a command in a network of its own, on a machine that has these addresses.
ADDRESSES = *GROUP, OTHERS, BESIDE, *SUBNET, ELSEWHERE
COMES_UP = " && ".join(["ip link set lo up", *(f"ip -6 addr add {it}/128 dev lo nodad" for it in ADDRESSES), 'exec "$0" "$@"'])

OWN_NETWORK = "unshare", "-rn", "sh", "-c", COMES_UP


def ipv6_addresses_count_by_64_bits(program):
    """IPv6 addresses with the same first 64 bits count as one for connections, mounts and lines, and are in networks by all of their bits.
    It's left out if this system grants no network for it."""
    if shutil.which(OWN_NETWORK[0]) is None or subprocess.run([*OWN_NETWORK, "true"], stderr=subprocess.DEVNULL).returncode != 0:
        leave_out(ipv6_addresses_count_by_64_bits, "no network with IPv6 addresses of its own (`unshare -rn`, `ip -6 addr add`)")
        return
    ran = subprocess.run([*OWN_NETWORK, sys.executable, "-B", __file__, program], capture_output=True, text=True, timeout=60)
    yield from (ran.stdout + ran.stderr).splitlines()


def in_its_own_network(program):
    """Yields what is wrong with those addresses."""
    options = "--per-address", "2", "--mounts-per-address", "1", "--limit-exempt", OTHERS, "--play-from", f"{GROUP[0]},{GROUP[3]}"
    with serving(program, *options, host="[::]") as server, contextlib.ExitStack() as peers:
        first, second = (peers.enter_context(Peer(server, it)) for it in GROUP[:2])
        yield from is_answered(first, 200, "ANNOUNCE", "cam", body=SDP)
        yield from is_answered(second, 503, "ANNOUNCE", "more", body=SDP)
        yield from is_answered(first, 200, "DESCRIBE", "cam")
        yield from is_answered(second, 403, "DESCRIBE", "cam")
        yield from reads_full(peers.enter_context(Peer(server, GROUP[2])))
        last = peers.enter_context(Peer(server, GROUP[3]))
        yield from is_answered(last, 200, "DESCRIBE", "cam")
        yield from is_answered(last, 200, "ANNOUNCE", "last", body=SDP)
        first, second, third = (peers.enter_context(Peer(server, BESIDE)) for _ in range(3))
        yield from is_answered(first, 200, "ANNOUNCE", "beside", body=SDP)
        yield from is_answered(second, 503, "ANNOUNCE", "more", body=SDP)
        yield from reads_full(third)
        for number in range(MANY):
            yield from is_answered(peers.enter_context(Peer(server, OTHERS)), 200, "ANNOUNCE", f"other-{number}", body=SDP)


def lines_count_by_64_bits(program):
    """Yields what is wrong if ten ends a second aren't logged of a subnet, whose others are counted, and of another one apart from it."""
    with ending(program, 2 * len(SUBNET) + 1, host="[::]") as server:
        begun = time.monotonic()
        for source in [*SUBNET, *SUBNET, ELSEWHERE]:
            with Peer(server, source) as peer:
                name = peer.name()
                peer.send(b"HELLO\r\n")
                wanted(peer.reply(), 400)
        passed = time.monotonic() - begun
    logged, others = sum("[2001:db8:3::" in line and "stream fault 1: " in line for line in server.lines), counted(server, NOT_TOLD)
    if not A_SECOND <= logged <= A_SECOND * (passed + 2) or logged + sum(others) != 2 * len(SUBNET):
        yield f"of {2 * len(SUBNET)} ends of a subnet in {passed:.1f} s {logged} are logged, and {others} are counted"
    if len(ends_told(server, name)) != 1:
        yield f"of another subnet is logged {ends_told(server, name)}"


# Texts that are no networks, and why.
FAULTS = (
    ("10.0.0.0/33", "prefix longer than the address"),
    ("2001:db8::/129", "prefix longer than the address"),
    ("10.0.0.1/8", "host bits set after the prefix"),
    ("2001:db8::1/64", "host bits set after the prefix"),
    ("10.0.0.0/8,", "empty network"),
    ("10.0.0.0/8,,127.0.0.1", "empty network"),
    ("", "empty network"),
    ("10.0.0", "not an IP address or a network"),
    ("10.0.0.0/0x8", "not an IP address or a network"),
    ("cam.example", "not an IP address or a network"),
    ("127.0.0.1,::ffff:10.0.0.0/104", "IPv4-mapped address, to be written as IPv4"),
)

# Numbers that are out of their options' ranges.
NO_NUMBERS = [(option, number) for option, most in (("--per-address", 1024), ("--mounts-per-address", 64)) for number in ("0", str(most + 1))]
NO_NUMBERS += [("--silent", "0"), ("--silent", "86401")]


def faults_of_options_are_reported(program):
    """A server isn't started with a text that is no network, or a number out of range: its status is 2, and a line on standard error has
    the text."""
    rows = [(f"--{name}-from", "NET", text, why) for name in ("publish", "play", "proxy") for text, why in FAULTS]
    rows += [("--limit-exempt", "NET", text, why) for text, why in FAULTS]
    rows += [(option, "SECONDS" if option == "--silent" else "N", text, f"{text} is not in 1..=") for option, text in NO_NUMBERS]
    for option, value, text, why in rows:
        ran = subprocess.run([program, "serve", "127.0.0.1:0", option, text], capture_output=True, text=True, timeout=30)
        first = f"error: invalid value '{text}' for '{option} <{value}>': {why}"
        if (ran.returncode, ran.stdout) != (2, "") or not ran.stderr.startswith(first):
            yield f"{option} {text!r}: {ran}"


def reads_full(peer):
    """Yields what is wrong if a peer isn't answered 503 and closed, though it has asked."""
    with contextlib.suppress(OSError):
        peer.say("OPTIONS", "*")
    if (came := peer.bytes(len(FULL))) != FULL or not is_closed(peer):
        yield f"{peer.name()} reads {came!r}, and not {FULL!r} and the end"


def is_served(server, source=None):
    """Whether one more connection of this address is answered."""
    with Peer(server, source) as peer, contextlib.suppress(OSError):
        peer.say("OPTIONS", "*")
        return peer.bytes(len(FULL)).startswith(b"RTSP/1.0 200 ")
    return False


# How many connections an address may have, and how many of another one come that has no limit.
MOST, MANY = 3, 8

# How many connections are refused at almost the same moment: more than the 64 that may stay for the tenth of a second which each of them
# has to read why. It is tried three times, since on a machine that does other work they may take longer than that.
CROWDS = 80, 80, 80

EXEMPT = "127.0.1.1"


def connections_of_an_address_are_limited(program):
    """As many connections of an address as `--per-address` says are served. One more is answered 503 and closed, with a line at once that
    has its address. Other addresses aren't affected, exempt ones have no limit, and after one connection has ended there is room."""
    options = "--per-address", str(MOST), "--limit-exempt", f"10.0.0.0/8,{EXEMPT}"
    with serving(program, *options) as server, contextlib.ExitStack() as peers:
        first, *_ = [peers.enter_context(Camera(server, str(number))) for number in range(MOST)]
        with Peer(server) as late:
            name = late.name()
            yield from reads_full(late)
        line = f"[WARN  relay_server::refusing] 1 refused 503 on no mount, the last {name}"
        if not until(2, lambda: server.lines == [line]):
            yield f"{server.lines} are logged, and not {line}"
        with Peer(server) as late:
            yield from reads_full(late)
        for source in "127.0.0.2", "127.0.1.2":
            if not is_served(server, source):
                yield f"{source} isn't served"
        for _ in range(MANY):
            wanted(peers.enter_context(Peer(server, EXEMPT)).ask("OPTIONS", "*"))
        if is_served(server):
            yield "one more is served"
        first.close()
        if not until(5, lambda: is_served(server)):
            yield "there is no room after one has closed"
    yield from connections_are_counted(program)


def refused_connections_are_closed(program):
    """Connections that are refused at almost the same moment are all closed soon, though their peers stay and nobody else comes: a few,
    and more than may stay a moment, of which the first are closed for the others."""
    with serving(program, "--per-address", "1") as server, contextlib.ExitStack() as peers:
        wanted(peers.enter_context(Peer(server)).ask("OPTIONS", "*"))
        before = server.descriptors()
        for count in MANY, *CROWDS:
            late = [peers.enter_context(Peer(server)) for _ in range(count)]
            for peer in late:
                yield from reads_full(peer)
            if not until(5, lambda: server.descriptors() == before):
                yield f"it has {server.descriptors()} descriptors after {count} refused connections, and {before} before"


def connections_are_counted(program):
    """While MANY connections are refused, each has its answer; their line counts them in the end, and names the last one."""
    with ending(program, MANY + 1, "--per-address", "1") as server, Camera(server) as camera:
        names = []
        for _ in range(MANY):
            with Peer(server) as late:
                names.append(late.name())
                yield from reads_full(late)
        camera.is_read()
    if refused(server) != {(503, "no mount"): (MANY, names[-1])}:
        yield f"of {MANY} refused connections is logged {server.lines}"


def announces(peer, server, mount):
    """The status of an ANNOUNCE of this mount, whose reply has its CSeq."""
    reply = peer.ask("ANNOUNCE", f"rtsp://{server.address}/{mount}", body=SDP)
    return reply.status if reply and reply.field("CSeq") == "1" else None


def mounts_of_an_address_are_limited(program):
    """As many mounts of an address as `--mounts-per-address` says are announced. One more is answered 503, and its connection goes on:
    after a mount has ended in any way there is room."""
    options = "--mounts-per-address", "2", "--limit-exempt", f"{EXEMPT}/32"
    with serving(program, *options) as server, Camera(server, "first") as first, Peer(server) as late:
        for number, way in enumerate((Camera.tear_down, Camera.close, Camera.reset, lambda it: it.send(b"HELLO\r\n"), Camera.fall_silent)):
            with Camera(server, "second") as second:
                # One that has a mount is no other one.
                yield from is_answered(first, 455, "ANNOUNCE", "third", body=SDP)
                yield from is_answered(late, 503, "ANNOUNCE", f"late-{number}", body=SDP)
                way(second)
                if not until(5, lambda: is_announced_once(server, late)):
                    yield f"there is no room after the way {number} of a mount's end"
        with Peer(server, "127.0.0.2") as other:
            yield from is_answered(other, 200, "ANNOUNCE", "other", body=SDP)
        with contextlib.ExitStack() as peers:
            for number in range(MANY):
                peers.enter_context(Camera(server, f"exempt-{number}", source=EXEMPT))


def is_announced_once(server, peer):
    """Whether a peer may announce a mount now, which it then ends."""
    if announces(peer, server, "late") != 200:
        return False
    peer.url = f"rtsp://{server.address}/late"
    peer.set_up(f"{peer.url}/streamid=0", "interleaved=0-1;mode=record")
    peer.tear_down()
    return True


def refused_mounts_dont_count(program):
    """An ANNOUNCE that the book refuses, for its name, its body or its peer's session, takes no place of its address; nor does a mount
    without a track after its connection has ended."""
    with serving(program, "--mounts-per-address", "1") as server, Camera(server, source=EXEMPT) as owner:
        with Peer(server) as peer, Peer(server) as other:
            for _ in range(2):
                yield from is_answered(peer, 403, "ANNOUNCE", "cam", body=SDP)
                yield from is_answered(peer, 400, "ANNOUNCE", "mine", body=b"HELLO")
                yield from is_answered(peer, 415, "ANNOUNCE", "mine", "Content-Type: text/plain", body=SDP)
            yield from is_answered(other, 200, "ANNOUNCE", "other", body=SDP)
            yield from is_answered(peer, 503, "ANNOUNCE", "mine", body=SDP)
            other.close()
            if not until(5, lambda: announces(peer, server, "mine") == 200):
                yield "there is no room after a hang-up"
        yield from is_answered(owner, 455, "ANNOUNCE", "mine", body=SDP)
        owner.tear_down()
        yield from is_answered(owner, 200, "ANNOUNCE", "cam", body=SDP)


# Within how many seconds the place of a mount is free that has ended.
AT_ONCE = 0.3

ENDS_ITS_MOUNT = {
    "TEARDOWN": Camera.tear_down,
    "a hang-up": Camera.close,
    "a reset": Camera.reset,
    "a shutdown": Camera.fall_silent,
    "a faulty line": lambda it: it.send(b"HELLO\r\n"),
}


def sends_on(camera):
    """Sends a byte more, if its connection is open."""
    with contextlib.suppress(OSError):
        camera.send(b"x")


def place_is_free_with_the_name(program):
    """A mount that has ended takes neither its name nor a place of its address any more, though its peer may still send."""
    for way, end in ENDS_ITS_MOUNT.items():
        with serving(program, "--mounts-per-address", "1") as server, Camera(server) as camera, Peer(server) as other:
            yield from is_answered(other, 503, "ANNOUNCE", "other", body=SDP)
            end(camera)
            replies, begun = [], time.monotonic()
            while (not replies or replies[-1] != 200) and time.monotonic() < begun + AT_ONCE:
                sends_on(camera)
                replies.append(announces(other, server, "cam"))
                # More bytes would have the server read no more of it.
                until(0.1, lambda: replies[-1] == 200)
            if replies[-1] != 200:
                yield f"{time.monotonic() - begun:.1f} s after {way} ANNOUNCE is answered {replies[-1]}"


# After how many seconds of silence a publisher is disconnected, within how many seconds that is, and how long the others stay.
SILENT, GONE, STAY = 1, 4, 6

GOES = ["publisher of silent: silent while recording"], ["publisher of drips: silent while recording"]


def silent_publisher_is_disconnected(program, *options):
    """A recording publisher without a whole message or frame is disconnected with a line, and its name is free. One that sends packets or
    requests stays, and so does one that isn't recording, or not any more, and a player."""
    with serving(program, "--silent", str(SILENT), *options) as server, contextlib.ExitStack() as peers:
        silent, drips, sends, asks, paused = (peers.enter_context(Camera(server, it)) for it in ("silent", "drips", "sends", "asks", "paused"))
        ready = peers.enter_context(Camera(server, "ready", records=False))
        player = peers.enter_context(Player(server, "sends"))
        wanted(paused.ask("PAUSE", paused.url))
        names, gone, begun = (silent.name(), drips.name()), {}, time.monotonic()
        silent.publish([1])
        drips.send(frame(packet(1)) + frame(packet(2, 1000))[:16])
        for turn in range(STAY * 10):
            if turn % 4 == 0:
                sends.publish([turn // 4])
                asks.is_read()
            with contextlib.suppress(OSError):
                drips.send(b"\0")
            time.sleep(max(0, begun + turn / 10 - time.monotonic()))
            gone |= {it: time.monotonic() - begun for it in names if it not in gone and ends_told(server, it)}
        if not all(SILENT <= gone.get(it, STAY) <= GONE for it in names) or [ends_told(server, it) for it in names] != list(GOES):
            yield f"they are disconnected after {gone}: {server.lines}"
        for it in sends, asks, ready, paused:
            it.is_read()
            it.record()
        if (came := player.numbers(STAY * 10 // 4)) != list(range(STAY * 10 // 4)):
            yield f"the player reads {came}"
        for name in "silent", "drips":
            if announces(peers.enter_context(Peer(server)), server, name) != 200:
                yield f"the name {name} isn't free"


# How many publishers of one address fall silent at once, which is more than have a line in two seconds.
FALLING = 40

# The line that counts ends that have no line of their own, by what they are.
NOT_LOGGED = re.compile(r"\[WARN  relay_server::refusing\] (\d+) ends weren't logged, of addresses with more than ten a second: (.+)")


def not_logged(server):
    """How many ends lines count that have none of their own, by what they are."""
    kinds = collections.Counter()
    for count, kind in (found.groups() for found in map(NOT_LOGGED.fullmatch, list(server.lines)) if found):
        kinds[kind] += int(count)
    return kinds


def ends_are_counted_by_what_they_are(program):
    """Of many publishers of one address that are disconnected for their silence ten a second have a line, and the others are counted as
    such ends."""
    with ending(program, FALLING, "--silent", str(SILENT), "--keep", "8") as server, contextlib.ExitStack() as peers:
        for camera in [peers.enter_context(Camera(server, str(number))) for number in range(FALLING)]:
            if not camera.is_hung_up():
                yield f"{camera.url} isn't disconnected"
    logged, others = sum("silent while recording (connection" in line for line in server.lines), not_logged(server)
    if set(others) != {"silent while recording"} or logged + others.total() != FALLING:
        yield f"of {FALLING} silent publishers {logged} are logged, and {others} are counted"


# For how many seconds connections send all that is read, how many bytes a second of each may be read, and how many are at least.
FLOOD, FASTEST, SLOWEST = 3, 4_500_000, 500_000

# How many empty frames a peer sends in one write at most; and in small writes, which come in pieces by its send buffer of so many bytes:
# a read returns less than it asks for then.
LARGE, SMALL, PIECES = 16_384, 8_000, 8_192


def floods(server, peer, count, over):
    """Sends empty frames without pause, so many in a write. Returns how many bytes the server has read of them."""
    if count == SMALL:
        peer.socket.setsockopt(socket.SOL_SOCKET, socket.SO_SNDBUF, PIECES)
    peer.socket.settimeout(0.05)
    sent, text = 0, frame(b"") * count
    while not over.is_set():
        # Whole frames: what isn't taken comes next.
        with contextlib.suppress(TimeoutError):
            sent += peer.socket.send(text[sent % 4:])
    return sent - waiting(server, peer)


def connections_are_read_at_a_rate(program, *options):
    """A connection that isn't recording is read at some 4 MB a second, if it has no session and if it is set up, in large reads and in
    small ones, while a player beside it reads all packets."""
    with serving(program, *options) as server, contextlib.ExitStack() as peers, concurrent.futures.ThreadPoolExecutor(3) as pool:
        camera, player = peers.enter_context(Camera(server)), peers.enter_context(Player(server))
        flooding = (Peer(server), LARGE), (Peer(server), SMALL), (Camera(server, "ready", records=False), SMALL)
        over, begun = threading.Event(), time.monotonic()
        floods_come = [pool.submit(floods, server, peers.enter_context(peer), count, over) for peer, count in flooding]
        for number in range(FLOOD * 100):
            camera.publish([number], 1_200)
            time.sleep(max(0, begun + number / 100 - time.monotonic()))
        over.set()
        passed = time.monotonic() - begun
        read = [it.result() for it in floods_come]
        if not all(SLOWEST * passed <= it <= FASTEST * passed for it in read):
            yield f"{read} bytes are read in {passed:.1f} s"
        if (came := player.numbers(FLOOD * 100)) != list(range(FLOOD * 100)):
            yield f"the player reads {len(came)} packets of {FLOOD * 100}"


# How many bytes come of a publisher as fast as they are taken, and within how many seconds they are read.
PUBLISHED, QUICK = 40_000_000, 5


def publisher_is_read_at_any_rate(program, *options):
    """A recording publisher is read faster than others are, from its RECORD on, and no more after its PAUSE."""
    with serving(program, *options) as server, Camera(server) as camera:
        begun = time.monotonic()
        for first in range(0, PUBLISHED // 10_000, 100):
            camera.publish(range(first, first + 100), 10_000)
        camera.is_read()
        if (took := time.monotonic() - begun) > QUICK:
            yield f"{PUBLISHED} bytes take {took:.1f} s"
        wanted(camera.ask("PAUSE", camera.url))
        begun = time.monotonic()
        camera.publish(range(1_000), 10_000)
        camera.is_read()
        if (took := time.monotonic() - begun) < 10_000_000 / FASTEST:
            yield f"10,000,000 bytes after its PAUSE take {took:.1f} s"


# After how many seconds a connection is disconnected that has announced a mount and sets up no track, and at the latest. It is looked for
# once a second, and the line is awaited by looks with half a second and requests between them.
SETUP_WAIT, LATEST = 60, 66

GOES_UNSET = "no SETUP for 60 s after its ANNOUNCE"


def announced_mount_is_to_be_set_up(program):
    """A connection that announces a mount and sets up no track is disconnected with a line after a minute, whatever it says. One that sets
    it up stays. Of many from one address ten a second have a line, and the others are counted as such ends."""
    with contextlib.ExitStack() as peers, serving(program) as server, Peer(server) as asks, Peer(server) as floods_it:
        ready = peers.enter_context(Camera(server, "ready", records=False))
        names, gone, begun = (asks.name(), floods_it.name()), {}, time.monotonic()
        for number in range(FALLING):
            wanted(peers.enter_context(Peer(server, EXEMPT)).ask("ANNOUNCE", f"rtsp://h/{number}", body=SDP))
        for peer, name in (asks, "asks"), (floods_it, "frames"):
            wanted(peer.ask("ANNOUNCE", f"rtsp://h/{name}", body=SDP))
        announced = time.monotonic()
        while time.monotonic() < announced + LATEST + 1 and len(gone) < 2:
            with contextlib.suppress(OSError, AttributeError):
                asks.ask("OPTIONS", "*")
                asks.ask("ANNOUNCE", "rtsp://h/again", body=SDP)
            with contextlib.suppress(OSError):
                floods_it.send(frame(bytes(8)))
            ready.is_read()
            until(0.5, lambda: False)
            gone |= {it: time.monotonic() for it in names if it not in gone and ends_told(server, it)}
        if not all(begun + SETUP_WAIT <= gone.get(it, 0) <= announced + LATEST for it in names):
            yield f"they are disconnected at {gone} after ANNOUNCE from {begun} to {announced}: {server.lines}"
        if any(not ends_told(server, it)[0].endswith(GOES_UNSET) for it in gone):
            yield f"{server.lines} are logged"
        if set(others := not_logged(server)) != {"no SETUP"}:
            yield f"of {FALLING} ends of one address {others} are counted"
        for name in "asks", "frames":
            with Peer(server) as other:
                if announces(other, server, name) != 200:
                    yield f"the name {name} isn't free"
        ready.record()


LONG = [(announced_mount_is_to_be_set_up, ())]

PARTS = [(part, ()) for part in (networks_say_who_may, checks_of_the_request_come_first, owner_sets_up_its_own_mount_alone)]
PARTS += [(part, ()) for part in (mapped_addresses_are_ipv4, ipv6_addresses_count_by_64_bits, faults_of_options_are_reported)]
PARTS += [(part, ()) for part in (connections_of_an_address_are_limited, mounts_of_an_address_are_limited, refused_mounts_dont_count)]
PARTS += [(refused_connections_are_closed, ())]
PARTS += [(ends_are_counted_by_what_they_are, ()), *((silent_publisher_is_disconnected, mode) for mode in MODES)]

# For the processors' time.
ALONE = [(part, mode) for part in (connections_are_read_at_a_rate, publisher_is_read_at_any_rate) for mode in MODES]
ALONE += [(place_is_free_with_the_name, ())]

if __name__ == "__main__":
    print("\n".join(it for part in (in_its_own_network, lines_count_by_64_bits) for it in part(sys.argv[1])), end="")
