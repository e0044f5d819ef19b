"""Refusals and ends: why a request was refused and a connection ended, and whose it was."""
import collections
import concurrent.futures
import contextlib
import itertools
import re
import threading
import time

from leaving import has_descriptors
from peers import GATHER, MODES, REFUSED, SDP, Camera, Peer, Player, accounts, ending, ends_told, frame, packet, serving, until, wanted

# A Transport header that asks for UDP.
UDP = "Transport: RTP/AVP;unicast;client_port=5000-5001"

# How many mounts there may be.
MOUNTS = 64

# How many unpublished names are asked for.
MISSPELT = 1_000


def refused(server):
    """How many requests are told refused, and to whom last, by status and mount; fails if one of them has more than two lines: the first
    refusal at once, and the others at the end."""
    told = collections.defaultdict(list)
    for count, status, mount, last in (found.groups() for found in map(REFUSED.fullmatch, server.lines) if found):
        told[int(status), mount].append((int(count), last))
    if most := [key for key, rows in told.items() if len(rows) > 2]:
        raise AssertionError(f"{most} have more than two lines in a minute")
    return {key: (sum(count for count, _ in rows), rows[-1][1]) for key, rows in told.items()}


def ask_in_vain(server, camera, other):
    """Another peer asks for what it is refused, of a mount that has no free seat. What the lines about it are, in order: method, name and
    status. No part of an unpublished name is known to be a track's."""
    asked = []
    for method, path, name, status, times, fields, body in (
        ("ANNOUNCE", "cam", "cam", 403, 3, (), SDP),
        ("SETUP", "cam/trackID=0", "cam", 461, 2, (UDP,), b""),
        ("DESCRIBE", "cma", "cma", 404, 5, (), b""),
        ("SETUP", "a%20b/trackID=0", "a%20b/trackID=0", 404, 1, ("Transport: RTP/AVP/TCP;interleaved=0-1",), b""),
    ):
        for _ in range(times):
            wanted(other.ask(method, f"rtsp://{server.address}/{path}", *fields, body=body), status)
            asked.append((method, name, status))
    other.set_up(f"{camera.url}/trackID=0", "interleaved=4-5")
    for _ in range(4):
        wanted(other.ask("PLAY", camera.url), 453)
        asked.append(("PLAY", "cam", 453))
    return asked


def refusals_are_told_by_mount_and_status(program, *options):
    """Without `--verbose` refused requests are told at most once a minute for each mount and status, with the last peer."""
    with ending(program, 4, "--seats", "1", *GATHER, *options) as server, Camera(server) as camera, Player(server):
        with Peer(server) as other, Camera(server, "garage") as second:
            names = camera.name(), other.name(), second.name()
            ask_in_vain(server, camera, other)
            wanted(camera.ask("ANNOUNCE", second.url, body=SDP), 455)
            second.tear_down()
            wanted(second.ask("ANNOUNCE", camera.url, body=SDP), 403)
    due = {(403, "cam"): (4, names[2]), (461, "cam"): (2, names[1]), (404, "others"): (6, names[1]), (453, "cam"): (4, names[1])}
    if (told := refused(server)) != due or len(server.lines) > 2 * len(due):
        yield f"of {due} is told {told}: {server.lines}"


def misspelt_names_are_told_as_others(program):
    """A thousand unpublished names have one line."""
    with ending(program, 1) as server, Peer(server) as peer:
        name = peer.name()
        for place in range(MISSPELT):
            wanted(peer.ask("DESCRIBE", f"rtsp://{server.address}/cam-{place}"), 404)
    if refused(server) != {(404, "others"): (MISSPELT, name)} or len(server.lines) > 2:
        yield f"it tells {server.lines}"


# How a camera ends a mount that is recorded, or for one of them isn't.
WAYS = (
    *((way, True) for way in (Camera.tear_down, Camera.close, Camera.reset, lambda camera: camera.send(b"HELLO\r\n"))),
    (Camera.close, False),
)


def ended_mount_is_named_no_more(program):
    """Once a mount has ended, what is refused of its name is told as of a name that doesn't live, and without its publisher; if the name
    is taken again, with the new one."""
    with ending(program, len(WAYS) + 2, "--verbose") as server, Peer(server) as other, contextlib.ExitStack() as peers:
        name, url = other.name(), f"rtsp://{server.address}/cam"
        for place, (way, records) in enumerate(WAYS):
            way(peers.enter_context(Camera(server, records=records)))
            if not until(5, lambda: sum(": mount cam has ended" in line for line in list(server.lines)) > place):
                yield f"mount {place} doesn't end"
            wanted(other.ask("DESCRIBE", url), 404)
        publisher = peers.enter_context(Camera(server)).name()
        wanted(other.ask("ANNOUNCE", url, body=SDP), 403)
    told = [line.partition(f"events] {name}: ")[2] for line in server.lines if " refused " in line and "events]" in line]
    due = ["DESCRIBE of cam refused 404"] * len(WAYS) + [f"ANNOUNCE of cam refused 403, published by {publisher}"]
    if told != due or refused(server) != {(404, "others"): (len(WAYS), name), (403, "cam"): (1, name)}:
        yield f"of {due} is told {told}, and {refused(server)}"


def mount_without_a_place_is_told(program):
    """An ANNOUNCE that finds all mounts taken is told, and so with `--verbose`."""
    for options in (), ("--verbose",):
        with ending(program, MOUNTS + 1, "--keep", "8", *options) as server, contextlib.ExitStack() as peers:
            for place in range(MOUNTS):
                peer = peers.enter_context(Peer(server))
                wanted(peer.ask("ANNOUNCE", f"rtsp://{server.address}/{place}", body=SDP))
            late = peers.enter_context(Peer(server))
            name = late.name()
            for _ in range(3):
                wanted(late.ask("ANNOUNCE", f"rtsp://{server.address}/late", body=SDP), 503)
        lines = [line for line in server.lines if line == f"[INFO  relay_server::events] {name}: ANNOUNCE of late refused 503"]
        if refused(server) != {(503, "others"): (3, name)} or len(lines) != (3 if options else 0):
            yield f"{options} tells {server.lines[-8:]}"


def each_refusal_has_its_line(program):
    """With `--verbose` each refused request has a line, with the publisher of its mount if that lives."""
    with ending(program, 3, "--seats", "1", "--verbose", *GATHER) as server, Camera(server) as camera, Player(server) as player:
        with Peer(server) as other:
            names = camera.name(), player.name(), other.name()
            asked = ask_in_vain(server, camera, other)
            wanted(player.ask("RECORD", player.url), 455)
    told = [line.partition(": ")[2] for line in server.lines if f"events] {names[2]}: " in line and "refused" in line]
    due = [f"{method} of {name} refused {status}" + f", published by {names[0]}" * (name == "cam") for method, name, status in asked]
    if told != due:
        yield f"of {due} is told {told}"
    if not any(f"events] {names[1]}: RECORD of cam refused 455, published by {names[0]}" in line for line in server.lines):
        yield f"no line tells of a RECORD of a player: {server.lines}"


def name_that_begins_anothers(program):
    """The name of one mount and a slash begin the name of another. A refused request of a track of each is logged under that mount, with
    its publisher, whichever of them was announced first."""
    for mounts in ("cam", "cam/door"), ("cam/door", "cam"):
        with ending(program, 3, "--verbose") as server, contextlib.ExitStack() as peers:
            publishers = {mount: peers.enter_context(Camera(server, mount)).name() for mount in mounts}
            other = peers.enter_context(Peer(server))
            name = other.name()
            for mount in mounts:
                wanted(other.ask("SETUP", f"rtsp://{server.address}/{mount}/trackID=0", UDP), 461)
        told = [line.partition(f"events] {name}: ")[2] for line in server.lines if "events]" in line and " refused " in line]
        due = [f"SETUP of {mount} refused 461, published by {publishers[mount]}" for mount in mounts]
        if told != due or refused(server) != {(461, mount): (1, name) for mount in mounts}:
            yield f"of {due} is logged {told}, and {refused(server)}"


# How many faults come from one address, of which ten a second have a line, and the line that counts the others.
FAULTS, A_SECOND = 300, 10

NOT_TOLD = re.compile(
    r"\[WARN  relay_server::refusing\] (\d+) ends weren't logged, of addresses with more than ten a second: stream fault"
)

# How many addresses have one fault each. In a second the first 256 of them may have ten lines each, and all others ten together.
ADDRESSES, KNOWN = 600, 256

# The least time between two lines about the same refused requests, in seconds.
MINUTE = 60


def refusals_are_told_again_after_a_minute(program):
    """While the server goes on, more refused requests and failed connections are told once a minute has passed, in one line each."""
    with serving(program) as server, Peer(server) as peer:
        fail_often(server, peer)
        until(5, lambda: counted(server, NOT_TOLD) and counted(server, REFUSED))
        begun, first = time.monotonic(), (counted(server, REFUSED), counted(server, NOT_TOLD))
        fail_often(server, peer)
        until(MINUTE + 10, lambda: len(counted(server, REFUSED)) > 1 and len(counted(server, NOT_TOLD)) > 1)
        passed, told = time.monotonic() - begun, sum("stream fault 1: " in line for line in server.lines)
        last = counted(server, REFUSED), counted(server, NOT_TOLD)
    if not MINUTE - 2 <= passed <= MINUTE + 5 or [len(it) for it in (*first, *last)] != [1, 1, 2, 2]:
        yield f"{first} are told at first, and {last} after {passed:.1f} s"
    if sum(last[0]) != 6 or told + sum(last[1]) != 10 * A_SECOND:
        yield f"of 6 refused and {10 * A_SECOND} failed are told {last} and {told}"


def names_have_their_own_lines_again(program):
    """Refused requests of more mounts and statuses than are told apart go by `others`; each has its own line again a minute later. A
    refused connection has its own line among them, too."""
    options = "--keep", "8", "--idle", "0", "--per-address", str(MOUNTS + 1)
    with serving(program, *options) as server, contextlib.ExitStack() as peers:
        urls = [f"rtsp://{server.address}/{place}" for place in range(MOUNTS)]
        cameras = [peers.enter_context(Camera(server, str(place), records=False)) for place in range(MOUNTS)]
        other = peers.enter_context(Peer(server))
        for url in urls:
            is_refused(other, url)
        with Peer(server) as late:
            late.is_hung_up()
        for _ in range(3):
            time.sleep(MINUTE / 3 + 1)
            # So that no session expires.
            for it in cameras:
                it.is_read()
        before, some = len(server.lines), (0, 1, MOUNTS - 2, MOUNTS - 1)
        for place in some:
            is_refused(other, urls[place])
        due = {(status, str(place)) for status in (403, 404, 461) for place in some}
        until(5, lambda: due <= set(refused_by_key(server.lines[before:])))
        first, last = refused_by_key(server.lines[:before]), refused_by_key(server.lines[before:])
    if not due <= set(last) or first.total() != 3 * MOUNTS + 1 or not {mount for _, mount in first} >= {"0", "others"}:
        yield f"at first is told {first}, and a minute later {last}"
    if first[503, "no mount"] != 1:
        yield f"of a refused connection is logged {first}"


def is_refused(peer, url):
    """Asks for three things that this mount isn't for."""
    wanted(peer.ask("ANNOUNCE", url, body=SDP), 403)
    wanted(peer.ask("DESCRIBE", f"{url}/nothing"), 404)
    wanted(peer.ask("SETUP", url, UDP), 461)


def refused_by_key(lines):
    """How many requests lines count as refused, by status and mount."""
    told = collections.Counter()
    for count, status, mount, _ in (found.groups() for found in map(REFUSED.fullmatch, lines) if found):
        told[int(status), mount] += int(count)
    return told


def fail_often(server, peer):
    """Three requests are refused, and five times as many connections fail as have a line in a second."""
    for _ in range(3):
        wanted(peer.ask("DESCRIBE", f"rtsp://{server.address}/cma"), 404)
    for _ in range(5 * A_SECOND):
        with Peer(server) as other:
            other.send(b"HELLO\r\n")
            wanted(other.reply(), 400)


def counted(server, pattern):
    """The counts of lines of this pattern."""
    return [int(found[1]) for found in map(pattern.fullmatch, list(server.lines)) if found]


def publish_until(camera, over):
    """Publishes sixteen packets at a time until it is over."""
    for first in itertools.count(0, 16):
        camera.publish(range(first, first + 16), 1_200)
        if over.wait(0.002):
            return


def reset_is_told(program, *options):
    """A player that resets its connection, or closes it with packets unread, while it is sent more, is told to have left so; a camera's
    reset is a failed read."""
    with ending(program, 3, "--seats", "2", *GATHER, *options) as server, concurrent.futures.ThreadPoolExecutor(1) as pool:
        over = threading.Event()
        with Camera(server) as camera, Player(server) as first, Player(server) as second:
            names = first.name(), second.name(), camera.name()
            publishing = pool.submit(publish_until, camera, over)
            try:
                for it in first, second:
                    it.numbers(100)
                first.reset()
                # Meanwhile packets come that it doesn't read.
                time.sleep(0.1)
                second.close()
                seen = until(10, lambda: all(ends_told(server, it) for it in names[:2]))
            finally:
                over.set()
            publishing.result()
            if not seen:
                yield f"the players' ends aren't told: {server.lines}"
            camera.is_read()
            camera.reset()
    told = [ends_told(server, it) for it in names]
    if told != [["player of cam: left by a reset"]] * 2 + [["publisher of cam: read failed"]]:
        yield f"it tells {told}: {server.lines}"


def faults_of_one_address_have_few_lines(program):
    """Of many faults of one address ten a second have a line, and the others are counted; another address has its own line."""
    with ending(program, FAULTS + 1) as server:
        begun = time.monotonic()
        for place in range(FAULTS):
            with Peer(server) as peer:
                peer.send(b"HELLO\r\n")
                wanted(peer.reply(), 400)
            if place == FAULTS // 2:
                with Peer(server, "127.0.0.2") as other:
                    name = other.name()
                    other.send(b"HELLO\r\n")
                    wanted(other.reply(), 400)
        passed = time.monotonic() - begun
    told = sum("127.0.0.1" in line and "stream fault 1: " in line for line in server.lines)
    others = counted(server, NOT_TOLD)
    if not A_SECOND <= told <= A_SECOND * (passed + 2) or told + sum(others) != FAULTS or len(others) > 2:
        yield f"in {passed:.1f} s {told} of {FAULTS} are told, and {others} counted"
    if len(ends_told(server, name)) != 1:
        yield f"another address is told {ends_told(server, name)}"


# How many sessions one connection has, and the line that counts the accounts that weren't logged.
SESSIONS = 40

ACCOUNTS_NOT_TOLD = re.compile(r"\[WARN  relay_server::refusing\] (\d+) accounts weren't logged, .*")


def accounts_of_one_connection_have_few_lines(program):
    """Of many sessions of one connection, each with a frame that no track has, ten accounts a second are logged, and the others are
    counted: the first of them while the connection goes on."""
    with ending(program, 1, "--keep", "8") as server, Peer(server) as peer:
        name, begun = peer.name(), time.monotonic()
        for _ in range(SESSIONS):
            Camera.announce(peer, f"rtsp://{server.address}/cam")
            Camera.record(peer)
            peer.send(frame(packet(7), 9))
            peer.tear_down()
        passed = time.monotonic() - begun
        if not until(5, lambda: counted(server, ACCOUNTS_NOT_TOLD) or len(accounts(server, name, "publisher of cam")) == SESSIONS):
            yield f"no line counts an account that isn't logged: {server.lines}"
    told, others = accounts(server, name, "publisher of cam"), counted(server, ACCOUNTS_NOT_TOLD)
    if not A_SECOND <= len(told) <= A_SECOND * (passed + 2) or len(told) + sum(others) != SESSIONS or len(others) > 2:
        yield f"in {passed:.1f} s {len(told)} of {SESSIONS} are logged, and {others} counted"
    if [it["unknown channel"] for it in told] != [1] * len(told):
        yield f"of one frame a session is logged {told}"


def faults_of_many_addresses_have_few_lines(program):
    """More addresses than there are places for share ten lines a second, and what is over is counted."""
    if not has_descriptors(faults_of_many_addresses_have_few_lines):
        return
    with ending(program, ADDRESSES) as server, contextlib.ExitStack() as peers:
        sources = [f"127.0.{place // 250 + 1}.{place % 250 + 1}" for place in range(ADDRESSES)]
        came = [peers.enter_context(Peer(server, it)) for it in sources]
        begun = time.monotonic()
        for it in came:
            it.send(b"HELLO\r\n")
        for it in came:
            wanted(it.reply(), 400)
            it.is_hung_up()
        passed = time.monotonic() - begun
    told, others = sum("stream fault 1: " in line for line in server.lines), counted(server, NOT_TOLD)
    if told > (KNOWN + A_SECOND) * (int(passed) + 2) or told + sum(others) != ADDRESSES or len(others) > 2:
        yield f"in {passed:.1f} s {told} of {ADDRESSES} are told, and {others} counted"


LONG = [(part, ()) for part in (refusals_are_told_again_after_a_minute, names_have_their_own_lines_again)]

PARTS = [
    *((part, mode) for part in (refusals_are_told_by_mount_and_status, reset_is_told) for mode in MODES),
    *((part, ()) for part in (misspelt_names_are_told_as_others, mount_without_a_place_is_told, each_refusal_has_its_line)),
    *((part, ()) for part in (ended_mount_is_named_no_more, faults_of_one_address_have_few_lines, faults_of_many_addresses_have_few_lines)),
    *((part, ()) for part in (name_that_begins_anothers, accounts_of_one_connection_have_few_lines)),
]

ALONE = []
