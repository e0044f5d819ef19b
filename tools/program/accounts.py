"""Accounts: the lines about each session add up to all packets, each counted once and under its own mount."""
import bisect
import concurrent.futures
import contextlib
import time

from bursts import sets_both_up
from lines import lost_by_peer
from peers import GATHER, IN, MODES, OUT, Camera, accounts, counts, ending, ends_told, frame, mounts_reported, numbers_in, packet, until
from peers import NO_ACKNOWLEDGEMENT, wanted
from viewers import ALL, CLOSES, CYCLES, DRAINS, ERRS, HALF, HALF_CLOSES, LITTLE, NOTHING, ON_THE_WAY, PAUSES, RESETS, ROUND, STAYS
from viewers import TEARS_DOWN, WAITS, Viewer, all_left, left_by

# Ten rounds of packets of 6,000 bytes are more than the ring and the buffers of a socket hold. Before the first round the ring has had
# more packets than a player that goes back is given.
LARGE, ROUNDS, BEFORE = 6_000, 10, 100

# The first one is the measure if packets of its camera are refused: it reads all that was published.
PLAYERS = (
    *((ALL, way) for way in (DRAINS, CLOSES, HALF_CLOSES, PAUSES, CYCLES, TEARS_DOWN)),
    *((HALF, way) for way in (DRAINS, RESETS, ERRS, PAUSES, CYCLES)),
    *((LITTLE, way) for way in (CLOSES, HALF_CLOSES, ERRS, STAYS, CYCLES, TEARS_DOWN)),
    *((NOTHING, way) for way in (CLOSES, RESETS, STAYS)),
)

# What else a camera sends in a round, and the word that counts it. None of them may reach a player.
REFUSED = (
    ("too long", 3, frame(packet(60_000, 16_385))),
    ("bad RTP", 2, frame(bytes(12))),
    ("unknown channel", 4, frame(packet(60_000), 9)),
)

# How many frames come before the RECORD.
EARLY = 6

# Within how many seconds a line about a player that left comes, and about one that is disconnected; for how many seconds that one sends.
# It isn't disconnected before.
SOON, LATEST, SPEAKS = 10, 24, 15


def publish_round(camera, numbers):
    """Publishes these packets among frames that are refused, and waits until the server has read them."""
    refused = b"".join(text * count for _, count, text in REFUSED)
    half = len(numbers) // 2
    camera.publish(numbers[:half], LARGE)
    camera.send(refused)
    camera.publish(numbers[half:], LARGE)
    camera.is_read()


def watch(server, camera, viewers, is_hung_up):
    """Players watch rounds, during which none of them leaves, and leave; those that are left then watch one more round and the mount's
    end. How many packets were published."""
    first, cycling = BEFORE, [it for it in viewers if it.way == CYCLES]
    draining, staying = ([it for it in viewers if it.way == way] for way in (DRAINS, STAYS))
    leaving = [it for it in viewers if it.way not in (DRAINS, STAYS)]
    with concurrent.futures.ThreadPoolExecutor(len(viewers)) as pool:
        for place in range(ROUNDS):
            for it in cycling if place else viewers:
                it.begins(first)
            watch_round(pool, camera, [it for it in viewers if it.most != NOTHING], first)
            first += ROUND
            for it in cycling:
                it.pauses(first)
        finish([pool.submit(it.leaves, first) for it in leaving])
        if not until(SOON, lambda: all_left(server, [it.address for it in leaving])):
            raise AssertionError(f"no line tells of a player that left: {server.lines}")
        watch_round(pool, camera, draining, first)
        first += ROUND
        ends = [pool.submit(it.ends, first, is_hung_up) for it in draining]
        camera.tear_down()
        time.sleep(1)
        for it in staying:
            it.ends(first, is_hung_up)
        finish(ends)
    return first


def watch_round(pool, camera, viewers, first):
    """Players watch a round of packets, the first of which has this number."""
    reading = [pool.submit(it.reads_round, first + ROUND - 1) for it in viewers]
    publish_round(camera, range(first, first + ROUND))
    finish(reading)


def finish(calls):
    """Waits until calls have returned; fails if one of them has."""
    for it in calls:
        it.result()


def sums_close(program, *options):
    """What is told of each of twenty players at four speeds, which leave in nine ways, adds up to what was published while it was on its
    seat, as do the counts of their camera. If packets were refused, since a thread had no processor for 20 milliseconds in the middle of
    its copy, the first player has read what was published; if it lost some too, that isn't known, and all is tried again, twice."""
    options = options if "--keep" in options else ("--keep", "128", *options)
    keep = int(options[options.index("--keep") + 1])
    back = int(options[options.index("--back") + 1]) if "--back" in options else 0
    for _ in range(3):
        server, name, viewers, total = watched(program, *options)
        yield from camera_adds_up(server, name, total)
        is_refused = counts(server, name, "publisher of cam").get("pinned")
        if not is_refused or not counts(server, viewers[0].address, "player of cam").get("lost"):
            break
    else:
        yield "three times packets were refused, and the first player lost some"
        return
    published = [*range(BEFORE), *viewers[0].stays[0].numbers] if is_refused else [*range(total)]
    for it in viewers:
        yield from (f"one that reads {it.most} of {ROUND} and {it.way}: {what}" for what in adds_up(server, it, published, back, keep))


def watched(program, *options):
    """The players watch a camera to its end: the server, the camera's address, the players, and how many packets were sent to it."""
    used = "--seats", str(len(PLAYERS)), "--verbose", "--report", "1", *GATHER, *options
    with ending(program, len(PLAYERS) + 1, *used) as server, Camera(server, records=False) as camera, contextlib.ExitStack() as peers:
        name = camera.name()
        camera.send(frame(packet(60_000)) * EARLY)
        camera.record()
        camera.publish(range(BEFORE), LARGE)
        camera.is_read()
        viewers = [peers.enter_context(Viewer(server, *row)) for row in PLAYERS]
        total = watch(server, camera, viewers, "--keep-ended" not in options)
    return server, name, viewers, total


def camera_adds_up(server, name, total):
    """Each frame of the camera is counted once, and the line about its mount counts as its account does."""
    told = accounts(server, name, "publisher of cam")
    ended = [numbers_in(line.partition(" s: ")[2]) for line in server.lines if f"{name}: mount cam has ended after " in line]
    if len(told) != 1 or ended != told:
        yield f"the camera's account is told {told}, and at its mount's end {ended}"
        return
    wanted_counts = {word: count * (ROUNDS + 1) for word, count, _ in REFUSED} | {"no memory": 0, "strangers": EARLY}
    came = {word: told[0].get(word) for word in wanted_counts}
    if came != wanted_counts or told[0]["published"] + told[0]["pinned"] != total:
        yield f"of {total} packets and {wanted_counts} is told {told[0]}"
    reports = mounts_reported(server.lines)
    in_reports = [sum(it[word] for it in reports) for word in ("packets", "pinned", "long", "bad", "unknown", "unkept")]
    if in_reports != [told[0][word] for word in IN]:
        yield f"reports count {in_reports} in all, and its account {told[0]}"


def adds_up(server, viewer, published, back, keep):
    """A line about each stay of a player adds up, and its session's account has the sums of them."""
    left = left_by(server, viewer.address)
    if len(left) != len(viewer.stays):
        yield f"it has left {len(viewer.stays)} times, and is told {left}"
        return
    for stay, told in zip(viewer.stays, left):
        begin, end = bisect.bisect_left(published, stay.begin), bisect.bisect_left(published, stay.end)
        yield from stay_adds_up(viewer, stay, told, published[begin - min(back, keep):end], keep)
    session = accounts(server, viewer.address, "player of cam")
    sums = {word: sum(told[word] for told in left) for word in OUT}
    was_more = session and (any(session[0][word] for word in IN) or session[0]["strangers"] > viewer.said)
    if [{word: it.get(word) for word in OUT} for it in session] != [sums] or was_more:
        yield f"its account is told {session}, of stays with {sums}"
    in_reports = lost_by_peer(server.lines)[viewer.address]
    if in_reports != sums["lost"] and any("relay_server::reports" in line for line in server.lines):
        yield f"reports tell that it has lost {in_reports}, and its account {sums}"


def stay_adds_up(viewer, stay, told, due, keep):
    """All packets that were due to a player are counted once, and by the numbers that it read."""
    got = stay.numbers
    if sum(told[word] for word in OUT) != len(due) or told["skipped"] or told["unsent"] > viewer.most_unsent(keep):
        yield f"of {len(due)} packets is told {told}"
    if got != sorted(set(got)) or not set(got).issubset(due):
        yield f"of {due[:1]} to {due[-1:]} it reads {got}"
    if told["sent"] != len(got) if viewer.has_read_all() else told["sent"] < len(got):
        yield f"it has read {len(got)} packets, and is told {told}"
    if viewer.has_read_all():
        gaps = bisect.bisect_right(due, got[-1]) - len(got) if got else 0
        if not gaps <= told["lost"] or not (told["lost"] == gaps or told["unsent"] >= keep):
            yield f"{gaps} are missing before the last one that it reads, and it is told {told}"


def disconnected_accounts_add_up(program, *options):
    """So it is with players that the server disconnects: one that reads half and then nothing more, and one that reads nothing."""
    yield from disconnected(program, options, False)


def accounts_after_the_end_add_up(program, *options):
    """So it is if that is after the mount's end."""
    yield from disconnected(program, options, True)


def disconnected(program, options, ends_before):
    """Both stay until the server disconnects them, and send frames for a while. Then they read what their system had taken before."""
    with ending(program, 3, "--keep", "128", "--seats", "2", "--verbose", *GATHER, *options) as server, Camera(server) as camera:
        name = camera.name()
        with Viewer(server, HALF, WAITS) as half, Viewer(server, NOTHING, WAITS) as none:
            for it in half, none:
                it.begins(0)
            with concurrent.futures.ThreadPoolExecutor(1) as pool:
                reading = pool.submit(half.reads_round, ROUNDS * ROUND)
                for first in range(0, ROUNDS * ROUND, ROUND):
                    camera.publish(range(first, first + ROUND), LARGE)
                camera.is_read()
                reading.result()
            if ends_before:
                camera.tear_down()
            begun = time.monotonic()
            while not all_left(server, [half.address, none.address]) and time.monotonic() < begun + LATEST:
                # What comes as it is disconnected would reset its connection.
                for it in (half, none) if time.monotonic() < begun + SPEAKS else ():
                    it.speaks()
                camera.is_read()
                time.sleep(1)
            for it in half, none:
                it.stays[-1].end = ROUNDS * ROUND
                it.reads(5, lambda: False)
    told = counts(server, name, "publisher of cam")
    for it in half, none:
        if not told["pinned"]:
            yield from (f"one that reads {it.most}: {what}" for what in adds_up(server, it, list(range(ROUNDS * ROUND)), 0, 128))
        # Which packets were refused isn't known.
        elif sum(counts(server, it.address, "player of cam")[word] for word in OUT) != told["published"]:
            yield f"of {told} is told {accounts(server, it.address, 'player of cam')}"
        if ends_told(server, it.address) != [f"player of cam: {NO_ACKNOWLEDGEMENT}"]:
            yield f"of one that reads {it.most} is logged {ends_told(server, it.address)}"


# How many packets are published to a player of one of two tracks: first those that it all reads, then those of which it reads none.
READ, UNREAD = 40, 2_000


def skipped_packets_are_counted(program, *options):
    """Packets of a track that a player hasn't set up are skipped, and so are some of those that it doesn't read."""
    with ending(program, 2, "--seats", "1", "--verbose", *GATHER, *options) as server:
        with sets_both_up(server, "interleaved=0-1;mode=record", "interleaved=2-3;mode=record") as camera:
            wanted(camera.ask("RECORD", camera.url))
            with Viewer(server, ALL, CLOSES) as player:
                player.begins(0)
                numbers = [number for number in range(READ) if number % 4 < 2]
                camera.send(b"".join(frame(packet(number), number % 4) for number in range(READ)))
                player.reads(SOON, lambda: player.stays[0].numbers[-1:] == numbers[-1:])
                player.asks("PAUSE")
                player.begins(READ)
                camera.send(b"".join(frame(packet(number, LARGE), number % 4) for number in range(READ, READ + UNREAD)))
                camera.is_read()
    if player.stays[0].numbers != numbers:
        yield f"it reads {player.stays[0].numbers}"
    left = left_by(server, player.address)
    if left[:1] != [{"sent": READ // 2, "skipped": READ // 2, "lost": 0, "unsent": 0}] or len(left) != 2:
        yield f"of {READ} packets, half of which are of a track that isn't set up, is told {left}"
    elif sum(left[1].values()) != UNREAD or not all(left[1].values()) or abs(left[1]["sent"] - left[1]["skipped"]) > ON_THE_WAY:
        yield f"of {UNREAD} packets that aren't read is told {left[1]}"


LONG = [(disconnected_accounts_add_up, options) for options in (*MODES, ("--direct",))]
LONG += [(accounts_after_the_end_add_up, (*mode, *more)) for mode in MODES for more in ((), ("--keep-ended",))]
# Players that read nothing stop their mount for a while.
LONG += [(sums_close, ("--direct",))]

# To players that stay when their mount has ended, with the least ring, and with packets from before.
OTHERS = (), ("--keep-ended",), ("--keep", "1"), ("--back", "64")

PARTS = [(sums_close, (*mode, *others)) for mode in MODES for others in OTHERS]
PARTS += [(skipped_packets_are_counted, mode) for mode in MODES]

ALONE = []
