"""Whoever reads gets every packet: bursts, slow and stalled neighbours, and players that begin some packets back."""
import concurrent.futures
import contextlib
import pathlib
import subprocess
import sys
import time

from leaving import has_descriptors
from peers import GATHER, MODES, OPTIONS, OUT, Camera, Frame, Peer, Player, Reply, counts, ending, frame, packet, serving, until, wanted

# A ring keeps so many packets, and a burst has so many more that its publisher has to wait some twenty times. Were it not woken in
# each, the time that it may wait would be used up after four.
KEEP, BURST = 128, 2_000

# Three bursts of so many are to be whole: on a machine that does other work half of them are. By writers none or one is where the
# publisher isn't woken. All of them have numbers below 65,536.
BURSTS, WHOLE = 15, 3

# After so many seconds a publisher may wait for players anew.
ANEW = 0.2

# So many packets are published before the players that read have read them.
BATCH = 20

# So many packets of so many bytes are more than a system's buffers mostly hold.
PUBLISHED, LARGE = 2_000, 6_000

# For how many seconds players wait for the last of the packets that they are to read: it may have been refused.
LAST = 10


def numbers_up_to(player, last, seconds=LAST):
    """The numbers of the next packets up to this one, or up to a silence of so long, a reply or the end."""
    player.socket.settimeout(seconds)
    came = []
    with contextlib.suppress(TimeoutError):
        while came[-1:] != [last] and isinstance(it := player.next(), Frame):
            came.append(it.number)
    return came


def replied(player, method, status=200):
    """What comes next upon a request, where that isn't the reply of this status."""
    player.say(method, player.url)
    came = player.next()
    if not isinstance(came, Reply) or came.status != status:
        yield f"{method}: {came}, and not {status}"


def all_read(players, numbers):
    """Whether each player reads just the packets of these numbers next. Where one doesn't, the others read them all the same."""
    end = time.monotonic() + LAST
    return all([numbers_up_to(it, numbers[-1], max(end - time.monotonic(), 0.1)) == list(numbers) for it in players])


def bursts_are_read(camera, players, first):
    """Whether each player reads all of enough bursts, each of which comes in one write. The numbers begin with this one."""
    whole = 0
    for begin in range(first, first + BURSTS * BURST, BURST):
        numbers = range(begin, begin + BURST)
        camera.publish(numbers)
        whole += all_read(players, numbers)
        if whole == WHOLE:
            return True
        time.sleep(ANEW)
    return False


def batches_are_read(camera, players, first, size):
    """Whether each player reads each batch of packets of this size before the next one is published."""
    for begin in range(first, first + PUBLISHED, BATCH):
        numbers = range(begin, begin + BATCH)
        camera.publish(numbers, size)
        if not all_read(players, numbers):
            return False
    return True


def bursts_wait_for_readers(program, *options):
    """A burst waits for the five players that read, also when a sixth one has stopped reading: they read all of it."""
    with ending(program, 7, "--keep", str(KEEP), "--seats", "6", *GATHER, *options) as server, contextlib.ExitStack() as peers:
        camera = peers.enter_context(Camera(server))
        five = [peers.enter_context(Player(server)) for _ in range(5)]
        if not bursts_are_read(camera, five, 0):
            yield f"of {BURSTS} bursts fewer than {WHOLE} are read whole"
        stalled = peers.enter_context(Player(server))
        name, behind = stalled.name(), BURSTS * BURST
        if not batches_are_read(camera, five, behind, LARGE):
            yield "a packet of a batch is missing, beside one that has stopped reading"
        if not bursts_are_read(camera, five, behind + PUBLISHED):
            yield f"of {BURSTS} bursts fewer than {WHOLE} are read whole, beside one that has stopped reading"
    if not counts(server, name, "player of cam").get("lost"):
        yield "the one that has stopped reading lost nothing"


@contextlib.contextmanager
def busy_processors():
    """Four processes that do nothing but look whether this one is there; four processors are busy."""
    spin = "import os\nparent = os.getppid()\nprint(flush=True)\nwhile os.getppid() == parent:\n    pass"
    busy = [subprocess.Popen([sys.executable, "-IS", "-c", spin], stdout=subprocess.PIPE) for _ in range(4)]
    try:
        for it in busy:
            it.stdout.readline()
        yield
    finally:
        for it in busy:
            it.kill()
            it.communicate()


def read_slowly(player, pause=0.001):
    """Reads a packet after each such pause, to the end. Their numbers."""
    numbers = []
    while isinstance(it := player.next(), Frame):
        numbers.append(it.number)
        time.sleep(pause)
    return numbers


def two_read_beside_six(server):
    """Whether two players read every packet beside six slow ones, who don't, while nobody has a processor for itself."""
    with contextlib.ExitStack() as peers, concurrent.futures.ThreadPoolExecutor(6) as pool:
        with Camera(server) as camera:
            two = [peers.enter_context(Player(server)) for _ in range(2)]
            slow = [peers.enter_context(Player(server)) for _ in range(6)]
            reading = [pool.submit(read_slowly, it) for it in slow]
            with busy_processors():
                is_read = batches_are_read(camera, two, 0, LARGE)
        # The mount has ended, and so they come to the end.
        return max(len(it.result()) for it in reading) < PUBLISHED and is_read


def slow_players_cost_no_other(program, *options):
    """Slow players cost no other one a packet, one time of four: a thread that has no processor for 20 milliseconds in the middle of
    its copy costs all others one."""
    for _ in range(4):
        with ending(program, 9, "--keep", str(KEEP), "--seats", "8", *GATHER, *options) as server:
            if two_read_beside_six(server):
                return
    yield "four times one of the two misses a packet, or one of the six slow players none"


# The seconds between two packets that four players read.
SPEEDS = 0, 0.0005, 0.001, 0.003


def accounts_add_up_at_four_speeds(program, *options):
    """Four players that read at four speeds are sent rising numbers, and what is told of each adds up to all that was published."""
    with ending(program, 5, "--keep", "16", "--seats", "4", *GATHER, *options) as server:
        with contextlib.ExitStack() as peers, concurrent.futures.ThreadPoolExecutor(4) as pool:
            with Camera(server) as camera:
                players = [peers.enter_context(Player(server)) for _ in SPEEDS]
                names = [it.name() for it in (camera, *players)]
                reading = [pool.submit(read_slowly, player, pause) for player, pause in zip(players, SPEEDS)]
                camera.publish(range(PUBLISHED), LARGE)
            numbers = [it.result() for it in reading]
    # Who lost nothing has no line.
    told = counts(server, names[0], "publisher of cam") or {"published": PUBLISHED, "pinned": 0}
    if told["published"] + told["pinned"] != PUBLISHED:
        yield f"of {PUBLISHED} packets are told {told}"
    all_sent = {"sent": told["published"], "skipped": 0, "lost": 0, "unsent": 0}
    of_players = [counts(server, name, "player of cam") or all_sent for name in names[1:]]
    for came, sent in zip(numbers, of_players):
        if came != sorted(set(came)) or (len(came), told["published"]) != (sent["sent"], sum(sent[word] for word in OUT)):
            yield f"{len(came)} packets came, and of {told} is told {sent}"
    if of_players[-1]["lost"] == 0:
        yield f"the slowest one lost nothing: {of_players}"


def thirty_read_beside_ten(program, *options):
    """Thirty players read all beside ten that stall. Two writers have twenty players each."""
    with ending(program, 41, "--seats", "40", *GATHER, *options) as server, contextlib.ExitStack() as peers:
        camera = peers.enter_context(Camera(server))
        stalled = [peers.enter_context(Player(server)) for _ in range(10)]
        names = [it.name() for it in stalled]
        camera.publish(range(PUBLISHED), LARGE)
        camera.is_read()
        readers = [peers.enter_context(Player(server)) for _ in range(30)]
        if not batches_are_read(camera, readers, PUBLISHED, 12):
            yield "a packet is missing"
    lost = [counts(server, it, "player of cam").get("lost") for it in names]
    if not all(lost):
        yield f"those that stall have lost {lost}"


def stalled_one_reads_again(program, *options):
    """A stalled player that reads again misses what was lost, and all else comes in order up to the last packet. Nobody else reads, so
    that no publisher waits; the reply to the PAUSE comes after whole frames."""
    with ending(program, 2, "--seats", "1", *GATHER, *options) as server, Camera(server) as camera, Player(server) as stalled:
        name = stalled.name()
        camera.publish(range(PUBLISHED), LARGE)
        camera.is_read()
        numbers = numbers_up_to(stalled, PUBLISHED - 1)
        if numbers != sorted(set(numbers)) or numbers[-1:] != [PUBLISHED - 1]:
            yield f"numbers fall, or come twice, or the last one doesn't come: {numbers}"
        for status in 200, 455:
            yield from replied(stalled, "PAUSE", status)
    lost = counts(server, name, "player of cam").get("lost")
    if not lost or lost != PUBLISHED - len(numbers):
        yield f"{PUBLISHED - len(numbers)} packets are missing, and the line tells of {lost}"


# How many packets are a full batch, which gathers no longer, and after how many seconds the others follow the first one, so that this one
# gathers. How many batches come, each after the one before was read, and in how many seconds. If each gathered for a tenth of a second,
# they would take two.
FULL, FOLLOW, BATCHES, AT_MOST = 16, 0.01, 20, 1


def full_batches_gather_no_longer(program, *options):
    """A batch comes as soon as it's full, though its first packet has begun to gather for longer: one time of four."""
    with ending(program, 2, "--gather", "100", "--seats", "1", *options) as server, Camera(server) as camera, Player(server) as player:
        took = []
        for attempt in range(4):
            begun = time.monotonic()
            for place in range(BATCHES):
                first = (attempt * BATCHES + place) * FULL
                camera.publish([first])
                time.sleep(FOLLOW)
                camera.publish(range(first + 1, first + FULL))
                if (came := player.numbers(FULL)) != list(range(first, first + FULL)):
                    yield f"of the {FULL} packets from {first} on come {came}"
            took.append(time.monotonic() - begun)
            if took[-1] < AT_MOST:
                return
        yield f"{BATCHES} full batches take {took} seconds"


# After how many seconds a packet has come that isn't gathered, and before how many none has that is: packets gather for a tenth of a second,
# and begin to up to a fiftieth earlier. After how many a gathering is surely over.
AT_ONCE, GATHERED, OVER = 0.04, 0.06, 0.15


def seconds_of(camera, player, number):
    """For how many seconds a packet is under way."""
    begun = time.monotonic()
    camera.publish([number])
    if (came := player.numbers(1)) != [number]:
        raise AssertionError(f"for packet {number} come {came}")
    return time.monotonic() - begun


def packets_that_gather(cameras, players):
    """Which packets of two new mounts are gathered that shouldn't be, and the other way round. Each row: how many seconds to wait, the
    mount, and whether its packet is gathered."""
    rows = [(OVER, 0, True), (OVER, 1, True)]
    # A packet alone comes at once, and within its gathering one of the other mount doesn't; nor does the next of the same one.
    rows += [(OVER, 0, False), (0.01, 1, True), (OVER, 0, False), (0.01, 0, True)]
    # That gathering brought two, and so the next packet is gathered; that brought one.
    rows += [(OVER, 0, True), (OVER, 0, False), (OVER, 1, False)]
    for place, (before, mount, is_gathered) in enumerate(rows):
        time.sleep(before)
        took = seconds_of(cameras[mount], players[mount], place)
        if not (took > GATHERED if is_gathered else took < AT_ONCE):
            yield f"packet {place} of {rows} takes {took:.3f} seconds"


def single_packets_come_at_once(program, *options):
    """A packet that begins a gathering comes at once if its mount's last one brought one packet: one time of four."""
    for _ in range(4):
        with ending(program, 4, "--gather", "100", "--seats", "1", *options) as server, contextlib.ExitStack() as peers:
            cameras = [peers.enter_context(Camera(server, name)) for name in ("cam", "door")]
            players = [peers.enter_context(Player(server, name)) for name in ("cam", "door")]
            faults = list(packets_that_gather(cameras, players))
        if not faults:
            return
    yield from faults


# So often a full batch comes after a packet alone, and after how many seconds they have come in all. A gathering that is over early, which
# happens, makes one of them short.
AFTER_ONE, BATCHES_OVER = 10, 0.25


def seconds_after_one(camera, player, first):
    """For how many seconds a full batch is under way after a gathering that brought one packet."""
    for number in first, first + 1:
        time.sleep(OVER)
        seconds_of(camera, player, number)
    time.sleep(OVER)
    batch, begun = list(range(first + 2, first + 2 + FULL)), time.monotonic()
    camera.publish(batch)
    if (came := player.numbers(FULL)) != batch:
        raise AssertionError(f"for packets {batch} come {came}")
    return time.monotonic() - begun


def batches_after_one_gather_no_longer(program, *options):
    """A full batch after a packet alone is sixteen with its first packet, which comes at once: one time of two."""
    with ending(program, 2, "--gather", "100", "--seats", "1", *options) as server, Camera(server) as camera, Player(server) as player:
        firsts, took = iter(range(0, 2 * AFTER_ONE * (FULL + 2), FULL + 2)), []
        for _ in range(2):
            took.append([seconds_after_one(camera, player, next(firsts)) for _ in range(AFTER_ONE)])
            if sum(took[-1]) < BATCHES_OVER:
                return
        yield f"{AFTER_ONE} full batches, each after a packet alone, take {took} seconds"


# So many times two packets of each of two mounts come while both gather. The players of both are to be woken for each.
TOGETHER = 5


def mounts_that_gather_together_come_together(program, *options):
    """Of two mounts that are woken at once the players of both read what came, though nothing follows."""
    with ending(program, 4, "--gather", "100", "--seats", "1", *options) as server, contextlib.ExitStack() as peers:
        cameras = [peers.enter_context(Camera(server, name)) for name in ("cam", "door")]
        players = [peers.enter_context(Player(server, name)) for name in ("cam", "door")]
        for number in range(0, 2 * TOGETHER, 2):
            both = [number, number + 1]
            for camera in cameras:
                camera.publish(both)
            if (came := [numbers_up_to(player, number + 1, 3) for player in players]) != [both] * 2:
                yield f"of the packets {both} of two mounts come {came}"


# So many packets of 16,000 bytes are more than a socket's buffers hold.
VERY_LARGE = 800

# So many players read nothing. Each has so many replies more to read than the one before it, so that they aren't all held up between
# two looks at the ring, where one in some twenty writes is.
STALLED, REPLIES = 3, 150


def stalled_hold_up_their_mount_alone(program, *options):
    """Players that read nothing stop their mount until they have left, and no other mount; then each seat is free again."""
    with ending(program, 9, "--direct", "--keep", "64", "--gather", "100", "--seats", str(STALLED), *options) as server:
        with Camera(server, "first") as first, Camera(server, "second") as second, Player(server, "second") as reader:
            name = first.name()
            with contextlib.ExitStack() as peers:
                for place in range(STALLED):
                    stalled = peers.enter_context(Player(server, "first"))
                    stalled.send(OPTIONS * REPLIES * place)
                first.publish(range(VERY_LARGE), 16_000)
                first.is_read()
                second.send(frame(packet(1, source=2)))
                if (came := reader.next()) != Frame(4, packet(1, source=2)):
                    yield f"the other mount's player reads {came}"
            yield from seats_are_free(server, first)
    told = counts(server, name, "publisher of first")
    if not told.get("pinned") or told["published"] + told["pinned"] != VERY_LARGE + 1:
        yield f"of {VERY_LARGE + 1} packets the line tells {told}"


def seats_are_free(server, camera):
    """As many players as there are seats play soon, and read the next packet."""
    with contextlib.ExitStack() as peers:
        players = [peers.enter_context(Player(server, "first", plays=False)) for _ in range(STALLED)]
        for player in players:
            # Sooner than a write to a peer that reads nothing fails.
            if not until(10, lambda: player.play().status == 200):
                yield "a seat isn't free"
        camera.send(frame(packet(9, source=1)))
        for player in players:
            if (came := player.next()) != Frame(4, packet(9, source=1)):
                yield f"a player that came later reads {came}"


# How many packets were published before the player comes.
BEFORE = 300

# What `--keep` and `--back` are, and how many packets a player is given.
ROWS = (512, 1, 1), (512, 200, 200), (512, 4095, BEFORE), (40, 40, 40), (40, 41, 40), (40, 4095, 40)


def last_packets_at_once(program, *options):
    """A player is given as many of the last packets as are asked for, but none that isn't kept, and no more than there are."""
    for keep, back, given in ROWS:
        with ending(program, 2, "--keep", str(keep), "--back", str(back), "--seats", "1", *GATHER, *options) as server:
            yield from (f"--keep {keep} --back {back}: {what}" for what in begins_before(server, given))


def begins_before(server, given):
    """The publisher is silent when the player comes, which is told no point and reads so many of the last packets at once, and then goes
    on."""
    with Camera(server) as camera:
        camera.publish(range(BEFORE), LARGE)
        camera.is_read()
        with Player(server, plays=False) as player:
            player.say("PLAY", player.url)
            came = player.next()
            if came != Reply(200, f"RTSP/1.0 200 OK\r\nCSeq: 1\r\nSession: {player.session}\r\n\r\n".encode(), b""):
                yield f"PLAY: {came}"
            if (came := player.numbers(given)) != list(range(BEFORE - given, BEFORE)):
                yield f"it is given {came}, and not the last {given} of {BEFORE}"
            camera.publish(range(BEFORE, BEFORE + 5), LARGE)
            if (came := player.numbers(5)) != list(range(BEFORE, BEFORE + 5)):
                yield f"it goes on with {came}, and not with {BEFORE} and the next four"


# On which channel a packet goes out that came on channel 0, 1, 2 or 3.
GOES_OUT_ON = 6, 7, 4, 5


def sets_both_up(server, *transports):
    """A peer that has set both tracks of the mount up, after it has announced them where it records."""
    peer = Peer(server)
    peer.url = f"rtsp://{server.address}/cam"
    if transports[0].endswith(";mode=record"):
        wanted(peer.ask("ANNOUNCE", peer.url, body=b"v=0\nm=video 0 RTP/AVP 96\nm=audio 0 RTP/AVP 0\n"))
    for track, transport in enumerate(transports):
        if (status := peer.set_up(f"{peer.url}/trackID={track}", transport)) != 200:
            raise AssertionError(f"SETUP of track {track}: {status}")
    return peer


def last_of_all_tracks(program, *options):
    """The last packets are those of all tracks: seven back are two of each channel but one, of which there is one."""
    with ending(program, 2, "--back", "7", "--seats", "1", *GATHER, *options) as server:
        with sets_both_up(server, "interleaved=0-1;mode=record", "interleaved=2-3;mode=record") as camera:
            wanted(camera.ask("RECORD", camera.url))
            camera.send(b"".join(frame(packet(number), number % 4) for number in range(20)))
            wanted(camera.ask("OPTIONS", "*"))
            with sets_both_up(server, "interleaved=6-7", "interleaved=4-5") as player:
                wanted(player.ask("PLAY", player.url))
                yield from reads_on_channels(player, range(13, 20))
                camera.send(b"".join(frame(packet(number), number % 4) for number in range(20, 24)))
                yield from reads_on_channels(player, range(20, 24))


def reads_on_channels(player, numbers):
    """The packets of these numbers come next, each on its own channel."""
    for number in numbers:
        if (came := player.next()) != Frame(GOES_OUT_ON[number % 4], packet(number)):
            yield f"{came}, and not {number} on channel {GOES_OUT_ON[number % 4]}"


# How many packets are published before a stay of a player and during it, and how many it is sent. After the first pause both packets back
# are older than it, after the second one of them is, and after the third none.
STAYS = (10, 3, 5), (0, 0, 2), (1, 4, 6), (3, 1, 3)


def each_play_goes_back(program, *options):
    """Each PLAY goes back from where the log ends: a player that pauses after each stay reads the last two packets and those of the
    stay, in order, and nothing else; a line tells of each."""
    with ending(program, 2, "--back", "2", "--seats", "1", "--verbose", *GATHER, *options) as server:
        with Camera(server) as camera, Player(server, plays=False) as player:
            name, first = player.name(), 0
            for before, during, sent in STAYS:
                camera.publish(range(first, first + before), LARGE)
                camera.is_read()
                first += before
                yield from stays(camera, player, range(first - 2, first), range(first, first + during))
                first += during
    left = f"[INFO  relay_server::events] {name}: leaves seat 0 of cam: "
    told = [line for line in server.lines if "leaves" in line]
    if told != [f"{left}sent {sent}, skipped 0, lost 0, unsent 0" for _, _, sent in STAYS]:
        yield f"of the stays is told {told}"


def stays(camera, player, back, during):
    """A stay of a player that is given the first of these packets, while the others are published."""
    yield from replied(player, "PLAY")
    camera.publish(during, LARGE)
    numbers = [*back, *during]
    if (came := player.numbers(len(numbers))) != numbers:
        yield f"{came}, and not {numbers}"
    # A PLAY of what plays begins nothing anew (RFC 2326, 10.5).
    for method in "PLAY", "PAUSE":
        yield from replied(player, method)


# How many players of a mount get no packets.
QUIET = 600

# How many packets a player of another mount reads, one after the other.
SINGLE = 250

# How many times the writers' processor time of that player alone it may be beside the others. In four runs a sweep that passes over them took 1.0 to 1.3
# times, all threads counted. A build with a sanitizer, which isn't tried here, took 2.7 times, and 16 times with a sweep that looks at each of them.
# On a machine that does other work for a while it may be twice in one try of them, so each is tried again.
COST, TRIES = 2, 5


def threads_of(server):
    """The threads that a server has now."""
    return list(pathlib.Path(f"/proc/{server.pid}/task").iterdir())


def processor(threads):
    """The seconds of processors that these threads have taken."""
    return sum(int((it / "schedstat").read_text().split()[0]) for it in threads) / 1e9


def cost_of_singles(threads, camera, player, first):
    """The seconds of processors for packets that are read one after the other, the first of this number."""
    begun = processor(threads)
    for number in range(first, first + SINGLE):
        camera.publish([number])
        if player.numbers(1) != [number]:
            raise AssertionError(f"{number} isn't read")
    return processor(threads) - begun


def quiet_players_cost_little(program):
    """Players of a mount without packets cost the writers of another mount little: a sweep passes over them."""
    if not has_descriptors(quiet_players_cost_little):
        return
    with serving(program, "--seats", str(QUIET)) as server, contextlib.ExitStack() as peers:
        camera, player = peers.enter_context(Camera(server)), peers.enter_context(Player(server))
        # The threads that read the quiet players' connections come later.
        threads = threads_of(server)
        alone = min(cost_of_singles(threads, camera, player, first) for first in range(0, TRIES * SINGLE, SINGLE))
        peers.enter_context(Camera(server, "quiet"))
        for _ in range(QUIET):
            peers.enter_context(Player(server, "quiet"))
        beside = min(cost_of_singles(threads, camera, player, first) for first in range(TRIES * SINGLE, 2 * TRIES * SINGLE, SINGLE))
        if beside > COST * alone:
            yield f"{1000 * beside:.0f} ms of processors, and {1000 * alone:.0f} without them"


LONG = []

PARTS = [
    *((part, mode) for part in (bursts_wait_for_readers, accounts_add_up_at_four_speeds, last_packets_at_once) for mode in MODES),
    *((part, mode) for part in (last_of_all_tracks, each_play_goes_back) for mode in MODES),
    *((part, mode) for part in (thirty_read_beside_ten, stalled_one_reads_again) for mode in MODES),
    *((mounts_that_gather_together_come_together, mode) for mode in MODES),
    (stalled_hold_up_their_mount_alone, ()),
]

ALONE = [(part, mode) for part in (slow_players_cost_no_other, full_batches_gather_no_longer, single_packets_come_at_once, batches_after_one_gather_no_longer) for mode in MODES]
ALONE += [(quiet_players_cost_little, ())]
