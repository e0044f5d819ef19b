"""What lines on standard error tell of mounts, players and silence."""
import collections
import concurrent.futures
import contextlib
import pathlib
import re
import select
import subprocess
import time

from peers import GATHER, LISTENS, MODES, OF_BUFFERS, PLAYER_REPORT, SDP, Camera, Frame, Peer, Player, counts, ending, ends_told
from peers import frame, mounts_reported, packet, until, wanted


def come_and_go(server):
    """A camera records a packet that a player reads, who pauses then. The camera ends its mount, announces another one, which is never
    recorded, and closes. Their names."""
    with Camera(server) as camera, Player(server) as player:
        camera.publish([7])
        if (came := player.next()) != Frame(4, packet(7)):
            raise AssertionError(f"the player reads {came}")
        wanted(player.ask("PAUSE", player.url))
        wanted(camera.ask("TEARDOWN", camera.url))
        camera.session = None
        wanted(camera.ask("ANNOUNCE", "rtsp://h/a%20b", body=b"v=0\nm=video 0 RTP/AVP 96\nm=audio 0 RTP/AVP 0    \n"))
        return camera.name(), player.name()


def nothing_is_told_unasked(program, *options):
    """Nothing is told that isn't asked for."""
    with ending(program, 2, "--seats", "4", *GATHER, *options) as server:
        come_and_go(server)
    if server.lines:
        yield f"it tells {server.lines}"


COUNTED = "published {}, pinned 0, too long 0, bad RTP 0, unknown channel 0, no memory 0; sent {}, skipped 0, lost 0, unsent 0; strangers 0"

# The lines of a verbose server about a camera and about its player: the first mount has published a packet, and the other one was never
# recorded.
OF_CAMERA = (
    "mount cam is announced, 1 track",
    "mount cam is recorded",
    r"mount cam has ended after \d+ s: " + COUNTED.format(1, 0),
    "publisher of cam: " + COUNTED.format(1, 0),
    "mount a%20b is announced, 2 tracks",
    "mount a%20b has ended: " + COUNTED.format(0, 0),
)

OF_PLAYER = (
    "plays cam from seat 3",
    "leaves seat 3 of cam: sent 1, skipped 0, lost 0, unsent 0",
    "player of cam: " + COUNTED.format(0, 1),
)


def verbose_tells_of_mounts_and_players(program, *options):
    """A verbose server has a line about mounts, players and sessions as they come and go, and no other."""
    with ending(program, 2, "--seats", "4", "--verbose", *GATHER, *options) as server:
        names = come_and_go(server)
    for name, texts in zip(names, (OF_CAMERA, OF_PLAYER)):
        head = f"[INFO  relay_server::events] {name}: "
        came = [line.removeprefix(head) for line in server.lines if line.startswith(head)]
        if len(came) != len(texts) or not all(map(re.fullmatch, texts, came)):
            yield f"{came}, and not {texts}"
    if len(server.lines) != len(OF_CAMERA) + len(OF_PLAYER):
        yield f"there are other lines: {server.lines}"


# So many packets of so many bytes are more than a socket's buffers hold.
PACKETS, LARGE = 2_000, 6_000

MORE = re.compile(r"\[INFO  relay_server::reports\] (\d+) more")


def publish_to_one_that_stalls(server):
    """A camera publishes to a player that reads nothing, for some two and a half seconds; both close. Their names."""
    with Camera(server) as camera, Player(server) as stalled:
        for first in range(0, PACKETS, PACKETS // 100):
            camera.publish(range(first, first + PACKETS // 100), LARGE)
            time.sleep(0.025)
        camera.is_read()
        return camera.name(), stalled.name()


def adds_up(server, camera, player):
    """Reports count all that was offered to the mount, and what the player lost, since then and in all: the sums are those of its account."""
    told = mounts_reported(server.lines)
    packets, size, pinned = (sum(it[word] for it in told) for word in ("packets", "bytes", "pinned"))
    if packets + pinned != PACKETS or size != packets * LARGE or {it["publisher"] for it in told} != {camera}:
        yield f"of {PACKETS} packets of {camera} is told {told}"
    sent, lost, last = 0, 0, counts(server, player, "player of cam")
    for it in players_reported(server.lines):
        sent, lost = sent + int(it["sent"]), lost + int(it["lost"])
        if (it["peer"], int(it["all"])) != (player, lost) or it["lost"] == "0":
            yield f"{it['peer']} has lost {it['all']} in all, and not {player} {lost}"
    if not last or lost != last["lost"] or not 0 < sent <= last["sent"]:
        yield f"reports tell {sent} packets sent and {lost} lost, and the last line {last}"


def players_reported(lines):
    """The lines of reports about players."""
    return [found.groupdict() for found in map(PLAYER_REPORT.fullmatch, lines) if found]


def reports_add_up(program, *options):
    """What is reported once in a second adds up, while packets come."""
    with ending(program, 2, "--report", "1", "--keep", "8", "--seats", "1", *GATHER, *options) as server:
        names = publish_to_one_that_stalls(server)
    yield from adds_up(server, *names)
    reports = mounts_reported(server.lines)
    if len(reports) < 2 or reports[0]["players"] != 1:
        yield f"there is no report meanwhile: {reports}"


# So many packets come once all that a stalled player's socket and its ring take have come.
LATER = 100


def losses_of_one_that_stands_are_reported(program, *options):
    """What a player loses that takes nothing any more is reported while it stays."""
    with ending(program, 2, "--report", "1", "--keep", "8", "--seats", "1", *GATHER, *options) as server:
        with Camera(server) as camera, Player(server):
            camera.publish(range(PACKETS), LARGE)
            camera.is_read()
            # A report passes.
            time.sleep(1.5)
            before = len(players_reported(list(server.lines)))
            camera.publish(range(PACKETS, PACKETS + LATER))
            camera.is_read()
            if not until(3, lambda: len(players_reported(list(server.lines))) > before):
                yield f"what it loses isn't reported: {server.lines}"


def last_report_adds_up(program, *options):
    """What is reported in the end alone adds up."""
    with ending(program, 2, "--report", "3600", "--keep", "8", "--seats", "1", *GATHER, *options) as server:
        names = publish_to_one_that_stalls(server)
    yield from adds_up(server, *names)
    if len(mounts_reported(server.lines)) != 1:
        yield f"there isn't just one report: {server.lines}"


# More packets than a socket takes; the ring keeps them all.
KEPT = 200


def each_loss_is_reported_under_its_players_name(program, *options):
    """A player that lost nothing pauses while its socket takes nothing, and leaves the only seat to another one. Reports count the losses
    of each as its own account does."""
    told = "--report", "1", "--verbose", "--send-buffer", "65536", "--seats", "1"
    with ending(program, 3, *told, *GATHER, *options) as server, Camera(server) as camera:
        with Player(server) as first, Player(server, plays=False) as second:
            names = first.name(), second.name()
            first.take_little()
            camera.publish(range(KEPT), LARGE)
            camera.is_read()
            # Until its socket takes nothing more.
            time.sleep(0.5)
            first.say("PAUSE", first.url)
            if not second.plays_at_last():
                yield "the seat isn't free"
            camera.publish(range(PACKETS), LARGE)
            camera.is_read()
            # At least one report has come meanwhile.
            time.sleep(2.2)
            first.reply()
    lost, due = lost_by_peer(server.lines), [counts(server, it, "player of cam").get("lost") for it in names]
    if [lost[it] for it in names] != due or due[0] != 0 or not due[1]:
        yield f"reports tell of {lost}, and accounts of {due}: {server.lines}"


# So many players lose nine of ten packets each, more of them than lines are told at once.
PLAYERS, LOST = 110, 9


def lost_by_peer(lines):
    """How many packets each peer is told to have lost."""
    lost = collections.Counter()
    for it in players_reported(lines):
        lost[it["peer"]] += int(it["lost"])
    return lost


def sleeps(server):
    """Whether none of its threads has anything to do, and still hasn't when it is looked again."""
    tasks = list(pathlib.Path(f"/proc/{server.pid}/task").iterdir()) * 3
    return all((it / "stat").read_text().rpartition(") ")[2].startswith("S") for it in tasks)


def hundred_lines_at_once(program, *options):
    """A hundred lines are told at once, and the others later. The ring keeps one packet, and players are woken once all ten have come.
    Reports are far apart, so that none is likely to fall into the moment in which the players take."""
    told = "--report", "3", "--keep", "1", "--gather", "100", "--seats", str(PLAYERS)
    with ending(program, PLAYERS + 1, *told, *options) as server, contextlib.ExitStack() as peers:
        camera = peers.enter_context(Camera(server))
        players = [peers.enter_context(Player(server)) for _ in range(PLAYERS)]
        # No writer looks at its players any more because the last one came: it would take a packet before the ten have come.
        if not until(10, lambda: sleeps(server)):
            yield "its threads don't sleep"
        camera.publish(range(10))
        until(30, lambda: lost_by_peer(list(server.lines)).total() >= PLAYERS * LOST)
        lines = list(server.lines)
        if (lost := lost_by_peer(lines)) != {it.name(): LOST for it in players}:
            yield f"{len(lost)} players are told to have lost {lost.total()} packets, and not {PLAYERS} of them {LOST} each"
        more = next((line for line in lines if MORE.fullmatch(line)), None)
        before = more and len(players_reported(lines[:lines.index(more)]))
        # The mount's own line may be one of the hundred.
        if before not in (99, 100) or MORE.fullmatch(more)[1] != str(PLAYERS - before):
            yield f"{before} players' lines come before {more!r}"


# For how many seconds a connection may be silent without a session, and after how many it must be hung up: it is looked at every two.
IDLE, SURELY = 3, 10


def hung_up_after(peer, begun):
    """How many seconds later it is hung up."""
    if not peer.is_hung_up():
        raise AssertionError(f"something comes to {peer.name()}")
    return time.monotonic() - begun


def silence_is_hung_up(program, *options):
    """Silence without a session is hung up with a line, and not before its time: of one that says nothing, one that says a byte now and
    then, one that says one half of a message after the other, and one that has announced a mount. One that asks stays."""
    with ending(program, 5, "--idle", str(IDLE), "--seats", "1", *options) as server, contextlib.ExitStack() as peers:
        begun, url, free = time.monotonic(), f"rtsp://{server.address}/cam", None
        asking, silent, slow, half, owner = (peers.enter_context(Peer(server)) for _ in range(5))
        wanted(owner.ask("ANNOUNCE", url, body=SDP))
        wanted(asking.ask("ANNOUNCE", url, body=SDP), 403)
        names = [it.name() for it in (silent, slow, half, owner)]
        pool = peers.enter_context(concurrent.futures.ThreadPoolExecutor(4))
        ends = [pool.submit(hung_up_after, it, begun) for it in (silent, slow, half, owner)]
        while concurrent.futures.wait(ends, 0.2).not_done:
            for peer, text in (slow, b"O"), (half, b"OPTIONS * RTSP/1.0 CSeq: 1 "):
                with contextlib.suppress(OSError):
                    peer.send(text)
            wanted(asking.ask("OPTIONS", "*"))
            if not free and asking.ask("ANNOUNCE", url, body=SDP).status == 200:
                free = time.monotonic() - begun
        if not free:
            wanted(asking.ask("ANNOUNCE", url, body=SDP))
        passed = [it.result() for it in ends] + [free or IDLE]
        if min(passed) < IDLE - 0.1 or max(passed) > SURELY:
            yield f"four are hung up and the mount is free after {passed} s, and not after {IDLE}"
    others = [line for line in server.lines if " refused 403 on cam, " not in line]
    if [ends_told(server, it) for it in names] != [["silent without a session"]] * 4 or len(others) != 4:
        yield f"it tells {server.lines}"


# How many frames of each kind come, and the word that counts them: packets, those that are too long, no RTP, and those of no track.
KINDS = ("packets", 5, packet(7)), ("long", 7, packet(7, 101)), ("bad", 3, bytes(12)), ("unknown", 2, packet(7))


def refused_frames_are_reported(program):
    """Frames that are refused are counted in the next report, while their camera goes on and says nothing else."""
    with ending(program, 1, "--report", "1", "--packet-bytes", "100") as server, Camera(server) as camera:
        name, due = camera.name(), {word: count for word, count, _ in KINDS}
        for word, count, text in KINDS:
            camera.send(frame(text, 9 if word == "unknown" else 0) * count)
        if not until(3, lambda: reported(server, name, due) == due):
            yield f"of {due} is told {server.lines}"
        camera.is_read()
    # The report at the end counts none of them again.
    if (came := reported(server, name, due)) != due:
        yield f"of {due} is told {came} in all"


def reported(server, name, words):
    """What reports count of this camera in all, by these words."""
    rows = [it for it in mounts_reported(list(server.lines)) if (it["mount"], it["publisher"]) == ("cam", name)]
    return {word: sum(it[word] for it in rows) for word in words}


def silent_camera_is_reported(program):
    """A camera that publishes nothing, though frames of it are refused, has a line in each report, which tells for how many seconds after
    more than two. The server runs for three seconds before."""
    with ending(program, 1, "--report", "1") as server:
        time.sleep(3)
        with Camera(server) as camera:
            for _ in range(11):
                camera.send(frame(bytes(12)))
                time.sleep(0.5)
            camera.publish([7])
            time.sleep(1.5)
            told = [(it["packets"], it["silent"]) for it in mounts_reported(list(server.lines))]
    before = told[:told.index((1, 0))] if (1, 0) in told else told
    silent = [seconds for _, seconds in before]
    if (1, 0) not in told or len(before) not in (5, 6) or any(packets for packets, _ in before):
        yield f"it tells {told}"
    if silent != sorted(silent) or silent[:2] != [0, 0] or not 4 <= silent[-1] <= 5 or not set(silent) <= {0, 3, 4, 5}:
        yield f"it tells of silence {silent}"


def slowed_camera_is_reported(program, *options):
    """For how long a camera waits for its players is in the reports while it goes on; the sum is that of its account."""
    with ending(program, 2, "--report", "1", "--keep", "128", "--seats", "1", *GATHER, *options) as server, Camera(server) as camera:
        name = camera.name()
        with Player(server) as player, concurrent.futures.ThreadPoolExecutor(1) as pool:
            reading = pool.submit(player.reply)
            for first in range(0, 30_000, 2_000):
                camera.publish(range(first, first + 2_000), 1_200)
                time.sleep(0.1)
            camera.is_read()
            if not until(3, lambda: any(it["slowed"] for it in mounts_reported(list(server.lines)))):
                yield f"it tells {server.lines}"
            player.fall_silent()
            reading.result()
    in_reports, last = sum(it["slowed"] for it in mounts_reported(server.lines)), counts(server, name, "publisher of cam").get("slowed")
    if in_reports != last:
        yield f"reports tell of {in_reports} ms, and its account of {last}"


# How many packets of 1,200 bytes are published, half of which a player reads: in the end it is 2.4 MB behind.
STEADY, STEP = 4_000, 100


def loss_is_reported_soon(program, *options):
    """A player that reads half of a stream is reported to lose packets before it is 2.4 MB behind: its send buffer doesn't hold more."""
    told = "--report", "1", "--keep", "128", "--send-buffer", "131072", "--seats", "1"
    with ending(program, 2, *told, *GATHER, *options) as server:
        with Camera(server) as camera, Player(server) as player:
            player.take_little()
            for first in range(0, STEADY, STEP):
                camera.publish(range(first, first + STEP), 1_200)
                camera.is_read()
                player.numbers(STEP // 2)
            if not until(3, lambda: lost_by_peer(list(server.lines))[player.name()]):
                yield f"no loss is reported: {server.lines}"


# How many packets come at once before a mount's end. The ring keeps one.
LAST = 10


def losses_at_an_end_are_reported(program, *options):
    """What a player loses of the last packets of its mount is reported while it stays. It is woken once all of them have come."""
    told = "--report", "1", "--keep", "1", "--gather", "100", "--seats", "1"
    with ending(program, 2, *told, *options) as server, Camera(server) as camera, Player(server) as player:
        if not until(10, lambda: sleeps(server)):
            yield "its threads don't sleep"
        camera.publish(range(LAST))
        camera.tear_down()
        came = player.numbers(1)
        while came[-1:] and came[-1] != LAST - 1:
            came += player.numbers(1)
        due = {player.name(): LAST - len(came)}
        if not until(3, lambda: lost_by_peer(list(server.lines)) == due) or len(came) == LAST:
            yield f"it reads {came}, and is told {server.lines}"


# What may be asked for as send buffers, and the greatest that is taken.
DEFAULT, LEAST, GREATEST = 524_288, 16_384, 4_194_304


def small_send_buffers_are_told(program):
    """If the system grants less than what is asked for, or than the default, one line at the start tells so, and else none."""
    most = int(pathlib.Path("/proc/sys/net/core/wmem_max").read_text())
    for asked, options in (DEFAULT, ()), *((it, ("--send-buffer", str(it))) for it in (0, LEAST, GREATEST)):
        ran = subprocess.run(
            [program, "serve", "127.0.0.1:0", "--until-eof", *options], input="", capture_output=True, text=True, timeout=30
        )
        lines = [line for line in ran.stderr.splitlines() if not LISTENS.match(line)]
        # The system doubles what a socket is set to.
        is_due, may_be = most < asked // 2, most < asked
        well = all(OF_BUFFERS.match(it) and re.search(rf"\b{asked}\b.*: net\.core\.wmem_max is too small", it) for it in lines)
        if ran.returncode != 0 or not well or not is_due <= len(lines) <= may_be:
            yield f"{options}, of {most} bytes, tells {lines}, with status {ran.returncode}"


def silence_lasts_without_limit(program, *options):
    """Without a limit nobody is hung up whose connection has no session: it is looked at three times meanwhile."""
    with ending(program, 1, "--idle", "0", "--seats", "1", *options) as server, Peer(server) as silent:
        if select.select([silent.socket], [], [], 7)[0]:
            yield f"it is hung up: {server.lines}"
        wanted(silent.ask("OPTIONS", "*"))


# These wait, and do next to nothing else.
LONG = [(part, ()) for part in (silence_is_hung_up, silence_lasts_without_limit, silent_camera_is_reported)]

PARTS = [
    (hundred_lines_at_once, ("--writers", "2")),
    *((part, mode) for part in (reports_add_up, last_report_adds_up, verbose_tells_of_mounts_and_players) for mode in MODES),
    *((part, mode) for part in (slowed_camera_is_reported, loss_is_reported_soon) for mode in MODES),
    *((losses_of_one_that_stands_are_reported, mode) for mode in MODES),
    *((part, mode) for part in (each_loss_is_reported_under_its_players_name, losses_at_an_end_are_reported) for mode in MODES),
    (nothing_is_told_unasked, ("--writers", "0")),
    *((part, ()) for part in (refused_frames_are_reported, small_send_buffers_are_told)),
]

ALONE = []
