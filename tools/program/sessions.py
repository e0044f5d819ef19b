"""Sessions: each has an account of its own, and what becomes of one that expires."""
import contextlib
import os
import signal
import time

from peers import GATHER, MODES, OUT, Camera, Peer, Player, accounts, counts, ending, ends_told, frame, packet, until, wanted

LARGE = 6_000


def each_session_has_its_own_account(program, *options):
    """A connection that loses packets of one mount and none of the next one has a line about the first alone; so has a camera."""
    with ending(program, 3, "--keep", "16", "--seats", "1", "--packet-bytes", str(LARGE), *GATHER, *options) as server:
        with Camera(server, "frontdoor") as front, Camera(server, "garage") as garage, Player(server, "frontdoor") as player:
            names = front.name(), garage.name(), player.name()
            front.publish(range(2_000), LARGE)
            front.publish(range(3), LARGE + 1)
            front.is_read()
            player.tear_down()
            front.tear_down()
            player.url = garage.url
            player.set_up(f"{garage.url}/trackID=0", "interleaved=4-5")
            wanted(player.play())
            front.announce(f"rtsp://{server.address}/backyard")
            front.record()
            for camera in garage, front:
                camera.publish([7])
                camera.is_read()
            if (came := player.numbers(1)) != [7]:
                yield f"it reads {came}"
            player.tear_down()
            front.tear_down()
    lost = [it for it in accounts(server, names[2], "player of frontdoor") if it["lost"]]
    refused = [it for it in accounts(server, names[0], "publisher of frontdoor") if it["too long"] == 3 and it["published"] == 2_000]
    others = [line for line in server.lines if "garage" in line or "backyard" in line]
    if len(lost) != 1 or sum(lost[0][word] for word in OUT) != 2_000 or len(refused) != 1 or others:
        yield f"it tells {server.lines}"


# Accounts of a connection without a session, and of a publisher some of whose frames are of no track.
COUNTED = "published {}, pinned 0, too long 0, bad RTP 0, unknown channel {}, no memory 0; sent 0, skipped 0, lost 0, unsent 0; strangers {}"

NO_SESSION, OF_NO_TRACK = COUNTED.format(0, 0, 8), COUNTED.format(1, 4, 5)


def strangers_are_no_loss(program, *options):
    """What a player sends, and what comes without a session, before a RECORD or after a PAUSE, makes no line of itself; frames of a
    recording camera on a channel of no track make one."""
    for told, lines in ((), 1), (("--verbose",), 3):
        with ending(program, 3, "--seats", "1", *told, *GATHER, *options) as server:
            with Camera(server, records=False) as camera, Player(server) as player, Peer(server) as other:
                names = camera.name(), player.name(), other.name()
                camera.send(frame(packet(1)) * 2)
                camera.record()
                camera.send(frame(packet(7)) + frame(packet(8), 9) * 4)
                player.numbers(1)
                wanted(camera.ask("PAUSE", camera.url))
                camera.send(frame(packet(8)) * 3)
                player.send(frame(bytes(8), 5) * 3)
                other.send(frame(packet(1)) * 8)
                for it in camera, player, other:
                    it.is_read()
        came = [line.removeprefix("[INFO  relay_server::events] ") for line in server.lines if "strangers" in line and "ended" not in line]
        if len(came) != lines or f"{names[0]}: publisher of cam: {OF_NO_TRACK}" not in came:
            yield f"{told} tells {server.lines}"
        if told and (f"{names[2]}: {NO_SESSION}" not in came or counts(server, names[1], "player of cam").get("strangers") != 3):
            yield f"{told} tells {server.lines}"


# How many seconds a camera sends frames of no track and nothing else: more than a session may be silent.
SECONDS = 65


def frames_of_no_track_are_told(program):
    """A camera all of whose frames are of no track for more than a minute may be cut; its account counts them all."""
    with ending(program, 1) as server, Camera(server) as camera:
        name, sent, end = camera.name(), 0, time.monotonic() + SECONDS
        with contextlib.suppress(OSError, AssertionError):
            while time.monotonic() < end:
                camera.send(frame(packet(sent), 9))
                sent += 1
                time.sleep(1)
            camera.is_read()
    told = counts(server, name, "publisher of cam").get("unknown channel", 0)
    # If it is cut, what it sends then isn't read.
    if told != sent and not (ends_told(server, name) and sent - 5 <= told <= sent):
        yield f"of {sent} frames is told {server.lines}"


# A session expires after 60 seconds. How many seconds the server's process is held.
HELD = 62


def expired_player_is_told_454_and_closed(program, *options):
    """While the server is held, all sessions expire. Then a player that asks is told 454, and the end; one that was ready is told 454 too,
    and its connection stays; of a camera that is silent a line tells which one it was."""
    with ending(program, 3, "--seats", "1", *options) as server, Camera(server) as camera:
        with Player(server) as player, Player(server, plays=False) as ready:
            names = camera.name(), player.name(), ready.name()
            camera.publish([7])
            if (came := player.numbers(1)) != [7]:
                yield f"it reads {came}"
            os.kill(server.pid, signal.SIGSTOP)
            try:
                time.sleep(HELD)
                for it in player, ready:
                    it.say("OPTIONS", "*")
            finally:
                os.kill(server.pid, signal.SIGCONT)
            begun = time.monotonic()
            came = player.next()
            if getattr(came, "status", None) != 454 or not is_closed(player) or time.monotonic() - begun > 5:
                yield f"the player is told {came}, and isn't closed within 5 s"
            wanted(ready.reply(), 454)
            ready.session = None
            wanted(ready.ask("OPTIONS", "*"))
            expired = ["publisher of cam: session expired after 60 s of silence"]
            if not until(10, lambda: ends_told(server, names[0]) == expired):
                yield f"of the camera is told {ends_told(server, names[0])}"
    told = ends_told(server, names[1]), ends_told(server, names[2])
    if told != (["player of cam: session expired after 60 s of silence"], []):
        yield f"of the players is told {told}"


def is_closed(peer):
    """Whether the end comes next, and no reset."""
    try:
        return peer.bytes(1) == b""
    except OSError:
        return False


def expired_sessions_losses_are_its_own(program):
    """What a player lost in a session that expired while it was ready is told under that session's mount alone, though the next that it
    asks for is another session."""
    with ending(program, 3, "--keep", "16", "--seats", "1", "--packet-bytes", str(LARGE), *GATHER) as server:
        with Camera(server) as camera, Player(server) as player:
            name = player.name()
            camera.publish(range(2_000), LARGE)
            camera.is_read()
            wanted(player.ask("PAUSE", player.url))
            os.kill(server.pid, signal.SIGSTOP)
            try:
                time.sleep(HELD)
            finally:
                os.kill(server.pid, signal.SIGCONT)
            player.session = None
            with Camera(server, "garage") as garage:
                player.url = garage.url
                player.set_up(f"{garage.url}/trackID=0", "interleaved=4-5")
                wanted(player.play())
                garage.publish([7])
                if (came := player.numbers(1)) != [7]:
                    yield f"it reads {came}"
                player.tear_down()
    told, others = accounts(server, name, "player of cam"), [line for line in server.lines if "garage" in line]
    if len(told) != 1 or sum(told[0][word] for word in OUT) != 2_000 or not told[0]["lost"] or others:
        yield f"it tells {server.lines}"


LONG = [(part, ()) for part in (frames_of_no_track_are_told, expired_sessions_losses_are_its_own)]
LONG += [(expired_player_is_told_454_and_closed, mode) for mode in MODES]

PARTS = [(strangers_are_no_loss, ()), *((each_session_has_its_own_account, mode) for mode in MODES)]

ALONE = []
