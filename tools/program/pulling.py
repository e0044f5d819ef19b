"""`relay pull`: a camera that is an RTSP server is fetched, each packet unchanged and each loss counted."""
import contextlib
import pathlib
import socket
import tempfile
import threading
import time

from fetched import Pull, Script, ServerCamera, answered, rtp
from peers import Camera, Frame, Player, frame, serving, until

# The packets of the two tracks of a camera, with RTCP between them.
MIXED = [
    frame(rtp(number, 40 + number * 37 % 1_400), channel) if number % 50 else frame(b"\x80\xc8\x00\x06" + bytes(24), channel + 1)
    for number in range(1, 600)
    for channel in (0, 2)
]


@contextlib.contextmanager
def pulled(program, script, *options, mount="door"):
    """A server, a camera and a pull between them."""
    with serving(program) as server, ServerCamera(script) as camera:
        with Pull(program, camera.url, f"rtsp://127.0.0.1:{server.port}/{mount}", *options) as pull:
            yield server, camera, pull


class TwoTracks(Player):
    """Plays both tracks of the mount, on channels 0 to 3."""

    def __init__(self, server, mount="door"):
        super().__init__(server, mount, plays=False)
        self.set_up(f"{self.url}/trackID=0", "interleaved=0-1")
        self.set_up(f"{self.url}/trackID=1", "interleaved=2-3")
        assert self.play().status == 200


def player_of(server, pull, tracks=TwoTracks):
    """A player, once the mount is there."""
    if not until(20, lambda: pull.has("begins, tracks")):
        raise AssertionError(f"it doesn't begin: {pull.lines}")
    return tracks(server, "door")


def packets_of(player, count):
    """The next so many frames, as channels and packets."""
    came = []
    while len(came) < count and isinstance(it := player.next(), Frame):
        came.append((it.channel, it.packet))
    return came


def sent(frames):
    return [(it[1], it[4:]) for it in frames]


def by_channel(came):
    return {channel: [it for where, it in came if where == channel] for channel in range(4)}


def each_packet_goes_on_unchanged(program):
    """A player gets the bytes of each packet of two tracks, RTP and RTCP, and the account has as many."""
    for piece in None, 1, 7:
        frames = MIXED if piece is None else MIXED[:60]
        with pulled(program, Script(frames, waits=True, piece=piece, end="close"), "--once") as (server, camera, pull):
            with player_of(server, pull) as player:
                camera.script.go.set()
                came = packets_of(player, len(frames))
            if by_channel(came) != by_channel(sent(frames)):
                yield f"in pieces of {piece}: {len(came)} of {len(frames)} packets came, and not as they were"
            # RTCP is in place of every fiftieth packet.
            missing = 22 if piece is None else 0
            if pull.status() != 0 or not pull.has(f"sent {len(frames)}, unknown channel 0, before recording 0, unsent 0, missing {missing}, late 0"):
                yield f"in pieces of {piece}: {pull.lines}"


def gaps_are_those_of_the_camera(program):
    """438 packets, every twentieth left out: a player sees these gaps and no others, and as many missing are told."""
    numbers = [number for number in range(1_000, 1_438) if number % 20]
    frames = [frame(rtp(number)) for number in numbers]
    with pulled(program, Script(frames, waits=True, end="close"), "--once") as (server, camera, pull):
        with player_of(server, pull) as player:
            camera.script.go.set()
            came = [it for it in packets_of(player, len(frames))]
        gaps = [number for number in range(numbers[0], numbers[-1]) if number not in numbers]
        if came != sent(frames) or pull.status() != 0 or not pull.has(f"missing {len(gaps)}, late 0, restarts 0"):
            yield f"{len(gaps)} gaps: {pull.lines}"


def late_replies_are_waited_for(program):
    """Each reply comes 300 ms late."""
    with pulled(program, Script([frame(rtp(1))], late=0.3)) as (_, camera, pull):
        if not until(10, lambda: pull.has("begins, tracks video 0-1, audio 2-3")):
            yield f"{pull.lines}, {camera.methods()}"


def bad_replies_have_their_reasons(program):
    """Replies that are wrong, and what the line of the try says of each."""
    rows = (
        ("DESCRIBE", 404, "source refused DESCRIBE: 404"),
        ("DESCRIBE", b"HELLO\r\n\r\n", "stream fault"),
        ("DESCRIBE", (200, (), ""), "no usable track"),
        ("DESCRIBE", (302, (), ""), "redirect without a place"),
        ("DESCRIBE", (302, ("Location: rtsps://h/x",), ""), "redirect: rtsps is not supported"),
        ("SETUP", 461, "source refused SETUP of all tracks: 461"),
        ("SETUP", (200, ("Transport: RTP/AVP;unicast;client_port=1-2", "Session: 1"), ""), "source gave no RTP over TCP"),
        ("SETUP", (200, ("Transport: RTP/AVP/TCP;interleaved=0-1",), ""), "source gave no session"),
        ("PLAY", 455, "source refused PLAY: 455"),
        ("DESCRIBE", 401, "source asks for a password"),
    )
    for method, answer, reason in rows:
        with pulled(program, Script(replies={method: answer}), "--once") as (_, camera, pull):
            if pull.status() != 1 or not pull.has(f"restarts 0, {reason}") or not pull.lines[-1].startswith(f"relay: pull: {reason}"):
                yield f"{method} {answer}: {reason!r} is wanted, and not {pull.lines}"


def missing_replies_end_a_try(program):
    """A reply that doesn't come is waited for ten seconds."""
    begun = time.monotonic()
    with pulled(program, Script(replies={"DESCRIBE": None}), "--once") as (_, camera, pull):
        if pull.status() != 1 or not pull.has("no reply to DESCRIBE") or not 9 < time.monotonic() - begun < 14:
            yield f"after {time.monotonic() - begun:.1f} s: {pull.lines}"


def frames_before_the_reply_of_play_go_on(program):
    """A camera that sends before it has replied to PLAY loses none of them."""
    early = [frame(rtp(number)) for number in range(5)]
    with pulled(program, Script([frame(rtp(5))], early=early, end="close"), "--once") as (_, camera, pull):
        if pull.status() != 0 or not pull.has("sent 6, unknown channel 0, before recording 0, unsent 0, missing 0"):
            yield f"{pull.lines}"


def keepalives_that_are_refused_become_options(program):
    """After a GET_PARAMETER that is refused the session is kept alive by OPTIONS."""
    for answer in 400, 405, 451, 501:
        with pulled(program, Script([frame(rtp(1))], timeout=2, replies={"GET_PARAMETER": answer}), "--silent", "60") as (_, camera, pull):
            if not until(8, lambda: camera.methods()[-3:] == ["GET_PARAMETER", "OPTIONS", "OPTIONS"]) or pull.ends():
                yield f"{answer}: {camera.methods()}, {pull.lines}"


def keepalives_without_a_reply_become_options(program):
    """A GET_PARAMETER that is never answered ends nothing: OPTIONS follows after ten seconds."""
    with pulled(program, Script([frame(rtp(1))], timeout=4, replies={"GET_PARAMETER": None}), "--silent", "60") as (_, camera, pull):
        if not until(25, lambda: camera.methods()[-2:] == ["OPTIONS", "OPTIONS"]) or pull.ends():
            yield f"{camera.methods()}, {pull.lines}"


def redirect_is_followed(program):
    """After a 302 the other camera is fetched, on a connection of its own."""
    with ServerCamera(Script([frame(rtp(1))], end="close")) as other:
        with pulled(program, Script(location=other.url), "--once") as (_, camera, pull):
            if pull.status() != 0 or "PLAY" not in other.methods() or camera.methods() != ["OPTIONS", "DESCRIBE"]:
                yield f"{camera.methods()}, {other.methods()}, {pull.lines}"


@contextlib.contextmanager
def password_file(text):
    """A file with this password."""
    with tempfile.TemporaryDirectory() as folder:
        path = pathlib.Path(folder, "password")
        path.write_text(text)
        yield path


def password_answers_a_challenge(program):
    """A password is sent as a digest, and again for a nonce that is stale. A wrong one is sent once, and no line has it."""
    for stale, text, status in (0, "hidden7", 0), (0, "wrong7", 1), (1, "hidden7", 0), (1, "wrong7", 1):
        script = Script([frame(rtp(1))], secret=("admin", "hidden7"), stale=stale, end="close")
        with serving(program) as server, ServerCamera(script) as camera, password_file(f"{text}\n") as path:
            source, target = camera.url.replace("rtsp://", "rtsp://admin@"), f"rtsp://127.0.0.1:{server.port}/door"
            with Pull(program, source, target, "--once", "--password-file", str(path)) as pull:
                if pull.status() != status or (status and not pull.has("password refused")):
                    yield f"stale {stale}, {text}: {pull.lines}, {camera.methods()}"
                if any(word in line for line in pull.lines for word in (text, "admin")):
                    yield f"a line has a secret: {pull.lines}"


def changed_password_is_tried(program):
    """A refused password isn't sent again until its file changes."""
    script = Script([frame(rtp(1))], secret=("admin", "new"))
    with serving(program) as server, ServerCamera(script) as camera, password_file("old") as path:
        source = camera.url.replace("rtsp://", "rtsp://admin@")
        with Pull(program, source, f"rtsp://127.0.0.1:{server.port}/door", "--password-file", str(path)) as pull:
            if not until(10, lambda: pull.has("no try for 10 minutes")):
                yield f"{pull.lines}"
            time.sleep(3)
            if camera.connections != 1:
                yield f"{camera.connections} connections, and not 1"
            path.write_text("new")
            if not until(10, lambda: pull.has("begins, tracks")):
                yield f"{pull.lines}"


def lost_camera_is_fetched_again(program):
    """A camera that closes, that closes within a frame, and that sends nothing: the end is told, and the next try begins by itself."""
    rows = (
        (Script([frame(rtp(1)), frame(rtp(2))], end="close"), (), "sent 2, unknown channel 0, before recording 0, unsent 0,", "source closed"),
        (Script([frame(rtp(1)), frame(rtp(2))[:50]], end="close"), (), "sent 1, unknown channel 0, before recording 0, unsent 1,", "source closed"),
        (Script([frame(rtp(1))]), ("--silent", "1"), "sent 1,", "no frame for 1 s"),
    )
    for script, options, counts, reason in rows:
        with pulled(program, script, *options) as (server, camera, pull):
            if not until(15, lambda: len(pull.ends()) > 1 and pull.has("away ")):
                yield f"{reason}: {pull.lines}"
            if not (pull.ends() and counts in pull.ends()[0] and reason in pull.ends()[0]):
                yield f"{reason} is wanted: {pull.lines}"
            took = pull.stop()
            if took[1] != 0 or took[0] > 5:
                yield f"{reason}: the stop took {took}"


def taken_name_is_tried_again(program):
    """A name that another publisher has is refused with 403, and taken once it is free."""
    with serving(program) as server, ServerCamera(Script([frame(rtp(1))])) as source:
        with Camera(server, "door") as other:
            with Pull(program, source.url, f"rtsp://127.0.0.1:{server.port}/door") as pull:
                if not until(10, lambda: pull.has("target refused ANNOUNCE: 403")):
                    yield f"{pull.lines}"
                other.close()
                if not until(10, lambda: pull.has("begins, tracks")):
                    yield f"{pull.lines}"


def dead_target_is_told(program):
    """A target that ends while frames go on."""
    with ServerCamera(Script([frame(rtp(number)) for number in range(400)])) as source, serving(program) as server:
        with Pull(program, source.url, f"rtsp://127.0.0.1:{server.port}/door") as pull:
            if not until(10, lambda: pull.has("begins, tracks")):
                yield f"{pull.lines}"
            server.end()
            if not until(10, lambda: pull.ends() and pull.has("no connection to the target: connection refused")):
                yield f"{pull.lines}"


def stalled_target_is_left(program):
    """A target that takes no byte is left after 20 seconds, by the program or by the system. The source isn't read meanwhile."""
    frames = [frame(rtp(number, 1_400)) for number in range(20_000)]
    with ServerCamera(Script(frames)) as source, socket.create_server(("127.0.0.1", 0)) as listener:
        threading.Thread(target=reply_and_stall, args=(listener,), daemon=True).start()
        with Pull(program, source.url, f"rtsp://127.0.0.1:{listener.getsockname()[1]}/door", "--once", "--silent", "60") as pull:
            begun = time.monotonic()
            reasons = "target took nothing for 20 s", "connection to the target lost: timed out"
            if pull.status(60) != 1 or time.monotonic() - begun > 40 or not any(map(pull.has, reasons)):
                yield f"{pull.lines}"


def reply_and_stall(listener):
    """A target that replies to four requests, and reads no more."""
    peer, _ = listener.accept()
    peer.setsockopt(socket.SOL_SOCKET, socket.SO_RCVBUF, 65_536)
    answered(peer, 4)
    time.sleep(60)
    peer.close()


LONG = [
    (part, ())
    for part in (
        missing_replies_end_a_try, keepalives_that_are_refused_become_options, keepalives_without_a_reply_become_options, stalled_target_is_left,
        bad_replies_have_their_reasons,
    )
]

PARTS = [
    (part, ())
    for part in (
        each_packet_goes_on_unchanged, gaps_are_those_of_the_camera, late_replies_are_waited_for, frames_before_the_reply_of_play_go_on,
        redirect_is_followed, password_answers_a_challenge, changed_password_is_tried, lost_camera_is_fetched_again, taken_name_is_tried_again,
        dead_target_is_told,
    )
]
