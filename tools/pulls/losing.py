"""A camera whose network loses each twentieth packet, passed on by `relay pull` and by ffmpeg: which gaps a player sees."""
import base64
import contextlib
import shutil
import socket
import struct
import time

from cameras import running
from fetched import Pull, Script, ServerCamera
from peers import Frame, Player, frame, serving, until
from players import gaps, packets

# The numbers of the packets that the camera makes.
NUMBERS = range(1_001, 1_439)

# Each packet whose number is a multiple of this is lost.
EACH = 20

# How many packets come in a second.
RATE = 100


def unit_packets(media):
    """The first NAL units of the file as RTP packets, one each (RFC 6184, 5.6). Each frame has one, and a key frame its parameter sets, too."""
    units, made, at = [it for it in media.units() if it[0] & 31 in (1, 5, 7, 8)], [], 0
    for number, unit in zip(NUMBERS, units):
        is_frame = unit[0] & 31 in (1, 5)
        made.append((number, struct.pack(">BBHII", 0x80, 96 | is_frame << 7, number, at * 3_600, 7) + unit))
        at += is_frame
    sets = ",".join(base64.b64encode(it).decode() for it in (next(it for it in units if it[0] & 31 == kind) for kind in (7, 8)))
    return made, sets


class LosingCamera(ServerCamera):
    """A camera that sends its packets one by one, without those that are lost."""

    def __init__(self, media):
        made, sets = unit_packets(media)
        text = (
            "v=0\r\no=- 0 0 IN IP4 127.0.0.1\r\ns=-\r\nt=0 0\r\nm=video 0 RTP/AVP 96\r\na=rtpmap:96 H264/90000\r\n"
            f"a=fmtp:96 packetization-mode=1;sprop-parameter-sets={sets}\r\na=control:video\r\n"
        )
        fields = ("Content-Type: application/sdp", "Content-Base: rtsp://127.0.0.1/cam/")
        super().__init__(Script([frame(it) for number, it in made if number % EACH], replies={"DESCRIBE": (200, fields, text)}, end="close"))

    def play(self, peer):
        with contextlib.suppress(OSError):
            for it in self.script.frames:
                peer.sendall(it)
                time.sleep(1 / RATE)
            peer.shutdown(socket.SHUT_WR)


def seen_behind(program, passing):
    """The numbers of the packets that a player of a relay gets, to which `passing` publishes."""
    found = []
    with serving(program) as server:
        with passing(f"rtsp://127.0.0.1:{server.port}/door"):
            players = []
            if not until(30, lambda: plays(server, players)):
                raise AssertionError("nothing is published")
            with players[0] as player:
                player.socket.settimeout(4)
                with contextlib.suppress(TimeoutError):
                    while isinstance(it := player.next(), Frame):
                        if it.channel == 4:
                            found.append(it.number)
    return found


def plays(server, players):
    """Whether a player plays now; it is kept."""
    with contextlib.suppress(AssertionError):
        players.append(Player(server, "door"))
    return bool(players)


def by_pull(program, media, lines):
    """The packets behind `relay pull`, whose lines are kept."""

    @contextlib.contextmanager
    def passing(target):
        with LosingCamera(media) as camera, Pull(program, camera.url, target, "--once") as pull:
            yield
            pull.status()
            lines.extend(pull.lines)

    return seen_behind(program, passing)


def by_ffmpeg(program, media):
    """The packets behind `ffmpeg -c copy`."""

    @contextlib.contextmanager
    def passing(target):
        with LosingCamera(media) as camera:
            # It publishes as soon as it can, so that the player sees most of the packets.
            words = f"ffmpeg -nostdin -loglevel quiet -rtsp_transport tcp -probesize 32 -analyzeduration 0 -i {camera.url}"
            with running(*words.split(), *f"-c copy -f rtsp -rtsp_transport tcp {target}".split()):
                yield

    return seen_behind(program, passing)


def found(program, media):
    """What is otherwise in the gaps that players see."""
    with LosingCamera(media) as camera:
        direct = [it.number for it in packets(camera.port, "cam", ("video",), 10)]
    lines = []
    pulled = by_pull(program, media, lines)
    missing = next((line.split("missing ")[1].split(",")[0] for line in lines if "missing " in line), None)
    print(f"    at the camera: {len(direct)} packets, {len(gaps(direct))} gaps", flush=True)
    print(f"    behind relay pull: {len(pulled)} packets, {len(gaps(pulled))} gaps, and it logs missing {missing}", flush=True)
    # A player that comes after the first packets sees none of the gaps before it.
    seen = [it for it in direct if it >= pulled[0]] if pulled else []
    if not pulled or pulled != seen or gaps(pulled) != gaps(seen) or len(gaps(pulled)) < 15:
        yield f"the gaps behind relay pull, {gaps(pulled)}, aren't those of the camera, {gaps(direct)}"
    if missing != str(len(gaps(direct))):
        yield f"it logs missing {missing}, and not {len(gaps(direct))}: {lines}"
    if not shutil.which("ffmpeg"):
        return
    copied = by_ffmpeg(program, media)
    print(f"    behind ffmpeg -c copy: {len(copied)} packets, {len(gaps(copied))} gaps", flush=True)
    if gaps(copied) or len(copied) < 100:
        yield f"{len(gaps(copied))} gaps in {len(copied)} packets behind ffmpeg: 0 in at least 100 are expected"
