"""The players of `tools/try-pull`: what they get of a stream, frame by frame."""
import contextlib
import shutil
import subprocess
import tempfile
import threading
import time

from media import ffmpeg, sums
from peers import Frame, Peer, wanted

# How long players play, in seconds.
SECONDS = 6

# What GStreamer does with a track of each kind until the checksum of a frame.
CHAINS = {
    "video": "rtph264depay ! h264parse ! avdec_h264 ! video/x-raw,format=I420",
    "audio": "rtpmp4gdepay",
}


class Place:
    """Where a player connects to."""

    reach = "127.0.0.1"

    def __init__(self, port):
        self.port = port


def with_ffmpeg(url):
    """The checksums of the frames that ffmpeg plays, by their kind."""
    with tempfile.TemporaryDirectory() as folder:
        limit = ("-t", SECONDS)
        video = (*limit, "-map", "0:v", "-fps_mode", "passthrough", "-f", "framemd5", f"{folder}/video")
        audio = (*limit, "-map", "0:a", "-c", "copy", "-f", "framemd5", f"{folder}/audio")
        ffmpeg("-rtsp_transport", "tcp", "-i", url, *video, *audio)
        return {kind: sums(open(f"{folder}/{kind}").read()) for kind in CHAINS}


def with_gstreamer(url):
    """The checksums of the frames that GStreamer plays, by their kind, each kind on a connection of its own."""
    source = f"rtspsrc location={url} protocols=tcp latency=200 name=s s. ! application/x-rtp,media="
    came = {}

    def play(kind):
        words = f"gst-launch-1.0 -q {source}{kind} ! {CHAINS[kind]} ! checksumsink hash=md5".split()
        process = subprocess.Popen(words, stdout=subprocess.PIPE, stderr=subprocess.DEVNULL, text=True)
        with contextlib.suppress(subprocess.TimeoutExpired):
            process.wait(SECONDS + 2)
        process.kill()
        rows = [line.split() for line in process.communicate()[0].splitlines()]
        came[kind] = [row[1] for row in rows if len(row) == 2 and len(row[1]) == 32]

    together(*((play, kind) for kind in CHAINS))
    return came


def together(*calls):
    """Makes calls at the same time: a function and its arguments each."""
    threads = [threading.Thread(target=call, args=arguments) for call, *arguments in calls]
    for it in threads:
        it.start()
    for it in threads:
        it.join()


PLAYERS = {"ffmpeg": with_ffmpeg, "gst-launch-1.0": with_gstreamer}


def differences(url, media):
    """How what each installed player gets differs from the file."""
    came, players = {}, [name for name in PLAYERS if shutil.which(name)]

    def play(name):
        try:
            came[name] = PLAYERS[name](url)
        except (AssertionError, OSError) as fault:
            came[name] = fault

    together(*((play, name) for name in players))
    for name in players:
        if not isinstance(came.get(name), dict):
            yield f"{name}: {came.get(name)}"
            continue
        for kind, got in came[name].items():
            found = list(media.differences(kind, got, 50))
            print(f"    {name}: {len(got)} {kind} frames, {'; '.join(found) or 'each that of the file'}", flush=True)
            yield from (f"{name}: {it}" for it in found)


def packets(port, path, controls, seconds=SECONDS):
    """The RTP packets of a mount's first track that come within this time, in order."""
    found = []
    with Peer(Place(port)) as peer:
        url = f"rtsp://127.0.0.1:{port}/{path}"
        wanted(peer.ask("DESCRIBE", url))
        for place, control in enumerate(controls):
            assert peer.set_up(f"{url}/{control}", f"unicast;interleaved={2 * place}-{2 * place + 1}") == 200
        wanted(peer.ask("PLAY", url))
        end = time.monotonic() + seconds
        while time.monotonic() < end and (it := peer.next()) is not None:
            if isinstance(it, Frame) and it.channel == 0:
                found.append(it)
    return found


def gaps(numbers):
    """After which sequence numbers the next one is missing."""
    return [a for a, b in zip(numbers, numbers[1:]) if (a + 1) % 65_536 != b]
