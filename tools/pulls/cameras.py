"""The RTSP servers of `tools/try-pull` from which streams are pulled, and what is put before them."""
import contextlib
import os
import pathlib
import shutil
import socket
import subprocess
import threading

from fetched import Script, ServerCamera
from peers import Peer, serving, until
from players import Place

TOP = pathlib.Path(__file__).resolve().parent.parent.parent

INCLUDES = "/usr/include/gstreamer-1.0", "/usr/include/glib-2.0", "/usr/lib/x86_64-linux-gnu/glib-2.0/include"
LIBRARIES = "gstrtspserver-1.0", "gstreamer-1.0", "gobject-2.0", "glib-2.0"


def built(folder):
    """Builds the camera of GStreamer. Its path, or None if that can't be built here."""
    if not shutil.which("cc"):
        return None
    words = [*(f"-I{it}" for it in INCLUDES), *(f"-l{it}" for it in (*LIBRARIES, "gstrtsp-1.0"))]
    done = subprocess.run(["cc", TOP / "tools/camera/camera.c", *words, "-o", f"{folder}/camera"], capture_output=True, text=True)
    if done.returncode and not os.path.exists("/usr/include/gstreamer-1.0/gst/rtsp-server"):
        return None
    assert done.returncode == 0, done.stderr
    return f"{folder}/camera"


def free_port():
    with socket.create_server(("127.0.0.1", 0)) as it:
        return it.getsockname()[1]


@contextlib.contextmanager
def running(*words, **how):
    """A process that is ended afterwards."""
    process = subprocess.Popen([str(it) for it in words], **how)
    try:
        yield process
    finally:
        process.kill()
        process.wait()


@contextlib.contextmanager
def gstreamer(camera, kind, path, media, shift=0):
    """GStreamer's server of the file. Its port."""
    port = free_port()
    with running(camera, port, kind, path, media.path, shift, stdout=subprocess.PIPE) as process:
        process.stdout.readline()
        yield port


@contextlib.contextmanager
def published(program, media):
    """A relay to which ffmpeg publishes the file. The relay's port."""
    with serving(program) as server:
        url = f"rtsp://127.0.0.1:{server.port}/first"
        words = f"ffmpeg -nostdin -loglevel error -re -i {media.path} -c copy -f rtsp -rtsp_transport tcp {url}"
        with running(*words.split()):
            if not until(30, lambda: describes(server.port, url)):
                raise AssertionError("ffmpeg doesn't publish")
            yield server.port


@contextlib.contextmanager
def vlc(media):
    """VLC's output by RTSP, which sends by UDP alone. Its port."""
    port = free_port()
    words = ["vlc", "-I", "dummy", "-q", media.path, "--sout", f"#rtp{{sdp=rtsp://127.0.0.1:{port}/x}}", "--sout-keep"]
    how = {"user": "nobody", "env": {**os.environ, "HOME": "/nonexistent"}} if os.geteuid() == 0 else {}
    with running(*words, stdout=subprocess.DEVNULL, stderr=subprocess.DEVNULL, **how):
        if not until(30, lambda: is_open(port)):
            raise AssertionError("VLC doesn't listen")
        yield port


def is_open(port):
    with contextlib.suppress(OSError), socket.create_connection(("127.0.0.1", port), timeout=1):
        return True
    return False


def describes(port, url):
    """Whether there is a stream at this URL."""
    with Peer(Place(port)) as peer:
        return peer.ask("DESCRIBE", url).status == 200


def redirecting(url):
    """A server that redirects each DESCRIBE to this URL."""
    return ServerCamera(Script(location=url))


class Passage:
    """Passes bytes on between clients and the server at a port, and keeps what the clients say."""

    def __init__(self, port):
        self.far, self.said = port, bytearray()
        self.listener = socket.create_server(("127.0.0.1", 0))
        self.port = self.listener.getsockname()[1]
        threading.Thread(target=self.accept, daemon=True).start()

    def __enter__(self):
        return self

    def __exit__(self, *_):
        self.listener.close()

    def accept(self):
        with contextlib.suppress(OSError):
            while True:
                near, _ = self.listener.accept()
                far = socket.create_connection(("127.0.0.1", self.far))
                for it in (near, far, True), (far, near, False):
                    threading.Thread(target=self.pass_on, args=it, daemon=True).start()

    def pass_on(self, one, other, keeps):
        with contextlib.suppress(OSError):
            while piece := one.recv(65_536):
                if keeps:
                    self.said += piece
                other.sendall(piece)
        for it in one, other:
            with contextlib.suppress(OSError):
                it.shutdown(socket.SHUT_RDWR)
