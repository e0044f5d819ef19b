"""A scripted camera that is an RTSP server, and `relay pull` between it and a server, for `pulling.py`."""
import contextlib
import fcntl
import hashlib
import re
import select
import socket
import struct
import subprocess
import termios
import threading
import time

from peers import until

TRACKS = "v=0\r\no=- 0 0 IN IP4 127.0.0.1\r\ns=-\r\nt=0 0\r\n"

# A camera's description: a video track, an audio track, and a section that isn't fetched.
TWO = TRACKS + (
    "m=video 0 RTP/AVP 96\r\na=rtpmap:96 H264/90000\r\na=control:video\r\nm=audio 0 RTP/AVP 8\r\na=control:audio\r\n"
    "m=application 0 RTP/AVP 107\r\na=control:meta\r\n"
)

# Each value of a byte in turn, for packets of up to 65,535 bytes.
EACH_BYTE = bytes(range(256)) * 258

REASONS = {200: "OK", 302: "Moved Temporarily", 401: "Unauthorized", 403: "Forbidden", 404: "Not Found"}


class Script:
    """What a scripted camera does. `replies` has for a method what its reply is: a status, bytes, or None for none. `frames` are sent after
    the reply of PLAY (`early` before it), once `go` is set. `piece` is how many bytes are sent at a time, `late` how many seconds a reply
    waits, and `end` what comes after the frames: `stay`, `close` (it sends no more) or `gone` (it replies to no
    request after PLAY, and once the client takes no more, it neither sends nor reads)."""

    def __init__(self, frames=(), early=(), replies=None, piece=None, late=0, end="stay", timeout=60, secret=None, stale=0, location=None, waits=False):
        self.frames, self.early, self.replies, self.piece, self.late, self.end = frames, early, replies or {}, piece, late, end
        self.timeout, self.secret, self.stale, self.location = timeout, secret, stale, location
        self.go = threading.Event()
        if not waits:
            self.go.set()


def unacknowledged(peer):
    """How many bytes of those that were sent the other side's system hasn't acknowledged yet."""
    return struct.unpack("i", fcntl.ioctl(peer, termios.TIOCOUTQ, bytes(4)))[0]


def acknowledged(peer):
    """How many bytes it has acknowledged in all: `tcpi_bytes_acked` of Linux."""
    return struct.unpack_from("Q", peer.getsockopt(socket.IPPROTO_TCP, socket.TCP_INFO, 136), 120)[0]


class ServerCamera:
    """A camera that waits for a client, on a free port of this host. `asked` has each request: its method, its URI and its head."""

    def __init__(self, script):
        self.script, self.asked, self.connections = script, [], 0
        self.listener = socket.create_server(("127.0.0.1", 0))
        self.port = self.listener.getsockname()[1]
        self.url = f"rtsp://127.0.0.1:{self.port}/cam"
        self.nonce, self.open, self.has_left = 0, [], threading.Event()
        self.before = self.sent = 0
        self.has_played = False
        threading.Thread(target=self.accept, daemon=True).start()

    def __enter__(self):
        return self

    def __exit__(self, *_):
        self.listener.close()
        for peer in self.open:
            with contextlib.suppress(OSError):
                peer.close()

    def methods(self):
        return [method for method, _, _ in list(self.asked)]

    def accept(self):
        with contextlib.suppress(OSError):
            while True:
                peer, _ = self.listener.accept()
                self.connections += 1
                self.open.append(peer)
                threading.Thread(target=self.serve, args=(peer,), daemon=True).start()

    def send(self, peer, data):
        step = self.script.piece or len(data)
        for place in range(0, len(data), max(step, 1)):
            peer.sendall(data[place:place + step])

    def serve(self, peer):
        peer.setsockopt(socket.IPPROTO_TCP, socket.TCP_NODELAY, 1)
        rest = b""
        with contextlib.suppress(OSError):
            # A reply would stand in the middle of a frame that isn't taken whole.
            while not (self.has_played and self.script.end == "gone"):
                while b"\r\n\r\n" not in rest:
                    piece = peer.recv(65_536)
                    if not piece:
                        return
                    rest += piece
                head, _, rest = rest.partition(b"\r\n\r\n")
                if not self.answer(peer, head.decode()):
                    peer.close()
                    return

    def answer(self, peer, head):
        """Replies to a request. Whether the connection goes on."""
        method, uri, _ = head.split("\r\n")[0].split(" ")
        cseq = re.search(r"CSeq: (\d+)", head)[1]
        script = self.script
        self.asked.append((method, uri, head))
        if method == "PLAY":
            self.send(peer, b"".join(script.early))
        time.sleep(script.late)
        answer = script.replies.get(method, self.good(method, uri, head))
        if isinstance(answer, list):
            answer = answer.pop(0) if len(answer) > 1 else answer[0]
        if answer is None:
            return True
        if isinstance(answer, bytes):
            self.send(peer, answer.replace(b"CSEQ", cseq.encode()))
        else:
            status, fields, body = answer if isinstance(answer, tuple) else (answer, (), "")
            lines = [f"RTSP/1.0 {status} {REASONS.get(status, 'Other')}", f"CSeq: {cseq}", *fields]
            if body:
                lines.append(f"Content-Length: {len(body)}")
            self.send(peer, ("\r\n".join(lines) + "\r\n\r\n" + body).encode())
        if method == "PLAY":
            self.has_played = True
            threading.Thread(target=self.play, args=(peer,), daemon=True).start()
        return answer != "close"

    def play(self, peer):
        self.script.go.wait(60)
        with contextlib.suppress(OSError):
            if self.script.end == "gone":
                self.leave(peer)
            elif self.script.piece:
                self.send(peer, b"".join(self.script.frames))
            else:
                for it in self.script.frames:
                    peer.sendall(it)
            if self.script.end == "close":
                peer.shutdown(socket.SHUT_WR)

    def leave(self, peer):
        """Sends until the client takes no more for half a second, and reads no more either."""
        until(5, lambda: unacknowledged(peer) == 0)
        self.before, self.sent = acknowledged(peer), 0
        data = memoryview(b"".join(self.script.frames))
        while self.sent < len(data) and select.select([], [peer], [], 0.5)[1]:
            self.sent += peer.send(data[self.sent:self.sent + 65_536], socket.MSG_DONTWAIT)
        peer.shutdown(socket.SHUT_RDWR)
        self.has_left.set()

    def is_reset(self):
        """Whether the connection of a camera that has left was reset: `tcpi_state` of Linux is TCP_CLOSE."""
        return self.open[0].getsockopt(socket.IPPROTO_TCP, socket.TCP_INFO, 1)[0] == 7

    def delivered(self):
        """How many bytes of the frames have come to the client's system. The next request to a camera that has left resets the connection, and a
        reset drops the others. The end of the stream counts as a byte."""
        return min(self.sent, acknowledged(self.open[0]) - self.before)

    def good(self, method, uri, head):
        script = self.script
        if script.location:
            return (302, (f"Location: {script.location}",), "") if method == "DESCRIBE" else (200, (), "")
        if script.secret and method != "OPTIONS" and not self.is_known(method, head):
            return self.challenge()
        if method == "DESCRIBE":
            return 200, ("Content-Type: application/sdp", f"Content-Base: {uri}/"), TWO
        if method == "SETUP":
            channels = re.search(r"interleaved=(\d+-\d+)", head)[1]
            return 200, (f"Transport: RTP/AVP/TCP;unicast;interleaved={channels}", f"Session: 5678;timeout={script.timeout}"), ""
        if method == "OPTIONS":
            return 200, ("Public: OPTIONS, DESCRIBE, SETUP, PLAY, GET_PARAMETER, TEARDOWN",), ""
        return 200, ("Session: 5678",), ""

    def challenge(self):
        self.nonce += 1
        stale = ", stale=true" if self.nonce > 1 else ""
        return 401, (f'WWW-Authenticate: Digest realm="cam", nonce="n{self.nonce}"{stale}',), ""

    def is_known(self, method, head):
        """Whether a request has the digest of the last nonce; the first `stale` ones of SETUP that have it are asked for another."""
        fields = dict(re.findall(r'(\w+)="([^"]*)"', (re.search(r"Authorization: Digest (.*)", head) or [None, ""])[1]))
        if fields.get("nonce") != f"n{self.nonce}":
            return False
        user, password = self.script.secret
        sums = [hashlib.md5(text.encode()).hexdigest() for text in (f"{user}:cam:{password}", f"{method}:{fields['uri']}")]
        if fields["response"] != hashlib.md5(f"{sums[0]}:{fields['nonce']}:{sums[1]}".encode()).hexdigest():
            return False
        if method == "SETUP" and self.script.stale:
            self.script.stale -= 1
            return False
        return True


class Pull:
    """`relay pull` of a source to a target, whose lines are read. It is stopped by the end of its standard input."""

    def __init__(self, program, source, target, *options):
        words = [program, "pull", source, target, "--retry", "100", "--until-eof", *options]
        self.process = subprocess.Popen(words, stdin=subprocess.PIPE, stderr=subprocess.PIPE, text=True)
        self.lines = []
        self.reader = threading.Thread(target=self.read, daemon=True)
        self.reader.start()

    def __enter__(self):
        return self

    def __exit__(self, *_):
        self.process.kill()
        self.process.wait()

    def read(self):
        for line in self.process.stderr:
            self.lines.append(line.rstrip("\n"))

    def has(self, text):
        return any(text in line for line in list(self.lines))

    def ends(self):
        """The lines about the ends of tries."""
        return [line for line in list(self.lines) if ": sent " in line and "restarts" in line and not line[-1].isdigit()]

    def status(self, seconds=30):
        """The status with which it ends by itself, or None."""
        try:
            status = self.process.wait(seconds)
        except subprocess.TimeoutExpired:
            return None
        self.reader.join(5)
        return status

    def stop(self):
        """Stops it. The seconds that it took, and the status."""
        begun = time.monotonic()
        self.process.stdin.close()
        return time.monotonic() - begun if self.status(8) is None else (round(time.monotonic() - begun, 1), self.process.returncode)


def rtp(number, size=200, ssrc=7, marker=0):
    """An RTP packet whose bytes are those of its number."""
    head = struct.pack(">BBHII", 0x80, 96 | marker << 7, number % 65_536, number * 90, ssrc)
    # Thousands of packets are made while parts that depend on times run.
    first = number * 31 % 256
    return head + EACH_BYTE[first:first + size - 12]


def answered(peer, count):
    """Replies to this number of requests of a publisher."""
    rest, cseq = b"", 0
    while cseq < count:
        rest += peer.recv(4_096)
        while b"\r\n\r\n" in rest:
            head, _, rest = rest.partition(b"\r\n\r\n")
            size = int((re.search(rb"Content-Length: (\d+)", head) or [0, 0])[1])
            while len(rest) < size:
                rest += peer.recv(4_096)
            rest, cseq = rest[size:], cseq + 1
            transport = re.search(rb"Transport: [^\r]*\r\n", head + b"\r\n")
            peer.sendall(b"RTSP/1.0 200 OK\r\nCSeq: %d\r\nSession: 12\r\n%s\r\n" % (cseq, transport[0] if transport else b""))
