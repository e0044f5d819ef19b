"""Sources that behave badly, for `tools/bad-sources`: what each sends, and in place of the reply to which request."""
import contextlib
import threading
import time
from dataclasses import dataclass

from fetched import TRACKS, Script, ServerCamera, rtp
from peers import frame

HEAD = b"RTSP/1.0 200 OK\r\nCSeq: CSEQ\r\n"

# A description of 1,000 tracks, in fewer bytes than the limit of a description.
THOUSAND = TRACKS + "".join(f"m=video 0 RTP/AVP 96\r\na=control:{number}\r\n" for number in range(1_000))

# One whose sections are as short as they can be, of almost as many bytes as are read.
SHORTEST = TRACKS + "m=video 0 RTP/AVP 96\r\n" * 2_900

DESCRIBED = "RTSP/1.0 200 OK\r\nCSeq: CSEQ\r\nContent-Type: application/sdp\r\nContent-Length: {}\r\n\r\n"

TRANSPORT = b"Transport: RTP/AVP/TCP;unicast;interleaved=0-1\r\n"


def described(length, body):
    """A reply to DESCRIBE that says this length."""
    return DESCRIBED.format(length).encode() + body.encode()


@dataclass
class Bad:
    """A source that sends `once`, and then `ever` again and again with a pause of `pause` seconds, in place of the reply to the request `at`;
    to PLAY it replies first, unless `is_mute`. `reason` is what a try of it ends for, or None if the try goes on; with `may_go_on` it ends so or goes on.
    It reads nothing meanwhile, unless `reads`. `challenge` is what it asks for with each 401, where `NONCE` is a new one. The target reads
    nothing after it has replied if it `is_stalled`, and for 0.1 seconds of each second if it `pauses`."""

    name: str
    at: str
    reason: str
    once: bytes = b""
    ever: bytes = b""
    pause: float = 0
    reads: bool = False
    is_mute: bool = False
    may_go_on: bool = False
    challenge: str = ""
    is_redirect: bool = False
    is_stalled: bool = False
    pauses: bool = False


SILENT, NO_REPLY, LONG, REFUSED = "no frame for 10 s", "no reply to DESCRIBE", "stream fault", "password refused"

# The program or the system ends a connection that takes nothing, whichever is first.
STALLED = "target took nothing for 20 s|connection to the target lost: timed out"

# A frame with a packet of usual length. What is sent again and again is long, so that a read brings as much as it can.
USUAL = frame(rtp(1, 1_400))

# Empty frames on an unknown and on a track's channel, as many as one read takes. With a pause after them a read brings whole frames alone.
UNKNOWN, EMPTY, PAUSE = frame(b"", 77) * 16_000, frame(b"") * 16_000, 0.01

OPTIONS = b"OPTIONS * RTSP/1.0\r\nCSeq: 9\r\n\r\n" * 20_000

SOURCES = (
    Bad("bytes without a line end", "OPTIONS", LONG, ever=b"x" * 65_536),
    Bad("empty lines without end", "OPTIONS", "no reply to OPTIONS", ever=b"\r\n" * 400_000),
    Bad("a reply whose fields don't end", "DESCRIBE", LONG, once=HEAD, ever=b"X-Field: some value\r\n" * 3_000),
    Bad("a reply whose first field doesn't end", "DESCRIBE", LONG, once=HEAD + b"X-Field: ", ever=b"x" * 65_536),
    Bad("a reply of which a byte comes each half second", "DESCRIBE", NO_REPLY, once=HEAD + b"X-Field: ", ever=b"x", pause=0.5),
    Bad("a description of 1,000,000 bytes", "DESCRIBE", LONG, once=described(1_000_000, TRACKS + "a" * (1_000_000 - len(TRACKS)))),
    Bad("a description of 65,536 bytes, of one line", "DESCRIBE", "no usable track", once=described(65_536, TRACKS + "a" * (65_536 - len(TRACKS)))),
    Bad("a description of 1,000 tracks", "DESCRIBE", SILENT, once=described(len(THOUSAND), THOUSAND)),
    Bad("a description of 2,900 tracks without a control", "DESCRIBE", SILENT, once=described(len(SHORTEST), SHORTEST)),
    Bad("a description of 10 bytes said, 20 sent", "DESCRIBE", "no usable track", once=described(10, TRACKS[:20])),
    Bad("a description of 1,000 bytes said, 10 sent", "DESCRIBE", NO_REPLY, once=described(1_000, TRACKS[:10])),
    Bad("a session of 5,000 bytes", "SETUP", "session identifier", once=HEAD + TRANSPORT + b"Session: " + b"5" * 5_000 + b"\r\n\r\n"),
    Bad("replies that nobody asked for, before DESCRIBE's", "DESCRIBE", NO_REPLY, ever=b"RTSP/1.0 200 OK\r\nCSeq: 77\r\n\r\n" * 20_000),
    Bad("replies that nobody asked for, after PLAY", "PLAY", SILENT, ever=b"RTSP/1.0 200 OK\r\n\r\n" * 30_000),
    Bad("requests, no reply is read", "PLAY", SILENT, ever=OPTIONS),
    Bad("requests, the replies are read", "PLAY", SILENT, ever=OPTIONS, reads=True),
    Bad("requests as short as can be", "PLAY", SILENT, ever=b"A * RTSP/1.0\r\n\r\n" * 40_000, reads=True),
    Bad("frames of 65,535 bytes on unknown channels", "PLAY", SILENT, ever=frame(bytes(65_535), 77) * 10),
    Bad("empty frames on unknown channels", "PLAY", SILENT, ever=UNKNOWN, pause=PAUSE),
    Bad("frames before DESCRIBE's reply", "DESCRIBE", NO_REPLY, ever=USUAL * 500),
    Bad("frames in place of PLAY's reply, 100 per second", "PLAY", "no reply to PLAY", ever=USUAL, pause=0.01, is_mute=True),
    # If the target is slower than the source, the source is never read for a second without a pause, and its reply is never late.
    Bad("frames in place of PLAY's reply, without a pause", "PLAY", "no reply to PLAY", ever=USUAL * 500, is_mute=True, may_go_on=True),
    Bad("frames without a pause", "PLAY", None, ever=USUAL * 500),
    Bad("empty frames on a track's channel", "PLAY", None, ever=EMPTY, pause=PAUSE),
    Bad("frames without a pause while the target reads nothing", "PLAY", STALLED, ever=USUAL * 500, is_stalled=True),
    Bad("empty frames while the target reads nothing", "PLAY", STALLED, ever=EMPTY, pause=PAUSE, is_stalled=True),
    Bad("frames without a pause, the target reads for 0.1 s of each second", "PLAY", None, ever=USUAL * 500, pauses=True),
    Bad("frames of 65,535 bytes, the target reads for 0.1 s of each second", "PLAY", None, ever=frame(rtp(1, 65_535)) * 10, pauses=True),
    Bad("a redirect to itself", "", "more than 3 redirects", is_redirect=True),
    Bad("401 for ever, each with a new nonce", "", REFUSED, challenge='Digest realm="cam", nonce="NONCE"'),
    Bad("401 for ever, each nonce stale", "", REFUSED, challenge='Digest realm="cam", nonce="NONCE", stale=true'),
    Bad("401 with a nonce of 5,000 bytes", "", "challenge", challenge=f'Digest realm="cam", nonce="{"n" * 5_000}NONCE"'),
)


class BadSource(ServerCamera):
    """A source that is bad in this way."""

    def __init__(self, bad):
        self.bad, self.sent = bad, 0
        super().__init__(Script())
        if bad.is_redirect:
            self.script.location = self.url

    def good(self, method, uri, head):
        if self.bad.challenge and method != "OPTIONS":
            self.nonce += 1
            return 401, (f"WWW-Authenticate: {self.bad.challenge}".replace("NONCE", f"n{self.nonce}"),), ""
        return super().good(method, uri, head)

    def answer(self, peer, head):
        bad, method = self.bad, head.split(" ")[0]
        if method != bad.at:
            return super().answer(peer, head)
        if method == "PLAY" and not bad.is_mute:
            super().answer(peer, head)
        if bad.reads:
            threading.Thread(target=self.take, args=(peer,), daemon=True).start()
        cseq = head.split("CSeq: ")[1].split("\r\n")[0].encode()
        peer.sendall(bad.once.replace(b"CSEQ", cseq))
        while bad.ever:
            peer.sendall(bad.ever)
            self.sent += len(bad.ever)
            time.sleep(bad.pause)
        return True

    def take(self, peer):
        with contextlib.suppress(OSError):
            while peer.recv(65_536):
                pass


class QuietSource(ServerCamera):
    """A good source, which sends a packet each half second."""

    def play(self, peer):
        with contextlib.suppress(OSError):
            for number in range(600):
                peer.sendall(frame(rtp(number)))
                time.sleep(0.5)
