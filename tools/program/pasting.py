"""Lines that a page gives a reader to paste: of what kind they are, what they need, and what they are run with."""
import contextlib
import itertools
import os
import re
import shlex
import signal
import socket
import subprocess
import tempfile
import threading

from peers import until

# What a line may begin with: variables, and a timeout.
PREFIX = r"""(?:\w+=(?:'[^']*'|"[^"]*"|[^\s'"])* )*(?:timeout (?:-\S+ )*[\d.]+s? )?"""

# The kinds of lines, by what comes after that. The first that fits is a line's kind.
KINDS = (
    ("serves", rf"{PREFIX}\./relay serve "),
    ("publishes", rf"{PREFIX}(ffmpeg .*-f rtsp |gst-launch-1\.0 .*\brtspclientsink )"),
    ("plays", rf"{PREFIX}(ffmpeg|ffplay|ffprobe|mpv|c?vlc|mplayer|gst-(launch|play)-1\.0|(/usr/bin/)?python3 -c) .*rtsp"),
    ("asks", rf"{PREFIX}(curl|printf|bash -c|nc|\./relay (talk|steps)) "),
)

# A URL: its scheme, host, port, and mount. A host and a port that a shell or `nc` connects to.
URL = re.compile(r"""(rtsp[tu]?://)(?:[^/@\s'"]*@)?(\[[^\]]*\]|[^/:\s'"]+)(?::(\w+))?/?([^\s'"\\]*)""")

CONNECTED = re.compile(r"(/dev/tcp/|\bnc (?:-\S+ )*)([\w.]+)([/ ])(\d+)\b")

# Where a serving line listens.
ADDRESS = re.compile(r"([\d.]+|\[[\da-f:]+\]):(\d+)\b")

# This host.
HERE = "127.0.0.1", "localhost", "[::1]"

# Elements of GStreamer that come with one of its packages or another.
ELEMENTS = (
    "autovideosink", "avdec_h264", "decodebin", "h264parse", "rtph264depay", "rtspclientsink", "rtspsrc", "videoconvert", "videotestsrc",
    "x264enc",
)


def joined(text):
    """The command lines of a text, without comments. A line that ends in a backslash or a bar goes on in the next one."""
    text = re.sub(r"\s*\\\n\s*", " ", text)
    text = re.sub(r"\|\n\s*", "| ", text)
    return [it.strip() for it in text.splitlines() if it.strip() and not it.strip().startswith("#")]


def kind_of(line):
    """A line's kind, or None."""
    return next((kind for kind, begins in KINDS if re.match(begins, line)), None)


def urls(line):
    return list(URL.finditer(line))


def mounts(line):
    """The names in a line's URLs."""
    return [it[4].partition("?")[0] for it in urls(line)]


def ports(line):
    """The ports of this host that a line connects to."""
    found = [(it[2], it[3] or "554") for it in urls(line)] + [(it[2], it[4]) for it in CONNECTED.finditer(line)]
    return {port for host, port in found if host in HERE}


def programs(line):
    """The programs that the commands of a line begin with."""
    lexer = shlex.shlex(line, posix=True, punctuation_chars="|&;")
    lexer.whitespace_split, lexer.commenters = True, ""
    found, begins = [], True
    for word in lexer:
        if set(word) <= set("|&;"):
            begins = True
        elif begins and not re.fullmatch(r"\w+=.*|timeout|-\S+|[\d.]+s?", word):
            found.append(word)
            begins = False
    return found


def checks(line):
    """Parts of ffmpeg, GStreamer and Python that a line needs, each with a command that fails if this system doesn't have it."""
    word = programs(line)[0]
    if word == "ffmpeg" and " libx264 " in line:
        yield "libx264", ["bash", "-c", "[[ $(ffmpeg -v quiet -encoders) == *' libx264 '* ]]"]
    if word == "gst-launch-1.0":
        # Without `ximagesink`, `autovideosink` tries sinks that crash without their hardware.
        more = ["ximagesink"] if "autovideosink" in line else []
        for it in [it for it in ELEMENTS if f" {it} " in f"{line} "] + more:
            yield it, ["gst-inspect-1.0", "--exists", it]
    if word.endswith("python3"):
        for it in re.findall(r"\bimport (\w+)", line):
            yield it, [word, "-c", f"import {it}"]


def lacking(line):
    """The parts of ffmpeg, GStreamer and Python that a line needs and this system doesn't have."""
    runs = ((it, subprocess.run(command, stdin=subprocess.DEVNULL, capture_output=True, timeout=60)) for it, command in checks(line))
    return [it for it, ran in runs if ran.returncode]


def pointed(text, ports, mount=None):
    """A line whose URLs have these ports of this host: the last URL the last port, the others the first one. The URLs of other hosts
    have this mount."""
    last = urls(text)[-1].start() if urls(text) else 0

    def here(found):
        host = found[2] if found[2] in HERE[:2] else HERE[0]
        port = ports[-1] if found.start() == last else ports[0]
        return f"{found[1]}{host}:{port}/{mount if mount and found[2] not in HERE else found[4]}"

    return CONNECTED.sub(lambda it: f"{it[1]}{HERE[0]}{it[3]}{ports[-1]}", URL.sub(here, text))


class Running:
    """A line that bash runs, in a process group of its own. Its standard input is open, and nothing comes there. `status` is None until
    it has ended."""

    def __init__(self, text, folder, variables):
        self.log, self.status = tempfile.TemporaryFile(dir=folder), None
        self.process = subprocess.Popen(
            ["bash", "-c", text.removesuffix("&")], stdin=subprocess.PIPE, stdout=self.log, stderr=subprocess.STDOUT, cwd=folder,
            env=variables, start_new_session=True,
        )

    def __enter__(self):
        return self

    def __exit__(self, *_):
        self.end()
        self.process.stdin.close()
        self.log.close()

    def has_ended(self):
        """Whether it has ended. It isn't waited for before `end`, so no other group has its number."""
        if self.status is None and (found := os.waitid(os.P_PID, self.process.pid, os.WEXITED | os.WNOHANG | os.WNOWAIT)):
            self.status = found.si_status if found.si_code == os.CLD_EXITED else -found.si_status
        return self.status is not None

    def output(self):
        """What it has printed."""
        return os.pread(self.log.fileno(), 1 << 20, 0).decode(errors="replace")

    def told(self):
        """Whether it runs, or its status, and the end of what it has printed."""
        how = f"has ended with status {self.status}" if self.has_ended() else "runs"
        return f"it {how}, and has printed {self.output()[-300:]!r}"

    def end(self):
        """Sends TERM, and KILL after three seconds. Whether TERM ended it."""
        if self.process.returncode is not None:
            return True
        self.kill(signal.SIGTERM)
        is_ended = until(3, self.has_ended)
        self.kill(signal.SIGKILL)
        until(3, self.has_ended)
        self.process.wait()
        return is_ended

    def kill(self, number):
        with contextlib.suppress(ProcessLookupError):
            os.killpg(self.process.pid, number)


class Door:
    """A port whose connections go on to a server, from an address of its own, since more than ten accounts a second of one aren't
    logged."""

    numbers = itertools.count()

    def __init__(self, server):
        self.server, self.address = server, f"127.0.2.{next(self.numbers) % 254 + 1}"
        self.listener = socket.create_server((HERE[0], 0))
        self.port = self.listener.getsockname()[1]
        threading.Thread(target=self.accept, daemon=True).start()

    def __enter__(self):
        return self

    def __exit__(self, *_):
        # Else the thread that accepts isn't woken.
        self.listener.shutdown(socket.SHUT_RDWR)
        self.listener.close()

    def accept(self):
        with contextlib.suppress(OSError):
            while True:
                peer, _ = self.listener.accept()
                other = socket.create_connection((self.server.reach, self.server.port), source_address=(self.address, 0))
                for ends in (peer, other), (other, peer):
                    threading.Thread(target=hand_on, args=ends, daemon=True).start()

    def events(self, what):
        """What is found of this in the server's lines about peers that came by this door."""
        head = rf"\[INFO  relay_server::events\] {self.address}:\d+: "
        return list(filter(None, (re.match(head + what, line) for line in list(self.server.lines))))

    def plays(self):
        """Whether a peer has taken a seat."""
        return bool(self.events("plays "))

    def packets(self):
        """How many packets its peers were sent, by their accounts."""
        return sum(int(it[1]) for it in self.events(r"player of .*\bsent (\d+)"))


def hand_on(peer, other):
    """Sends what comes from a peer to the other one, and ends both with the first of them."""
    with contextlib.suppress(OSError):
        while piece := peer.recv(1 << 16):
            other.sendall(piece)
    for it in peer, other:
        with contextlib.suppress(OSError):
            it.shutdown(socket.SHUT_RDWR)
