"""The lines that README.md, docs/OPERATING.md and the program's help give a reader to paste: bash runs each of them, and it has to do what it is for."""
import concurrent.futures
import contextlib
import os
import pathlib
import re
import shlex
import shutil
import subprocess
import tempfile
import types

from limits import has_ipv6
from pasting import ADDRESS, HERE, PREFIX, Door, Running, joined, kind_of, lacking, mounts, pointed, ports, programs, urls
from peers import ALLOCATOR, LISTENS, Camera, Peer, Player, leave_out, serving, until
from readme import OPERATING, README

TOP = pathlib.Path(__file__).resolve().parent.parent.parent

# How the lines of the pages that aren't run begin, and why they aren't.
NOT_RUN = {
    "./relay check": "it is what runs this",
    "tools/package": "it needs Debian's tools",
    "./relay pull ": "its camera is another machine: `pulling_ends.py` runs it with a camera of this one",
    "sudo dpkg -i ": "it changes the system",
    "sudo systemctl ": "it changes the system",
    "sudo install ": "it changes the system",
    "sudo apt install ": "it changes the system",
    "journalctl ": "it reads the system's log, which the package's unit writes",
}

# Commands that bash has itself.
BUILT_IN = "printf", "echo", "./relay"

# Clients that need a screen.
SHOWS = re.compile(r"\b(mpv|vlc|mplayer|gst-play-1\.0|imshow)\b|\b\w+imagesink\b|\bautovideosink\b")

# What has clients draw without a graphics processor, and without sound.
DRAWING = {"SDL_RENDER_DRIVER": "software", "SDL_AUDIODRIVER": "dummy", "LIBGL_ALWAYS_SOFTWARE": "1"}

# How many seconds a client may take to start, for how many it has to go on after that, and how many its account may take.
STARTS, GOES_ON, LOGGED = 20, 2, 5

# How many packets of a publishing line a player reads.
PACKETS = 10

# The status of `timeout` if it has ended its command.
TIMEOUT = 124

STATUS = re.compile(r"RTSP/1\.0 (\d{3})\b")


def text_of(page):
    """A page without its drawings and files, which are in fences."""
    return re.sub(r"^```text\n.*?^```$", "", (TOP / page).read_text(encoding="utf-8"), flags=re.M | re.S)


def of_page(page):
    """The command lines of a page's code blocks, which are indented by four spaces, and the commands that it has the unit run."""
    units = re.findall(r"(?m)^ExecStart=/usr/bin/vasklun (.+)$", (TOP / page).read_text(encoding="utf-8"))
    pasted = joined("\n".join(it[4:] if it.startswith("    ") else "" for it in text_of(page).splitlines()))
    return pasted + [f"./relay {words}" for words in units]


def of_help(program):
    """The command lines after `Example:` or `Examples:` in the program's help."""
    for words in (), ("serve",), ("pull",), ("talk",), ("steps",), ("pass",):
        text = subprocess.run([program, *words, "--help"], capture_output=True, text=True, timeout=60).stdout
        yield from (line for part in re.split(r"^Examples?:.*$", text, flags=re.M)[1:] for line in joined(part))


def short(line):
    return line if len(line) <= 80 else f"{line[:78]}.."


def faults(lines):
    """What is wrong with lines before any of them is run."""
    served = {it[2] for line in lines if kind_of(line) == "serves" for it in ADDRESS.finditer(line)}
    published = {mount for line in lines if kind_of(line) == "publishes" for mount in mounts(line)[-1:]}
    for line in lines:
        if kind_of(line) is None:
            yield line, "it is of no kind that is run, and isn't in the table of those that aren't"
        try:
            programs(line)
        except ValueError as failed:
            yield line, str(failed)
        for port in sorted(ports(line) - served):
            yield line, f"no line serves on port {port}"
        if kind_of(line) in ("publishes", "plays") and not urls(line):
            yield line, "it has no URL"
        elif kind_of(line) == "plays" and urls(line)[0][2] in HERE and mounts(line)[0] not in published:
            yield line, f"no line publishes /{mounts(line)[0]}"
        if re.match(rf"{PREFIX}ffmpeg .*&$", line) and " -nostdin " not in line:
            yield line, "the shell stops it as it reads the terminal in the background: add -nostdin"


def is_fed(line):
    """Whether a line plays a mount."""
    return kind_of(line) == "plays" or len(urls(line)) > 1


class Feed:
    """A publishing line that runs, with a server of its own. `source` is the feed that it plays, if it plays one. `mount` is what it
    publishes, and `body` its description."""

    def __init__(self, room, line, source=None):
        self.line, self.body = line, b""
        self.server = room.ends.enter_context(serving(room.program, "--verbose"))
        text = pointed(line, [it.server.port for it in (source, self) if it], source and source.mount)
        self.mount = mounts(text)[-1]
        self.running = room.ends.enter_context(room.run(text))
        until(STARTS, lambda: self.is_described() or self.running.has_ended())

    def is_described(self):
        with Peer(self.server) as peer:
            reply = peer.ask("DESCRIBE", f"rtsp://{self.server.address}/{self.mount}")
        self.body = reply.body if reply and reply.status == 200 else b""
        return bool(self.body)

    def pixels(self):
        """The format of its pixels that ffprobe prints, or its error."""
        command = "ffprobe -v error -rtsp_transport tcp -select_streams v -show_entries stream=pix_fmt -of csv=p=0".split()
        url = f"rtsp://{self.server.address}/{self.mount}"
        probe = subprocess.run([*command, url], stdin=subprocess.DEVNULL, capture_output=True, text=True, timeout=60)
        return (probe.stdout or probe.stderr[-200:]).strip()


class Room:
    """What lines are run with: the program, a folder, variables, a screen, and the feeds that others play, by their mounts. It is there
    until `ends` is closed."""

    def __init__(self, program, ends):
        self.program, self.ends, self.feeds = os.path.abspath(program), ends, {}
        self.folder = ends.enter_context(tempfile.TemporaryDirectory(prefix="lines-"))
        # A user's settings of clients don't count.
        self.variables = {**os.environ, **ALLOCATOR, **DRAWING, "XDG_CONFIG_HOME": self.folder}
        self.variables.pop("WAYLAND_DISPLAY", None)

    def start_screen(self):
        """Starts Xvfb. Without it ffplay draws nowhere."""
        self.variables["SDL_VIDEODRIVER"] = "x11" if shutil.which("Xvfb") else "dummy"
        if shutil.which("Xvfb"):
            command = ["Xvfb", "-displayfd", "1", "-screen", "0", "1280x720x24", "-nolisten", "tcp", "-noreset"]
            process = subprocess.Popen(command, stdout=subprocess.PIPE, stderr=subprocess.DEVNULL, text=True)
            self.ends.callback(process.wait)
            self.ends.callback(process.terminate)
            self.variables["DISPLAY"] = f":{process.stdout.readline().strip()}"

    def run(self, text):
        """Runs a line, whose relay is the program that is tried."""
        text = re.sub(r"(?<![^\s|;(])\./relay(?=\s)", lambda _: shlex.quote(self.program), text)
        return Running(text, self.folder, self.variables)

    def lacks(self, line):
        """What the line needs and this system doesn't have, or nothing."""
        words = programs(line)
        missing = [f"{it} isn't installed" for it in words if it not in BUILT_IN and not shutil.which(it)]
        if not missing and SHOWS.search(line) and not shutil.which("Xvfb"):
            missing = ["Xvfb isn't installed"]
        if kind_of(line) == "serves" and "[" in line and not has_ipv6():
            missing = ["no address ::1"]
        if not missing and words[0].endswith("vlc") and os.geteuid() == 0:
            missing = ["vlc doesn't run as root"]
        return ", ".join(missing or [f"{it} isn't installed" for it in lacking(line)])

    def source(self, line):
        """The feed that a line plays: that of the mount in its first URL, or any if that isn't of this host. None if there is none."""
        other = None if urls(line)[0][2] in HERE else next(iter(self.feeds.values()), None)
        return self.feeds.get(mounts(line)[0], other)

    def start_feeds(self, lines, pool):
        """Starts the first line that publishes each mount. Those that play another one come after those that don't."""
        for has_source in False, True:
            feeds = {}
            for line in [it for it in lines if kind_of(it) == "publishes" and is_fed(it) == has_source]:
                if mounts(line)[-1] not in self.feeds and (not has_source or self.source(line)):
                    feeds.setdefault(mounts(line)[-1], line)
            self.feeds |= dict(zip(feeds, list(pool.map(self.feed, feeds.values()))))

    def feed(self, line):
        """The feed that a publishing line is, which is started if it isn't there."""
        found = next((it for it in self.feeds.values() if it.line == line), None)
        return found or Feed(self, line, self.source(line) if is_fed(line) else None)

    def run_all(self, lines, pool):
        """Runs lines beside one another, the first feed of each mount before those that play it. Yields what is wrong."""
        lacks = dict(zip(lines, pool.map(self.lacks, lines)))
        begun = [pool.submit(self.found, it) for it in lines if kind_of(it) in ("serves", "asks") and not lacks[it]]
        others = [it for it in lines if kind_of(it) in ("publishes", "plays") and not lacks[it]]
        if others:
            self.start_screen()
            self.start_feeds(others, pool)
        for line in others:
            if is_fed(line) and not self.source(line):
                lacks[line] = "nothing that is installed publishes its mount"
            # If its feed fails, that is what is wrong.
            elif not is_fed(line) or self.source(line).body:
                begun.append(pool.submit(self.found, line))
        for line in filter(lacks.get, lines):
            leave_out(lines_paste, f"{lacks[line]}: {short(line)}")
        for it in begun:
            yield from it.result()

    def found(self, line):
        """What is wrong with a line that is run."""
        try:
            return [f"{short(line)}: {what}" for what in getattr(self, kind_of(line))(line)]
        except Exception as failed:
            return [f"{short(line)}: {failed!r}"]

    def serves(self, line):
        """It listens, answers an OPTIONS, and TERM ends it."""
        with self.run(ADDRESS.sub(r"\1:0", line)) as running:
            listening = lambda: [it for it in map(LISTENS.match, running.output().splitlines()) if it]
            until(STARTS, lambda: listening() or running.has_ended())
            if not (found := listening()):
                yield f"it doesn't listen: {running.told()}"
                return
            reach = "::1" if "[" in found[0][0] else HERE[0]
            with Peer(types.SimpleNamespace(reach=reach, port=int(found[0][1]))) as peer:
                if (reply := peer.ask("OPTIONS", "*")) is None or reply.status != 200:
                    yield f"OPTIONS is answered by {reply}"
            if not running.end():
                yield "TERM doesn't end it"

    def answer(self, line, names):
        """How a line ends that asks a server with mounts of these names: its status, or None, and the statuses of the replies that it
        prints; and both as text."""
        with contextlib.ExitStack() as ends:
            server = ends.enter_context(serving(self.program))
            for it in names:
                ends.enter_context(Camera(server, it))
            running = ends.enter_context(self.run(pointed(line, [server.port])))
            until(STARTS, running.has_ended)
            return (running.status, set(STATUS.findall(running.output()))), running.told()

    def asks(self, line):
        """It ends. The replies that it prints have status 200; if it prints none, its own status is 0. The mounts of its URLs are there.
        If it asks for a description, it ends otherwise if they aren't."""
        found, told = self.answer(line, {*mounts(line)} - {""})
        status, replies = found
        if status is None or replies - {"200"} or not replies and status:
            yield told
        elif "DESCRIBE " in line and mounts(line) and found == self.answer(line, ())[0]:
            yield f"it doesn't show if there is no such mount: {told}"

    def publishes(self, line):
        """Its mount is described, a player gets its packets, and its picture is 4:2:0, which all players show."""
        feed = self.feed(line)
        if not feed.is_described():
            yield f"/{feed.mount} isn't described: {feed.running.told()}"
            return
        with Player(feed.server, feed.mount) as player:
            if len(player.numbers(PACKETS)) != PACKETS:
                yield f"a player isn't sent {PACKETS} packets: {feed.running.told()}"
        if b"m=video" in feed.body and shutil.which("ffprobe") and (pixels := feed.pixels()) != "yuv420p":
            yield f"its pixel format is {pixels}, and not yuv420p"

    def plays(self, line):
        """It gets packets, and goes on or ends by itself with status 0."""
        feed = self.source(line)
        with Door(feed.server) as door:
            with self.run(pointed(line, [door.port], feed.mount)) as client:
                until(STARTS, lambda: door.plays() or client.has_ended())
                until(GOES_ON, client.has_ended)
                told, is_right = client.told(), client.status in (None, 0, TIMEOUT)
            # Its account comes when it has ended.
            if not until(LOGGED, door.packets):
                yield f"it isn't sent a packet: {told}; of its publisher: {feed.running.told()}"
            elif not is_right:
                yield told


def lines_paste(program):
    """Each line of the pages and of the help does what it is for: it serves, publishes, plays or asks. Those that need what this system
    doesn't have are left out."""
    pasted = [line for page in (README, OPERATING) for line in of_page(page)]
    for page in (README, OPERATING):
        if "```" in text_of(page):
            yield f"{page} has lines in a fence, which aren't seen: indent them by four spaces"
    for begins in NOT_RUN:
        if not any(line.startswith(begins) for line in pasted):
            yield f"no line of the pages begins with {begins!r}, which isn't run since {NOT_RUN[begins]}"
    lines = [line for line in dict.fromkeys([*pasted, *of_help(program)]) if not line.startswith(tuple(NOT_RUN))]
    wrong = list(faults(lines))
    yield from (f"{short(line)}: {what}" for line, what in wrong)
    with contextlib.ExitStack() as ends, concurrent.futures.ThreadPoolExecutor(max(1, len(lines))) as pool:
        yield from Room(program, ends).run_all([line for line in lines if line not in dict(wrong)], pool)


LONG = [(lines_paste, ())]
