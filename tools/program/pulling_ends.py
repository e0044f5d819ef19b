"""`relay pull`: its command lines, its password file, its stop, and peers and readers that it doesn't wait for."""
import contextlib
import fcntl
import os
import pathlib
import re
import shlex
import socket
import subprocess
import tempfile
import threading
import time

from fetched import Pull, Script, ServerCamera, answered, rtp
from pages import of_help, of_page
from peers import frame, serving, until
from readme import OPERATING, README

# A target that nothing is sent to.
NOWHERE = "rtsp://127.0.0.1:1/door"


@contextlib.contextmanager
def password_path(data):
    """A file with these bytes."""
    with tempfile.TemporaryDirectory() as folder:
        path = pathlib.Path(folder, "password")
        path.write_bytes(data)
        yield path


def pull_lines_have_their_status(program):
    """URLs that are refused: status 2, and a line that repeats no password."""
    good = "rtsp://127.0.0.1:8554/door"
    rows = (
        ("rtsp://a:hidden7@h/x", good, "relay: pull: SOURCE: password in URL"),
        ("rtsps://h/x", good, "relay: pull: SOURCE: rtsps is not supported"),
        ("rtsp://h/x", "rtsp://h/", "relay: pull: TARGET: no path in URL"),
        ("rtsp://h/x", "rtsp://h/x/", "relay: pull: TARGET: slash at the end of URL"),
        ("rtsp://h/x", "rtsp://u@h/x", "relay: pull: TARGET: user in URL"),
        ("rtsp://h/x", "rtsp://h/x?q", "relay: pull: TARGET: query in URL"),
        ("rtsp://a%3Ab@h/x", good, "relay: pull: SOURCE: colon in user name", "--password-file", "/nowhere"),
    )
    for source, target, line, *options in rows:
        with Pull(program, source, target, *options) as pull:
            if pull.status() != 2 or pull.lines != [line]:
                yield f"{line!r} is wanted, and not {pull.lines}"
    with Pull(program, "rtsp://a:hidden7@h/x", good, "--nothing") as pull:
        if pull.status() != 2 or pull.has("hidden7"):
            yield f"{pull.lines}"


def password_files_have_their_faults(program):
    """A file that isn't there, is empty, or is too long: status 1 and a line."""
    rows = (b"", "no password in the file"), (b"\n", "no password in the file"), (b"x" * 1_024, "more than 1023 bytes")
    for data, reason in rows:
        with password_path(data) as path, Pull(program, "rtsp://a@h/x", NOWHERE, "--password-file", str(path)) as pull:
            if pull.status() != 1 or pull.lines != [f"relay: pull: --password-file: {reason}"]:
                yield f"{data[:9]}: {pull.lines}"
    with Pull(program, "rtsp://a@h/x", NOWHERE, "--password-file", "/nowhere") as pull:
        if pull.status() != 1 or not pull.has("relay: pull: --password-file: "):
            yield f"{pull.lines}"


def password_has_its_blanks(program):
    """Of a password file the end of its last line alone is left out."""
    with serving(program) as server, password_path(b" p w \r\n") as path:
        with ServerCamera(Script([frame(rtp(1))], secret=("admin", " p w "), end="close")) as camera:
            source = camera.url.replace("rtsp://", "rtsp://admin@")
            with Pull(program, source, f"rtsp://127.0.0.1:{server.port}/door", "--once", "--password-file", str(path)) as pull:
                if pull.status() != 0:
                    yield f"{pull.lines}"


def file_that_is_written_is_no_password(program):
    """A password file that is empty for a moment keeps the password that was there."""
    script = Script([frame(rtp(1))], secret=("admin", "good"), end="close")
    with serving(program) as server, ServerCamera(script) as camera, password_path(b"good") as path:
        source = camera.url.replace("rtsp://", "rtsp://admin@")
        with Pull(program, source, f"rtsp://127.0.0.1:{server.port}/door", "--password-file", str(path)) as pull:
            if not until(10, lambda: pull.ends()):
                yield f"no end: {pull.lines}"
            path.write_bytes(b"")
            if not until(15, lambda: len(pull.ends()) > 4) or pull.has("password"):
                yield f"{pull.lines}"


def password_file_that_blocks_holds_no_stop(program):
    """A file that can't be read to its end, as a FIFO without a writer, is waited for until the stop."""
    with tempfile.TemporaryDirectory() as folder:
        path = f"{folder}/fifo"
        os.mkfifo(path)
        with Pull(program, "rtsp://a@127.0.0.1:1/x", NOWHERE, "--password-file", path) as pull:
            time.sleep(1)
            took = pull.stop()
            if not isinstance(took, tuple) or took[0] > 5 or took[1] != 0:
                yield f"{took}, {pull.lines}"


def stop_tears_the_sessions_down(program):
    """A stop while frames go on: TEARDOWN to the camera, the mount ends, and the last line says so."""
    with serving(program, "--verbose") as server, ServerCamera(Script([frame(rtp(1))])) as camera:
        with Pull(program, camera.url, f"rtsp://127.0.0.1:{server.port}/door") as pull:
            if not until(10, lambda: pull.has("begins, tracks")):
                yield f"{pull.lines}"
            took = pull.stop()
            if not isinstance(took, tuple) or took[0] > 2 or took[1] != 0 or not pull.lines[-1].endswith(", stopped"):
                yield f"{took}, {pull.lines}"
            if camera.methods()[-1] != "TEARDOWN" or not pull.lines[-1].startswith("[INFO "):
                yield f"{camera.methods()}, {pull.lines}"


def stops_within_five_seconds(program):
    """A stop between tries, and while a connection is made to an address that doesn't answer."""
    with full_listener() as port:
        for source in "rtsp://127.0.0.1:1/x", "rtsp://192.0.2.1/x", f"rtsp://127.0.0.1:{port}/x":
            with Pull(program, source, NOWHERE) as pull:
                time.sleep(1.5)
                took = pull.stop()
                if not isinstance(took, tuple) or took[0] > 5 or took[1] != 0:
                    yield f"{source}: {took}, {pull.lines}"


@contextlib.contextmanager
def full_listener():
    """The port of a listener that takes no connection any more: what is sent to it has no answer."""
    with socket.create_server(("127.0.0.1", 0), backlog=0) as listener:
        peers = []
        for _ in range(4):
            peer = socket.socket()
            peer.setblocking(False)
            with contextlib.suppress(BlockingIOError):
                peer.connect(listener.getsockname())
            peers.append(peer)
        yield listener.getsockname()[1]
        for peer in peers:
            peer.close()


def each_address_has_five_seconds(program):
    """A connection that isn't made is given up after five seconds."""
    with full_listener() as port:
        begun = time.monotonic()
        with Pull(program, f"rtsp://127.0.0.1:{port}/x", NOWHERE, "--once") as pull:
            status, took = pull.status(), time.monotonic() - begun
            if status != 1 or not 4.5 < took < 9 or not pull.has("no connection to the source: timed out"):
                yield f"{status} after {took:.1f} s: {pull.lines}"


def each_address_of_a_name_is_tried(program):
    """localhost is ::1 and 127.0.0.1, and the camera has the second one alone."""
    if len({it[4][0] for it in socket.getaddrinfo("localhost", 80, type=socket.SOCK_STREAM)}) < 2:
        return
    with serving(program) as server, ServerCamera(Script([frame(rtp(1))], end="close")) as camera:
        with Pull(program, f"rtsp://localhost:{camera.port}/cam", f"rtsp://127.0.0.1:{server.port}/door", "--once") as pull:
            if pull.status() != 0:
                yield f"{pull.lines}"


def unread_lines_hold_nothing(program):
    """Standard error is a pipe that nobody reads: tries go on when it is full, and a stop ends the program."""
    reads, writes = os.pipe()
    # Room for some thirty lines.
    fcntl.fcntl(writes, fcntl.F_SETPIPE_SZ, 4_096)
    with ServerCamera(Script(replies={"OPTIONS": "close", "DESCRIBE": "close"})) as camera:
        words = [program, "pull", camera.url, NOWHERE, "--retry", "10", "--until-eof"]
        process = subprocess.Popen(words, stdin=subprocess.PIPE, stderr=writes)
        try:
            time.sleep(14)
            before = camera.connections
            time.sleep(3)
            begun, more = time.monotonic(), camera.connections - before
            process.stdin.close()
            status = process.wait(8)
            if more < 5 or status != 0 or time.monotonic() - begun > 5:
                yield f"{more} tries in three seconds, status {status} after {time.monotonic() - begun:.1f} s"
        finally:
            process.kill()
            os.close(reads)
            os.close(writes)


def camera_that_goes_away_loses_no_count(program):
    """A camera sends until nothing more is taken, since the target reads nothing, and is gone: the next request to it resets its connection.
    Once the target reads again, each frame that has come goes on and is in the account, and one that is cut is there too."""
    frames = [frame(rtp(number, 1_400)) for number in range(20_000)]
    with ServerCamera(Script(frames, timeout=8, end="gone")) as source, socket.create_server(("127.0.0.1", 0)) as listener:
        threading.Thread(target=reply_and_read_late, args=(listener, source), daemon=True).start()
        with Pull(program, source.url, f"rtsp://127.0.0.1:{listener.getsockname()[1]}/door", "--once", "--silent", "60") as pull:
            status = pull.status(60)
            counts = [int(it) for it in re.findall(r"\d+", pull.ends()[0].partition(": ")[2])[:4]] if pull.ends() else []
            whole, part = divmod(source.delivered(), len(frames[0]))
            # If all that was sent has come, the stream's end may have, too.
            ends = {1: "connection to the source lost", 0: "source closed the connection"}
            if status not in ends or counts != [whole, 0, 0, int(part > 0)] or not pull.has(ends[status]):
                yield f"{status}, {counts} of {whole} frames and {part} bytes, {pull.lines}"


def reply_and_read_late(listener, source):
    """A target that replies to four requests, and then reads nothing until the connection to a camera that has left is reset."""
    peer, _ = listener.accept()
    peer.setsockopt(socket.SOL_SOCKET, socket.SO_RCVBUF, 65_536)
    with contextlib.suppress(OSError):
        answered(peer, 4)
        source.has_left.wait(30)
        until(15, source.is_reset)
        time.sleep(1)
        while peer.recv(65_536):
            pass


def target_that_asks_for_a_password_is_told(program):
    """A target's 401 is a reason of its own."""
    with ServerCamera(Script()) as source, ServerCamera(Script(replies={"ANNOUNCE": 401})) as target:
        with Pull(program, source.url, target.url, "--once") as pull:
            if pull.status() != 1 or pull.lines[-1] != "relay: pull: target asks for a password":
                yield f"{pull.lines}"


def tracks_and_reports_have_their_lines(program):
    """With --tracks a track is left out, and with --report a line comes each second. Ends are warnings, if no stop made them."""
    script = Script([frame(rtp(number)) for number in range(9)], end="stay")
    with serving(program) as server, ServerCamera(script) as camera:
        target = f"rtsp://127.0.0.1:{server.port}/door"
        with Pull(program, camera.url, target, "--once", "--tracks", "video", "--report", "1", "--silent", "3") as pull:
            status = pull.status()
        info, report = "[INFO  relay_pull::camera] camera of door: ", "sent 9, unknown channel 0, before recording 0, unsent 0, missing 0, late 0, restarts 0"
        wanted = f"{info}track 1 left out: not in --tracks", f"{info}begins, tracks video 0-1", f"{info}{report}"
        end = f"[WARN  relay_pull::camera] camera of door: {report}, no frame for 3 s"
        if status != 1 or not {*wanted, end} <= set(pull.lines) or not pull.lines.index(wanted[2]) < pull.lines.index(end):
            yield f"{status}, {pull.lines}"


def pasted_lines_pull(program):
    """Each line of the pages and of the help with `relay pull`, to a camera and a server of this host."""
    lines = [line for line in (*of_page(README), *of_page(OPERATING), *of_help(program)) if line.startswith("./relay pull ")]
    if len(lines) < 2:
        yield f"only {lines}"
    for line in lines:
        secret = ("admin", "hidden7") if "@" in line else None
        script = Script([frame(rtp(number)) for number in range(9)], secret=secret)
        with serving(program) as server, ServerCamera(script) as camera, password_path(b"hidden7\n") as path:
            words = [str(path) if word.endswith(".password") else word for word in shlex.split(line)[2:]]
            for place, port in zip((place for place, word in enumerate(words) if word.startswith("rtsp://")), (camera.port, server.port)):
                words[place] = re.sub(r"(rtsp://(?:[^/@]*@)?)[^/]*", rf"\g<1>127.0.0.1:{port}", words[place])
            with Pull(program, *words) as pull:
                if not until(10, lambda: pull.has("begins, tracks video 0-1, audio 2-3")) or pull.stop()[1] != 0 or not pull.has("sent 9, "):
                    yield f"{line}: {pull.lines}"


LONG = [(part, ()) for part in (unread_lines_hold_nothing, camera_that_goes_away_loses_no_count, each_address_has_five_seconds)]

PARTS = [
    (part, ())
    for part in (
        pull_lines_have_their_status, password_files_have_their_faults, password_has_its_blanks, file_that_is_written_is_no_password,
        password_file_that_blocks_holds_no_stop, stop_tears_the_sessions_down, stops_within_five_seconds, each_address_of_a_name_is_tried,
        target_that_asks_for_a_password_is_told, tracks_and_reports_have_their_lines, pasted_lines_pull,
    )
]
