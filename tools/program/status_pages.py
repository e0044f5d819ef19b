"""What a server with `--http` answers: its pages, their types and policies, and each metric of docs/METRICS.md."""
import base64
import contextlib
import hashlib
import http.client
import json
import os
import pathlib
import re
import socket
import subprocess
import time

from peers import GATHER, IN, OUT, Camera, serving, until, wanted

# The line of a server that serves status pages on a port.
SERVES = re.compile(r"relay: status pages on http://127\.0\.0\.1:(\d+)/")

METRICS = pathlib.Path(__file__).resolve().parents[2] / "docs" / "METRICS.md"

# Within how many seconds a page comes, whoever else is there, and after how many a peer that asks for nothing is closed.
PROMPT, SILENT = 2, (1.5, 4)

# The fields of each answer.
FIELDS = {"cache-control": "no-store", "x-content-type-options": "nosniff", "connection": "close"}

# What a browser may load and run for an answer that isn't the page of `/`.
NOTHING = "default-src 'none'; frame-ancestors 'none'"

TYPES = {
    "/": "text/html; charset=utf-8",
    "/metrics": "text/plain; version=0.0.4; charset=utf-8",
    "/status.json": "application/json",
    "/health": "text/plain; charset=utf-8",
}


@contextlib.contextmanager
def pages_of(program, *options, **how):
    """A server with status pages, and the port of these."""
    with serving(program, "--http", "127.0.0.1:0", *GATHER, *options, **how) as server:
        if not until(5, lambda: any(map(SERVES.match, server.lines))):
            raise AssertionError(f"it serves no pages: {server.lines}")
        yield server, int(next(filter(None, map(SERVES.match, server.lines)))[1])


def answer(port, path, method="GET", headers=()):
    """The answer to a request: its status, its fields by their names, and its body."""
    connection = http.client.HTTPConnection("127.0.0.1", port, timeout=30)
    try:
        connection.request(method, path, headers=dict(headers))
        came = connection.getresponse()
        return came.status, {name.lower(): value for name, value in came.getheaders()}, came.read()
    finally:
        connection.close()


def samples(port):
    """The samples of the metrics: each value by its name and labels, as they are written."""
    status, _, body = answer(port, "/metrics")
    if status != 200:
        raise AssertionError(f"/metrics: {status}")
    rows = [line.rpartition(" ") for line in body.decode().splitlines() if line and not line.startswith("#")]
    values = {key: float(value) for key, _, value in rows}
    if len(values) != len(rows):
        raise AssertionError("a sample is written twice")
    return values


def results(values, family, names, mount=None):
    """The values of a family by result; 0 if there is none, as in figures that are older than the mount."""
    label = f'mount="{mount}",' if mount else ""
    return {name: values.get(f'{family}{{{label}result="{name.replace(" ", "_").lower()}"}}', 0) for name in names}


def all_in(values, mount=None):
    return results(values, "vasklun_mount_packets_total" if mount else "vasklun_packets_total", IN, mount)


def all_out(values, mount=None):
    return results(values, "vasklun_mount_player_packets_total" if mount else "vasklun_player_packets_total", OUT, mount)


def pages_are_answered(program):
    """Each page comes with its type and its fields, by HEAD without its text; nothing else is a page."""
    with pages_of(program) as (_, port):
        for path, kind in TYPES.items():
            for method in "GET", "HEAD":
                status, fields, body = answer(port, path, method)
                if status != 200 or {**fields, **FIELDS, "content-type": kind} != fields or "date" not in fields:
                    yield f"{method} {path}: {status} {fields}"
                if path != "/" and fields.get("content-security-policy") != NOTHING:
                    yield f"{method} {path}: the policy is {fields.get('content-security-policy')}"
                if bool(body) != (method == "GET"):
                    yield f"{method} {path}: {body[:60]!r}"
        for method, path, wanted in ("GET", "/nothing", 404), ("POST", "/nothing", 404), ("POST", "/metrics", 405), ("GET", "/metrics?x=1", 200):
            status, fields, _ = answer(port, path, method)
            if status != wanted or (wanted == 405 and fields.get("allow") != "GET, HEAD") or fields.get("content-security-policy") != NOTHING:
                yield f"{method} {path}: {status} {fields}"


def said(port, text, shut=False):
    """What comes up to the end after this text, and after how many seconds the end."""
    with socket.create_connection(("127.0.0.1", port), timeout=30) as peer:
        begun = time.monotonic()
        with contextlib.suppress(ConnectionError):
            peer.sendall(text)
            if shut:
                peer.shutdown(socket.SHUT_WR)
        came = b""
        with contextlib.suppress(ConnectionError):
            while piece := peer.recv(1 << 16):
                came += piece
        return came, time.monotonic() - begun


def what_is_no_request_is_refused(program):
    """Garbage, a head of 100 KB and a body are refused by a status; a peer that says nothing is closed after two seconds."""
    head = b"GET /metrics HTTP/1.1\r\nHost: x\r\n"
    with pages_of(program) as (_, port):
        for text, status in (
            (b"\x16\x03\x01garbage\r\n\r\n", b"400"),
            (head + b"X: " + b"y" * 100_000 + b"\r\n\r\n", b"431"),
            (b"GET /" + b"y" * 100_000 + b" HTTP/1.1\r\nHost: x\r\n\r\n", b"4"),
            (head + b"Content-Length: 5\r\n\r\nhello", b"413"),
        ):
            came, _ = said(port, text)
            if not came.startswith(b"HTTP/1.1 " + status):
                yield f"{text[:40]!r} is answered {came[:60]!r}"
        came, _ = said(port, head + b"\r\n", shut=True)
        if not came.startswith(b"HTTP/1.1 200 ") or b"vasklun_mounts_max 64\n" not in came:
            yield f"a request that is half closed is answered {came[:60]!r}"
        for text in b"", head:
            came, seconds = said(port, text)
            if came[:10] not in (b"", b"HTTP/1.1 4") or not SILENT[0] < seconds < SILENT[1]:
                yield f"{text!r} is answered {came[:60]!r} after {seconds:.1f} s"


def names_are_escaped(program):
    """A name is a label's value, and a text of JSON, whatever bytes it has."""
    with pages_of(program) as (server, port):
        # A quote of a URL is kept as %22 (RFC 3986, 2.1).
        for asked, name, label in ("a%22b", "a%22b", "a%22b"), ("c\\d", "c\\d", "c\\\\d"), ('e"f', "e%22f", "e%22f"):
            with Camera(server, asked) as camera:
                camera.publish([1])
                if not until(5, lambda: samples(port).get(f'vasklun_mount_live{{mount="{label}"}}') == 1):
                    yield f"{name}: {[key for key in samples(port) if 'mount_live' in key]}"
                names = [it["name"] for it in json.loads(answer(port, "/status.json")[2])["recorded"]]
                if names != [name]:
                    yield f"{name} is shown as {names}"


# A description whose words would be HTML, a quote, a control character and no UTF-8; and its tracks as they are shown, in their order.
DESCRIPTION = b"""v=0\r
m=<img/src=x/onerror=alert(1)> 0 RTP/AVP "\x1b\xff\r
a=control:streamid=0\r
m=audio 0 RTP/AVP 97 98\r
m=""" + b"v" * 65 + b" 0 RTP/AVP " + b"9" * 65 + b"\r\n"
SHOWN = ("<img/src=x/onerror=alert(1)>", '"\x1b\ufffd'), ("audio", "97"), ("v" * 64, "9" * 64)


class Described(Camera):
    """Records into a mount of that description."""

    def announce(self, url):
        self.url = url
        wanted(self.ask("ANNOUNCE", self.url, body=DESCRIPTION))
        self.set_up(f"{self.url}/streamid=0", "interleaved=0-1;mode=record")


def described(port):
    """The tracks of each mount that is recorded, as `/status.json` has them."""
    recorded = json.loads(answer(port, "/status.json")[2])["recorded"]
    return {it["name"]: tuple((track["media"], track["format"]) for track in it["tracks"]) for it in recorded}


def tracks_are_shown(program):
    """The media and the first format of each track are texts of JSON, whatever bytes they have, while the mount is recorded."""
    with pages_of(program) as (server, port), Camera(server, "plain"):
        with Described(server):
            due = {"plain": (("video", "96"),), "cam": SHOWN}
            if not until(5, lambda: described(port) == due):
                yield f"{described(port)} are shown, and not {due}"
        del due["cam"]
        if not until(5, lambda: described(port) == due):
            yield f"after the end {described(port)} are shown, and not {due}"


# A row of docs/METRICS.md, and the line of the format that has the same.
DESCRIBED = re.compile(r"^\| `((?:vasklun|process)_\w+)` \| (counter|gauge) \|", re.M)

# Linux says how many descriptors are open from 6.2 on.
UNTOLD = set() if os.stat("/proc/self/fd").st_size else {("process_open_fds", "gauge")}

TYPED = re.compile(r"^# TYPE (\w+) (\w+)$", re.M)


def metrics_are_described(program):
    """docs/METRICS.md has each metric that a relay answers, with its kind, and no other."""
    page = METRICS.read_text()
    with pages_of(program, "--http-players") as (_, port):
        served = TYPED.findall(answer(port, "/metrics")[2].decode())
    if sorted(served) != sorted(it for it in DESCRIBED.findall(page) if it not in UNTOLD):
        yield f"{set(served) ^ set(DESCRIBED.findall(page))} are in one of both, or a metric is there twice"


# How many descriptors more or fewer may be open when they are counted again: a page's connection, and the folder by which the test counts.
FEW = 3


def process_is_shown(program):
    """The figures of the process are those that the system has of it, and the version is that of `relay --version`."""
    version = subprocess.run([program, "--version"], capture_output=True, text=True, timeout=30).stdout.split()[1]
    with pages_of(program) as (server, port), contextlib.ExitStack() as held:
        values, now = samples(port), time.time()
        if values.get(f'vasklun_build_info{{version="{version}"}}') != 1:
            yield f"the version {version} isn't shown: {[key for key in values if 'build_info' in key]}"
        if not now - 60 < values["process_start_time_seconds"] < now + 1:
            yield f"it started at {values['process_start_time_seconds']}, and now it is {now}"
        if values["process_resident_memory_bytes"] < 1 << 20:
            yield f"{values['process_resident_memory_bytes']} bytes are resident"
        limit = re.search(r"^Max open files +(\d+) ", pathlib.Path(f"/proc/{server.pid}/limits").read_text(), re.M)[1]
        if values["process_max_fds"] != int(limit):
            yield f"{values['process_max_fds']} descriptors may be open, and not {limit}"
        for number in range(40):
            held.enter_context(Camera(server, f"cam{number}"))
        shown, open_files = samples(port).get("process_open_fds"), server.descriptors()
        if not UNTOLD and (abs(shown - open_files) > FEW or shown < values["process_open_fds"] + 40 - FEW):
            yield f"{shown} descriptors are open, and not {open_files}; before 40 connections {values['process_open_fds']}"
        ran = values["process_cpu_seconds_total"]
        if not until(10, lambda: samples(port)["process_cpu_seconds_total"] > ran):
            yield f"it answers, and runs for no more than {ran} s"


RESULT = re.compile(r"^\| `(?!result`|reason`)(\w+)` \| [A-Z]", re.M)

# The samples of the server by a result or a reason.
BY_RESULT = re.compile(r'^vasklun_(?:(?:player_)?packets_total\{result|connections_refused_total\{reason)="(\w+)"\}', re.M)


def results_are_described(program):
    """docs/METRICS.md has each result and reason, and no other."""
    page = METRICS.read_text()
    with pages_of(program) as (_, port):
        served = BY_RESULT.findall(answer(port, "/metrics")[2].decode())
    if served != RESULT.findall(page):
        yield f"served {served}, described {RESULT.findall(page)}"


def page_runs_its_own_alone(program):
    """The page's policy says by hashes that its own style and script may run, and nothing else, and that no page shows it in a frame."""
    with pages_of(program) as (_, port):
        _, fields, body = answer(port, "/")
    page, policy = body.decode(), fields.get("content-security-policy", "")
    for tag in "style", "script":
        text = re.findall(rf"<{tag}>(.*?)</{tag}>", page, re.S)
        hashes = [f"'sha256-{base64.b64encode(hashlib.sha256(it.encode()).digest()).decode()}'" for it in text]
        if len(text) != 1 or f"{tag}-src {hashes[0]};" not in policy:
            yield f"the policy has no {tag} of {hashes}"
    if not policy.startswith("default-src 'none'; ") or not policy.endswith("; frame-ancestors 'none'"):
        yield f"the policy is {policy}"
    if re.search(r"(?:http-equiv|src|href)=|innerHTML|https?://(?!www\.w3\.org/2000/svg)", page):
        yield "the page has something from elsewhere"


def address_in_use(program):
    """An address that can't be had ends it before anything is served, with the reason."""
    with socket.create_server(("127.0.0.1", 0)) as taken:
        for addr in f"127.0.0.1:{taken.getsockname()[1]}", "nowhere":
            ran = subprocess.run([program, "serve", "127.0.0.1:0", "--http", addr], stderr=subprocess.PIPE, text=True, timeout=30)
            lines = ran.stderr.splitlines()
            if ran.returncode != 1 or len(lines) != 2 or addr not in lines[0] or lines[1] != "relay: cannot listen":
                yield f"{addr}: {ran.returncode} {lines}"


PARTS = [(part, ()) for part in (pages_are_answered, what_is_no_request_is_refused, names_are_escaped, tracks_are_shown, metrics_are_described, results_are_described, process_is_shown, page_runs_its_own_alone, address_in_use)]
