"""Starts: what a command line has to say, what help says, the allocator's settings, and where players start."""
import contextlib
import os
import pathlib
import socket
import subprocess
import time

from peers import ALLOCATOR, MODES, Camera, Player, frame, packet, serving, until, wanted

TOP = pathlib.Path(__file__).resolve().parent.parent.parent

# Texts that are no address with a port.
NO_ADDRESSES = (
    ":9101", "9101", "127.0.0.1", "nowhere", "127.0.0.1:", "127.0.0.1:65536", "rtsp://127.0.0.1:9101", "rtsp://127.0.0.1:9101/cam", "::1",
    "2001:db8::1", "*:9101",
)

# Addresses that this machine hasn't (RFC 5737, RFC 3849).
NOT_HERE = "192.0.2.1:9101", "[2001:db8::1]:9101"

ASKED_FOR = "ADDRESS:PORT is asked for, as 127.0.0.1:8554, or 0.0.0.0:8554 for all addresses"

# Command lines that are refused, and what their error names.
REFUSED = (
    (("--back", "5", "--back-ms", "5"), ("--back <N>", "--back-ms <MS>")),
    (("--back-ms", "10001"), ("10001", "--back-ms <MS>")),
    (("--keep-ended", "yes"), ("yes",)),
)

# How many columns help may have.
WIDEST = 100

# How many packets a camera publishes at a time.
BUNCH = 10


def run(program, *words):
    return subprocess.run([program, *words], capture_output=True, text=True, timeout=60)


def cannot_listen(program):
    """If an address is in use, or isn't this machine's, or the text is none, two lines say why, and the status is 1."""
    with socket.socket() as other:
        other.bind(("127.0.0.1", 0))
        other.listen()
        in_use = "127.0.0.1:%d" % other.getsockname()[1]
        for address in (in_use, *NOT_HERE, *NO_ADDRESSES):
            ran = run(program, "serve", address)
            why, last = (ran.stderr.splitlines() + ["", ""])[:2]
            is_named = why.startswith(f"[ERROR relay_main::serve] {address}: ") and ran.stderr.count("\n") == 2
            is_right = why.endswith(f": {ASKED_FOR}") == (address in NO_ADDRESSES)
            if (ran.returncode, ran.stdout, last) != (1, "", "relay: cannot listen") or not is_named or not is_right:
                yield f"{address}: {ran}"


def refused_lines(program):
    """Options that exclude each other, and numbers out of their ranges, are refused with status 2, by an error that names them."""
    for options, named in REFUSED:
        ran = run(program, "serve", "127.0.0.1:0", *options)
        if ran.returncode != 2 or ran.stdout or not all(word in ran.stderr for word in named):
            yield f"{options}: {ran}"


def help_is_narrow(program):
    """Help has at most 100 columns."""
    for words in ((), ("serve",), ("pull",), ("talk",), ("steps",), ("pass",)):
        ran = run(program, *words, "--help")
        widest = max(map(len, ran.stdout.splitlines() or ["x" * (WIDEST + 1)]))
        if ran.returncode or widest > WIDEST:
            yield f"{words}: status {ran.returncode}, {widest} columns"


def allocator_is_set(program):
    """The script that runs the program sets the allocator's variables, unless they are set."""
    for given in ({}, {"MALLOC_ARENA_MAX": "2", "MALLOC_MMAP_THRESHOLD_": "65536"}):
        others = {name: value for name, value in os.environ.items() if name not in ALLOCATOR}
        command = ["bash", "-c", f'. {TOP}/dist/run.sh; run "$0" serve 127.0.0.1:0', program]
        script = subprocess.Popen(command, stderr=subprocess.PIPE, text=True, env={**others, **given})
        try:
            script.stderr.readline()
            found = {}
            until(5, lambda: found.update(variables_of(script.pid)) or found)
            if {name: found.get(name) for name in ALLOCATOR} != {**ALLOCATOR, **given}:
                yield f"with {given} the program has {found}"
        finally:
            script.terminate()
            script.wait()


def variables_of(script):
    """The environment of the program that a script runs, or nothing while it doesn't run."""
    # A child of the script may end while it is read.
    with contextlib.suppress(FileNotFoundError, ProcessLookupError):
        children = pathlib.Path(f"/proc/{script}/task/{script}/children").read_text().split()
        pids = [pid for pid in children if os.readlink(f"/proc/{pid}/exe").rpartition("/")[2] not in ("bash", "sleep")]
        texts = [pathlib.Path(f"/proc/{pid}/environ").read_text() for pid in pids]
        return dict(word.partition("=")[::2] for text in texts for word in text.split("\0") if word)
    return {}


def numbers_from(player, last):
    """The numbers of the packets that come up to this one."""
    numbers = []
    while numbers[-1:] != [last] and (came := player.numbers(1)):
        numbers += came
    return numbers


def begins(camera, player, first, next_one, has_info=False):
    """Yields what is wrong if a PLAY doesn't begin with the packet of this number, go on to the next one that is published, and say where
    its stream begins, or not say so."""
    reply = wanted(player.play())
    camera.publish([next_one])
    numbers = numbers_from(player, next_one)
    if numbers != [*range(first, next_one + 1)]:
        yield f"it gets {numbers[:1]} to {numbers[-1:]}, {len(numbers)} packets, and not {first} to {next_one}"
    if (reply.field("RTP-Info") is not None) != has_info:
        yield f"RTP-Info: {reply.head}"


def publish(camera, *bunches):
    """Publishes bunches of packets, by turns RTP and RTCP, with these seconds after each."""
    for place, seconds in enumerate(bunches):
        numbers = range(place * BUNCH, (place + 1) * BUNCH)
        camera.send(b"".join(frame(packet(number), number % 2) for number in numbers))
        camera.is_read()
        time.sleep(seconds)


def starts_at_the_end(program, *options):
    """By default, and with 0, a player starts at the end, also right after a packet, and with RTP-Info."""
    for back in ((), ("--back-ms", "0"), ("--back", "0")):
        with serving(program, *back, *options) as server, Camera(server) as camera, Player(server, plays=False) as player:
            publish(camera, 0)
            yield from (f"{back}: {what}" for what in begins(camera, player, BUNCH, BUNCH, has_info=True))


def starts_back(program, *options):
    """A player begins with the packets of the last milliseconds, of all its track's channels and to the tenth of a second, without
    RTP-Info; so it does after a PAUSE. Packets from before aren't sent."""
    with serving(program, "--back-ms", "3000", *options) as server, Camera(server) as camera, Player(server, plays=False) as player:
        publish(camera, 4, 1.5, 0.5)
        yield from begins(camera, player, BUNCH, 3 * BUNCH)
        wanted(player.ask("PAUSE", player.url))
        # Of what was published it has the last bunch and the packet after it again.
        time.sleep(1.5)
        yield from (f"after a PAUSE: {what}" for what in begins(camera, player, 2 * BUNCH, 3 * BUNCH + 1))
        wanted(player.ask("PAUSE", player.url))
        time.sleep(3.5)
        yield from (f"after a longer PAUSE: {what}" for what in begins(camera, player, 3 * BUNCH + 2, 3 * BUNCH + 2))
        if server.lines:
            yield f"lines: {server.lines}"


def starts_far_back(program, *options):
    """Ten seconds are given as well as one."""
    with serving(program, "--back-ms", "10000", *options) as server, Camera(server) as camera, Player(server, plays=False) as player:
        publish(camera, 8.5)
        yield from begins(camera, player, 0, BUNCH)


def starts_told(server):
    """The lines about starts that were shortened."""
    return [line for line in server.lines if ": players start with " in line]


def starts_are_shortened(program, *options):
    """At most half of `--keep` is given, and one line a mount says by how much that is less."""
    line = "[WARN  relay_server::events] mount {}: players start with 8 packets, half of --keep, and not with the 20 of the last 5000 ms"
    with serving(program, "--keep", "16", "--back-ms", "5000", *options) as server:
        with Camera(server) as camera, Camera(server, "garage") as other, Player(server, plays=False) as first:
            publish(camera, 0, 0)
            publish(other, 0, 0)
            yield from begins(camera, first, 2 * BUNCH - 8, 2 * BUNCH)
            with Player(server, plays=False) as second, Player(server, "garage") as third:
                yield from begins(camera, second, 2 * BUNCH + 1 - 8, 2 * BUNCH + 1)
                if third.numbers(1) != [2 * BUNCH - 8]:
                    yield "a player of another mount starts elsewhere"
        wanted_lines = [line.format("cam"), line.format("garage")]
        until(5, lambda: len(starts_told(server)) >= len(wanted_lines))
        if starts_told(server) != wanted_lines:
            yield f"lines: {server.lines}"


PARTS = [(part, ()) for part in (cannot_listen, refused_lines, help_is_narrow, allocator_is_set)]

PARTS += [(part, mode) for part in (starts_at_the_end, starts_are_shortened) for mode in (*MODES, ("--direct",))]

LONG = [(starts_far_back, ())] + [(starts_back, mode) for mode in (*MODES, ("--direct",))]
