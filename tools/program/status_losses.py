"""What a server with `--http` shows of packets that were lost before it, of bytes that players were sent, and of the last packets."""
import json
import time

from peers import MODES, Camera, Frame, Player, frame, packet, until, wanted
from status_counts import TwoTracks
from status_pages import answer, pages_of, samples

# A RECORD after a PAUSE, and another source (SSRC) from there on.
AGAIN, OTHER = "RECORD", "SSRC"

# Sequence numbers of a camera's packets, and what they count (RFC 3550, A.1 and A.3): missing, late, restarts.
ROWS = (
    ((65534, 65535, 1), (1, 0, 0)),
    ((1, 2, 4, 3, 5), (1, 1, 0)),
    ((7, 7), (0, 0, 0)),
    ((1, 3000), (2998, 0, 0)),
    ((1, 3001), (0, 0, 1)),
    ((200, 101), (0, 1, 0)),
    ((200, 100), (0, 0, 1)),
    ((5, AGAIN, 9), (0, 0, 0)),
    ((5, OTHER, 6), (0, 0, 1)),
)

# The metrics of a track, and the names of its counts in the figures.
TRACK_METRICS = "vasklun_mount_missing_packets_total", "vasklun_mount_late_packets_total", "vasklun_mount_sequence_restarts_total"
TRACK_COUNTS = "missing", "late", "restarts"

LAST = "vasklun_mount_last_packet_timestamp_seconds"

# By how many seconds a time may differ from that of the test's own clock, and by how many from one page to the next.
NEAR, STEADY = 1, 0.01


def figures(port, mount):
    """The figures of a name in `/status.json`, or none."""
    found = [it for it in json.loads(answer(port, "/status.json")[2])["mounts"] if it["name"] == mount]
    return found[0] if found else {}


def tracks_of(port, mount):
    """The counts of each track of a name, as `/metrics` has them."""
    values = samples(port)
    shown = {}
    for track in range(16):
        row = [values.get(f'{metric}{{mount="{mount}",track="{track}"}}') for metric in TRACK_METRICS]
        if row != [None] * len(row):
            shown[track] = tuple(row)
    return shown


def tracks_in_json(port, mount):
    """The same, as `/status.json` has them."""
    return {it["track"]: tuple(it[name] for name in TRACK_COUNTS) for it in figures(port, mount).get("tracks", [])}


def pause_and_record(camera):
    wanted(camera.ask("PAUSE", camera.url))
    camera.record()


def send_row(camera, steps):
    """Sends the packets of a row."""
    source = 0
    for step in steps:
        if step == AGAIN:
            pause_and_record(camera)
        elif step == OTHER:
            source += 1
        else:
            camera.send(frame(packet(step, source=source)))
    camera.is_read()


def missing_packets_are_counted(program):
    """Sequence numbers that are passed over are missing, smaller ones are late, and others begin anew; the counts stay after the end."""
    with pages_of(program) as (server, port):
        for place, (steps, due) in enumerate(ROWS):
            mount, due = f"row{place}", {0: due}
            with Camera(server, mount) as camera:
                send_row(camera, steps)
                if not until(5, lambda: tracks_of(port, mount) == due and tracks_in_json(port, mount) == due):
                    yield f"{steps}: {tracks_of(port, mount)} and {tracks_in_json(port, mount)}, and not {due}"
            until(5, lambda: samples(port)[f'vasklun_mount_live{{mount="{mount}"}}'] == 0)
            if tracks_of(port, mount) != due:
                yield f"{steps}: after the end {tracks_of(port, mount)}"


def tracks_are_counted_apart(program):
    """Each track has its own counts, from its first RTP packet on; what a mount that comes back counts is added."""
    with pages_of(program) as (server, port):
        for round in 1, 2:
            with TwoTracks(server) as camera:
                if round == 1 and (tracks_of(port, "cam") or tracks_in_json(port, "cam")):
                    yield f"before the first packet there is {tracks_of(port, 'cam')}"
                camera.send(b"".join(frame(packet(number)) for number in (1, 2)))
                camera.send(b"".join(frame(packet(number), 2) for number in (1, 4)))
                due = {0: (0, 0, 0), 1: (2 * round, 0, 0)}
                if not until(5, lambda: tracks_of(port, "cam") == due and tracks_in_json(port, "cam") == due):
                    yield f"round {round}: {tracks_of(port, 'cam')} and {tracks_in_json(port, 'cam')}, and not {due}"
            until(5, lambda: samples(port)['vasklun_mount_live{mount="cam"}'] == 0)


def refused_packets_are_not_missing(program):
    """A packet that the ring refuses was offered, so that it isn't missing behind the next one; a frame of RTCP is no packet of a track."""
    with pages_of(program, "--packet-bytes", "64") as (server, port), Camera(server) as camera:
        camera.publish([1])
        camera.send(frame(packet(2, 65)))
        camera.publish([3, 4])
        camera.send(frame(packet(9, 28), 1))
        camera.publish([5])
        refused = 'vasklun_mount_packets_total{mount="cam",result="too_long"}'
        published = 'vasklun_mount_packets_total{mount="cam",result="published"}'
        if not until(5, lambda: samples(port).get(published) == 5):
            yield f"{samples(port).get(published)} frames are published"
        if samples(port)[refused] != 1 or tracks_of(port, "cam") != {0: (0, 0, 0)}:
            yield f"{samples(port)[refused]} are refused, and the counts of the tracks are {tracks_of(port, 'cam')}"


def bytes_of(port):
    """How many bytes players were sent, by each metric and figure that has them."""
    values, seen = samples(port), figures(port, "cam")
    return [values.get('vasklun_mount_player_bytes_total{mount="cam"}'), values["vasklun_player_bytes_total"], seen.get("bytes_out")]


def bytes_out_are_counted(program, *options):
    """The bytes that a player was sent are those of the packets that it read, without the four bytes before each frame. They stay when it
    leaves."""
    with pages_of(program, "--http-players", *options) as (server, port), Camera(server) as camera:
        with Player(server) as player:
            for number in range(200):
                camera.publish([number], 12 + number * 7)
            came = [player.next() for _ in range(200)]
            read = sum(len(it.packet) for it in came if isinstance(it, Frame))
            published = sum(12 + number * 7 for number in range(200))
            if read != published:
                yield f"{read} bytes are read, and {published} were published"
            if not until(5, lambda: bytes_of(port) == [read] * 3):
                yield f"{read} bytes are read, and shown {bytes_of(port)}"
            seats = [value for name, value in samples(port).items() if name.startswith('vasklun_seat_bytes_total{mount="cam",')]
            shown = [it["bytes"] for it in json.loads(answer(port, "/status.json")[2])["players"]]
            if seats != [read] or shown != [read]:
                yield f"{read} bytes are read, and shown of the player {seats} and {shown}"
        if not until(5, lambda: samples(port)['vasklun_mount_players{mount="cam"}'] == 0):
            yield "a player that closed has its seat"
        if bytes_of(port) != [read] * 3:
            yield f"after it has left {bytes_of(port)}, and not {read}"


def last_packet_of(port, mount="cam"):
    return samples(port).get(f'{LAST}{{mount="{mount}"}}', 0)


def last_packets_are_timed(program):
    """The time of the last packet, RTP or RTCP, or of the first RECORD before the first one, is shown, while the mount goes on and after
    its end. It is that of the mount, and not of another one."""
    with pages_of(program) as (server, port), Camera(server, "other"):
        with Camera(server) as camera:
            begun = time.time()
            for what, step in (
                ("RECORD", lambda: None),
                ("a packet", lambda: camera.publish([1])),
                ("PAUSE and RECORD", lambda: pause_and_record(camera)),
                ("RTCP", lambda: camera.send(frame(packet(0, 28), 1))),
            ):
                came = last_packet_of(port) if what == "PAUSE and RECORD" else time.time()
                step()
                if not until(5, lambda: abs(last_packet_of(port) - came) < NEAR):
                    yield f"{what} came at {came}, and shown {last_packet_of(port)}"
                time.sleep(2 * NEAR)
                shown = [last_packet_of(port) for _ in range(20) if time.sleep(0.02) is None]
                if abs(shown[0] - came) > NEAR or max(shown) - min(shown) > STEADY:
                    yield f"{what} came at {came}, and later is shown {shown}"
        if not until(5, lambda: samples(port)['vasklun_mount_live{mount="cam"}'] == 0):
            yield "a mount that has ended is live"
        time.sleep(NEAR)
        if abs(last_packet_of(port) - shown[-1]) > STEADY:
            yield f"before the end {shown[-1]} was shown, and after it {last_packet_of(port)}"
        if abs(last_packet_of(port, "other") - begun) > NEAR:
            yield f"the other mount began at {begun}, and shown {last_packet_of(port, 'other')}"


PARTS = [(part, ()) for part in (missing_packets_are_counted, refused_packets_are_not_missing, tracks_are_counted_apart, last_packets_are_timed)]
PARTS += [(bytes_out_are_counted, options) for options in MODES]
