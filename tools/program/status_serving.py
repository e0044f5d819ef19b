"""What a server with `--http` shows of its connections, of its sessions and of what it refuses."""
import contextlib
import json
import re
import resource
import socket
import time

from peers import Camera, Peer, Player, until, wanted
from status_pages import answer, pages_of, samples

# The roles and states of sessions.
SESSIONS = ("publisher", "ready"), ("publisher", "recording"), ("player", "ready"), ("player", "playing")

REASONS = "full", "address_full", "out_of_memory", "no_thread", "not_accepted"

# The metrics of what is refused, with the values of their labels.
REFUSED = re.compile(r'vasklun_(?:connections|requests)_refused_total\{(?:reason|status)="(\w+)"\}')

UDP = "Transport: RTP/AVP;unicast;client_port=5000-5001"


def served(port):
    """The connections and the sessions of each role and state, as `/metrics` has them."""
    values = samples(port)
    shown = [values[f'vasklun_sessions{{role="{role}",state="{state}"}}'] for role, state in SESSIONS]
    return [values["vasklun_connections"], *shown]


def served_in_json(port):
    """The same, as `/status.json` has them."""
    server = json.loads(answer(port, "/status.json")[2])["server"]
    return [server["connections"], *(server["sessions"][f"{role}_{state}"] for role, state in SESSIONS)]


def refused(port):
    """What was refused, by its reason or status, as `/metrics` has it; what is 0 is left out."""
    return {found[1]: value for key, value in samples(port).items() if (found := REFUSED.fullmatch(key)) and value}


def refused_in_json(port):
    """The same, as `/status.json` has it."""
    server = json.loads(answer(port, "/status.json")[2])["server"]
    counts = {**server["refused_connections"], **server["refused_requests"]}
    return {name: value for name, value in counts.items() if value}


def pause(peer):
    wanted(peer.ask("PAUSE", peer.url))


def play(peer):
    wanted(peer.play())


def sessions_are_counted(program):
    """Connections and sessions follow what peers do, and are none after all have hung up."""
    with pages_of(program) as (server, port), contextlib.ExitStack() as held:
        peers = {}

        def begin(name, peer):
            peers[name] = held.enter_context(peer)

        steps = (
            ("nothing", lambda: None, [0, 0, 0, 0, 0]),
            ("a connection", lambda: begin("peer", Peer(server)), [1, 0, 0, 0, 0]),
            ("a SETUP to record", lambda: begin("camera", Camera(server, records=False)), [2, 1, 0, 0, 0]),
            ("RECORD", lambda: peers["camera"].record(), [2, 0, 1, 0, 0]),
            ("a SETUP to play", lambda: begin("player", Player(server, plays=False)), [3, 0, 1, 1, 0]),
            ("PLAY", lambda: play(peers["player"]), [3, 0, 1, 0, 1]),
            ("PAUSE of the player", lambda: pause(peers["player"]), [3, 0, 1, 1, 0]),
            ("another PLAY", lambda: play(peers["player"]), [3, 0, 1, 0, 1]),
            ("PAUSE of the publisher", lambda: pause(peers["camera"]), [3, 1, 0, 0, 1]),
            ("another RECORD", lambda: peers["camera"].record(), [3, 0, 1, 0, 1]),
            ("another player", lambda: begin("other", Player(server)), [4, 0, 1, 0, 2]),
            ("TEARDOWN of a player", lambda: peers["other"].tear_down(), [4, 0, 1, 0, 1]),
            ("the end of that connection", lambda: peers["other"].close(), [3, 0, 1, 0, 1]),
            ("the end of a player", lambda: peers["player"].close(), [2, 0, 1, 0, 0]),
            ("a reset by the publisher", lambda: peers["camera"].reset(), [1, 0, 0, 0, 0]),
            ("the last end", lambda: peers["peer"].close(), [0, 0, 0, 0, 0]),
        )
        for name, step, due in steps:
            step()
            if not until(5, lambda: served(port) == due and served_in_json(port) == due):
                yield f"after {name}: {served(port)} and {served_in_json(port)}, and not {due}"


def refusals_are_counted(program):
    """A connection that is refused is counted under its reason, and a request under the status of its answer."""
    with pages_of(program, "--per-address", "2") as (server, port), Camera(server) as camera, Peer(server) as peer:
        if refused(port) or refused_in_json(port):
            yield f"at the start there is {refused(port)} and {refused_in_json(port)}"
        due = {}
        for method, url, fields, status in (
            ("DESCRIBE", f"{camera.url}-not", (), 404),
            ("SETUP", f"{camera.url}/trackID=0", (UDP,), 461),
            ("SETUP", f"{camera.url}/trackID=0", (UDP,), 461),
            ("PLAY", camera.url, (), 454),
            ("RECORD", camera.url, (), 454),
            ("WATCH", camera.url, (), 501),
        ):
            wanted(peer.ask(method, url, *fields), status)
            due[str(status)] = due.get(str(status), 0) + 1
            if not until(5, lambda: refused(port) == due and refused_in_json(port) == due):
                yield f"after {method} that is answered {status}: {refused(port)} and {refused_in_json(port)}, and not {due}"
        for _ in range(3):
            with Peer(server) as late:
                late.is_hung_up()
        due["address_full"] = 3
        if not until(5, lambda: refused(port) == due and refused_in_json(port) == due):
            yield f"after three connections more than an address may have: {refused(port)} and {refused_in_json(port)}, and not {due}"
        if served(port)[0] != 2:
            yield f"two connections are served, and {served(port)[0]} are shown"


def connections_without_a_descriptor_are_counted(program):
    """A connection that the system doesn't hand over, since no descriptor is left, is counted under its reason."""
    with pages_of(program) as (server, port):
        soft, hard = resource.prlimit(server.pid, resource.RLIMIT_NOFILE)
        # Room for two connections to the pages.
        resource.prlimit(server.pid, resource.RLIMIT_NOFILE, (server.descriptors() + 2, hard))
        with contextlib.ExitStack() as held:
            for _ in range(3):
                held.enter_context(socket.create_connection(("127.0.0.1", server.port), timeout=30))
            time.sleep(0.5)
        resource.prlimit(server.pid, resource.RLIMIT_NOFILE, (soft, hard))
        if not until(5, lambda: list(refused(port)) == ["not_accepted"]):
            yield f"there is {refused(port)}"


def each_refusal_has_a_sample(program):
    """Each reason and each status has a sample from the start on."""
    with pages_of(program) as (_, port):
        found = [it[1] for it in map(REFUSED.fullmatch, samples(port)) if it]
        statuses = [it for it in found if it.isdigit()]
        if [it for it in found if not it.isdigit()] != list(REASONS) or len(statuses) != 17 or statuses != sorted(set(statuses)):
            yield f"there are samples of {found}"


PARTS = [(part, ()) for part in (sessions_are_counted, refusals_are_counted, connections_without_a_descriptor_are_counted, each_refusal_has_a_sample)]
