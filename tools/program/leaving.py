"""How peers leave, and what is free after them."""
import contextlib
import resource
import time

from peers import MODES, NO_ACKNOWLEDGEMENT, OPTIONS, SDP, Camera, Frame, Peer, Player, ends_told, frame, leave_out, packet, serving, until
from peers import wanted

# What is told, behind which the peer is hung up.
BAD = b"RTSP/1.0 400 Bad Request\r\n\r\n"
LONG_LINE = b"RTSP/1.0 413 Request Entity Too Large\r\n\r\n"
FULL = b"RTSP/1.0 503 Service Unavailable\r\n\r\n"

# How many connections may be open, and how many requests come in one write.
PLACES, FLOOD = 1024, 1000

# What players say that are heard and ask for nothing.
RTCP = frame(bytes(8), 5)

# Within how many seconds a seat is free that is left; and after how many seconds a player is disconnected whose system takes no byte:
# not before the first since packets began to come, and not after the second since it takes none.
SOON, SOONEST, LATEST = 10, 19, 24


def ends(server, seconds=30):
    """Tells if the server doesn't end by itself."""
    if not server.has_ended(seconds):
        yield "the server doesn't end"


def is_closed(peer):
    """Whether the end comes next, and no reset."""
    try:
        return peer.bytes(1) == b""
    except OSError:
        return False


def leaves(peer):
    """Says nothing more. Tells if it isn't closed then."""
    peer.fall_silent()
    if not is_closed(peer):
        yield f"{peer.name()} isn't closed"


def has_frame(player):
    """Tells if it isn't packet 7 that comes next."""
    if (came := player.next()) != Frame(4, packet(7)):
        yield f"a player has {came}, and not packet 7"


def plays_soon(player):
    """Asks to play while no seat is free, and plays soon."""
    replies = []
    until(SOON, lambda: replies.append(player.play()) or replies[-1] is None or replies[-1].status != 453)
    wanted(replies[-1])


def mount_ends_where_its_publisher_closes(program, *options):
    """Where a camera just closes its player sees the end, nobody finds the mount, and its name is free."""
    with serving(program, "--accept", "3", "--seats", "1", *options) as server:
        with Camera(server) as camera, Player(server) as player, Peer(server) as other:
            camera.publish([7])
            yield from has_frame(player)
            wanted(other.ask("OPTIONS", "*"))
            camera.close()
            if not is_closed(player):
                yield "the player doesn't see the end"
            wanted(other.ask("DESCRIBE", camera.url), 404)
            wanted(other.ask("ANNOUNCE", camera.url, body=SDP))
        yield from ends(server)


def seat_is_free_where_its_player_closes(program, *options):
    """The second player has the only seat once the first one has just closed, and then what is published."""
    with serving(program, "--accept", "3", "--seats", "1", *options) as server:
        with Camera(server) as camera, Player(server) as first, Player(server, plays=False) as second:
            wanted(second.play(), 453)
            first.close()
            plays_soon(second)
            camera.publish([7])
            yield from has_frame(second)
        yield from ends(server)


def silent_player_is_hung_up_behind_the_end(program, *options):
    """A player that neither speaks nor closes is hung up ten seconds after its mount's end, so that the server ends."""
    with serving(program, "--accept", "2", "--seats", "1", *options) as server:
        with Camera(server) as camera, Player(server) as silent:
            camera.publish([7])
            begun = time.monotonic()
            wanted(camera.ask("TEARDOWN", camera.url))
            camera.close()
            yield from ends(server)
            if (took := time.monotonic() - begun) < 10:
                yield f"it is hung up after {took:.2f} seconds"
            yield from has_frame(silent)
            if not is_closed(silent):
                yield "something comes behind its packet"


def player_that_closes_behind_the_end(program, *options):
    """A player that sees its mount's end and closes isn't waited for: the server ends before ten seconds have passed."""
    with serving(program, "--accept", "2", "--seats", "1", "--keep-ended", "--hang-up-ended", *options) as server:
        with Camera(server) as camera, Player(server) as player:
            wanted(camera.ask("TEARDOWN", camera.url))
            if not is_closed(player):
                yield "the player doesn't see the end"
        yield from ends(server, 8)


def player_may_stay_behind_the_end(program, *options):
    """With `--keep-ended` a player stays when its mount has ended, and can end its session, once."""
    with serving(program, "--accept", "2", "--seats", "1", "--hang-up-ended", "--keep-ended", *options) as server:
        with Camera(server) as camera, Player(server) as player:
            camera.publish([7])
            camera.close()
            yield from has_frame(player)
            asked = f"DESCRIBE {camera.url} RTSP/1.0\r\nCSeq: 2\r\n\r\n".encode()
            until(SOON, lambda: player.send(asked) or player.reply().status == 404)
            player.send(asked)
            wanted(player.reply(), 404)
            wanted(player.ask("TEARDOWN", player.url))
            wanted(player.ask("TEARDOWN", player.url), 454)
        yield from ends(server)


def waiting(server, player):
    """How many bytes wait in the sockets between them."""
    ports = {f"{server.port:04X}", f"{player.socket.getsockname()[1]:04X}"}
    with open("/proc/net/tcp", encoding="ascii") as table:
        rows = [line.split()[1:5] for line in table]
    queues = [queue for local, remote, _, queue in rows if {local[9:], remote[9:]} == ports]
    return sum(int(count, 16) for queue in queues for count in queue.split(":"))


def settled(server, player):
    """How many these are when they stay so many for a while: the server has written what the sockets take."""
    held = []
    until(SOON, lambda: held.append(waiting(server, player)) or held[-4:] == held[-1:] * 4)
    return held[-1]


def stall(server, camera, player):
    """Publishes 2,000 packets of 6,000 bytes, and more where the sockets take all, in batches that are less than the ring keeps."""
    for end in range(400, 8001, 400):
        camera.publish(range(end - 400, end), 6000)
        camera.is_read()
        # What comes from a player lets the system widen the server's buffer: so that its last words make no room any more.
        player.send(RTCP)
        held = settled(server, player)
        if end >= 2000 and 0 < held < end * 6004:
            return
    raise AssertionError(f"the player isn't stalled: the sockets hold {held} bytes")


def goes_in_time(server, player, begun, stalled, speaks=True):
    """Yields what is wrong if a player isn't disconnected in time, with its line: packets have come to it since one moment, and its system
    takes none since another. Meanwhile it may speak."""
    name, end = player.name(), [f"player of cam: {NO_ACKNOWLEDGEMENT}"]
    while not ends_told(server, name) and time.monotonic() < stalled + LATEST:
        with contextlib.suppress(OSError):
            player.send(RTCP if speaks else b"")
        until(1, lambda: ends_told(server, name))
    now = time.monotonic()
    if ends_told(server, name) != end or now < begun + SOONEST or now > stalled + LATEST:
        yield f"after {now - begun:.1f} s, of which its system takes no byte for {now - stalled:.1f}, is logged {ends_told(server, name)}"


# In the session of the player by which it is formatted.
TEARDOWN = "TEARDOWN {0.url} RTSP/1.0\r\nCSeq: 7\r\nSession: {0.session}\r\n\r\n"
PAUSE = TEARDOWN.replace("TEARDOWN", "PAUSE")
FAULT, ASKS = "HELLO\r\n", OPTIONS.decode()


def frees_its_seat(program, options, said="", is_silent=False, stays=False, fails=False):
    """A player that reads nothing has the only seat. It says this, and another one plays soon, or after the first one is disconnected.
    The server ends after those that close, also if the first one stays."""
    with serving(program, "--accept", "3", "--seats", "1", *options) as server:
        with Camera(server) as camera, Player(server) as first, Player(server, plays=False) as second:
            begun = time.monotonic()
            stall(server, camera, first)
            stalled = time.monotonic()
            wanted(second.play(), 453)
            before = server.descriptors()
            first.send(said.format(first).encode())
            if is_silent:
                first.fall_silent()
            # Well before the server's system disconnects a peer that acknowledges nothing, after 20 seconds.
            if stays and not until(5, lambda: server.descriptors() < before):
                yield "its connection isn't closed, though it has sent a fault"
            if fails:
                yield from goes_in_time(server, first, begun, stalled, not said)
            plays_soon(second)
            for peer in (camera, second) if stays else (camera, second, first):
                peer.close()
            yield from ends(server)


def stalled_player_that_sends_a_fault(program, *options):
    """A player that reads nothing and sends a fault is closed and has left its seat soon, and holds up no server that ends."""
    yield from frees_its_seat(program, options, FAULT, stays=True)


def stalled_player_that_falls_silent(program, *options):
    """A player that reads nothing and says nothing more has left its seat soon."""
    yield from frees_its_seat(program, options, is_silent=True)


def stalled_player_that_tears_down(program, *options):
    """A player that reads nothing and tears down has left its seat soon."""
    yield from frees_its_seat(program, options, TEARDOWN)


def stalled_player_that_asked_and_sends_a_fault(program, *options):
    """It is disconnected in time if a fault comes after a request whose reply it doesn't read."""
    yield from frees_its_seat(program, options, ASKS + FAULT, fails=True)


def stalled_player_that_asked_and_falls_silent(program, *options):
    """So it is if it says nothing more after that request."""
    yield from frees_its_seat(program, options, ASKS, is_silent=True, fails=True)


def stalled_player_that_asked_and_tears_down(program, *options):
    """So it is if it tears down after that request."""
    yield from frees_its_seat(program, options, ASKS + TEARDOWN, fails=True)


def stalled_player_that_asks_for_nothing(program, *options):
    """So it is if it asks for nothing and doesn't close."""
    yield from frees_its_seat(program, options, fails=True)


# What players that read nothing say, and how their connections end with writers, and with a thread each. That thread is waited for two
# seconds after a PAUSE or TEARDOWN, and its connection is closed then; after a TEARDOWN that is no failure, and has no line.
SAYS = (
    ("", NO_ACKNOWLEDGEMENT, NO_ACKNOWLEDGEMENT),
    (PAUSE, NO_ACKNOWLEDGEMENT, "write failed"),
    (TEARDOWN, NO_ACKNOWLEDGEMENT, None),
    (ASKS + PAUSE, NO_ACKNOWLEDGEMENT, NO_ACKNOWLEDGEMENT),
)


def stalled_players_are_disconnected(program, *options):
    """Players that read nothing and play, pause or tear down are disconnected in time."""
    with serving(program, "--seats", str(len(SAYS)), *options) as server, contextlib.ExitStack() as peers:
        camera, begun = peers.enter_context(Camera(server)), time.monotonic()
        players = [peers.enter_context(Player(server)) for _ in SAYS]
        for player in players:
            stall(server, camera, player)
        stalled, gone = time.monotonic(), {}
        for player, (said, *_) in zip(players, SAYS):
            player.send(said.format(player).encode())
        while len(gone) < len(SAYS) and time.monotonic() < stalled + LATEST:
            until(0.5, lambda: False)
            camera.is_read()
            # Each has lost packets: so its account is logged.
            gone |= {it: time.monotonic() for it in players if it not in gone and has_account(server, it)}
        for player, (said, *ends) in zip(players, SAYS):
            end, came = ends[options == BY_THREADS], ends_told(server, player.name())
            first, last = (begun + SOONEST, stalled + LATEST) if end == NO_ACKNOWLEDGEMENT else (stalled + 1, stalled + SOON)
            when = gone.get(player, float("inf"))
            if came != [f"player of cam: {end}"] * bool(end) or not first <= when <= last:
                yield f"of one that says {said[:16]!r} is logged {came}, after {when - stalled:.1f} s in which its system takes no byte"


def has_account(server, player):
    """Whether the account of a player's session is logged."""
    head = f"[INFO  relay_server::events] {player.name()}: player of cam: "
    return any(line.startswith(head) for line in list(server.lines))


BY_THREADS = "--writers", "0"


def flood_is_answered(program, *options):
    """Each of 1,000 requests in one write is answered, once and in order."""
    with serving(program, "--accept", "1", *options) as server, Peer(server) as peer:
        asked = [str(number) for number in range(1, FLOOD + 1)]
        peer.send("".join(f"OPTIONS * RTSP/1.0\r\nCSeq: {number}\r\n\r\n" for number in asked).encode())
        answered = [wanted(peer.reply()).field("CSeq") for _ in asked]
        if answered != asked:
            yield f"the replies are those to {answered}"
        yield from leaves(peer)
        yield from ends(server)


def silent_peer_is_closed(program, *options):
    """A peer that says nothing more is answered and closed, also where it hasn't said all of a frame."""
    with serving(program, "--accept", "2", *options) as server:
        for said, status in ((OPTIONS, 200), (b"$\x00\x00\x0c\x80\x60", None)):
            with Peer(server) as peer:
                wanted(peer.ask("OPTIONS", "*"))
                peer.send(said)
                peer.fall_silent()
                came = peer.reply()
                if (came and came.status) != status or not is_closed(peer):
                    yield f"behind {said!r}: {came}, and not {status} and the end"
        yield from ends(server)


def close_amid_replies(server):
    """A peer that asks 1,000 times, and closes with replies unread: that resets its connection. The address by which lines name it."""
    with Peer(server) as peer:
        peer.send(OPTIONS * FLOOD)
        if (came := peer.socket.recv(12)) != b"RTSP/1.0 200":
            raise AssertionError(f"{came!r} is answered")
        return peer.name()


def reset_ends_one_connection(program, *options):
    """A peer that closes while replies come to it hurts no other, and the server ends behind both."""
    with serving(program, "--accept", "2", *options) as server:
        with Peer(server) as other:
            wanted(other.ask("OPTIONS", "*"))
            close_amid_replies(server)
            wanted(other.ask("OPTIONS", "*"))
        yield from ends(server)


def server_ends_with_its_last_connection(program, *options):
    """Of two peers the second is served when the first has left, and the server ends when it has left too."""
    with serving(program, "--accept", "2", *options) as server, Peer(server) as first, Peer(server) as last:
        wanted(first.ask("OPTIONS", "*"))
        yield from leaves(first)
        for _ in range(2):
            wanted(last.ask("OPTIONS", "*"))
        yield from leaves(last)
        yield from ends(server)


def server_ends_while_packets_gather(program, *options):
    """It ends with its last connection, a camera whose packet still gathers."""
    with serving(program, "--accept", "1", "--gather", "100", *options) as server:
        with Camera(server) as camera:
            camera.publish([7])
            camera.is_read()
        yield from ends(server)


def has_descriptors(part):
    """Whether all places may be taken. If not, what of a part needs that is left out, which is printed."""
    if resource.getrlimit(resource.RLIMIT_NOFILE)[0] >= 1300:
        return True
    leave_out(part, "less than 1,300 descriptors")
    return False


@contextlib.contextmanager
def filled(server, count=PLACES):
    """So many connections are open, each of which was answered."""
    with contextlib.ExitStack() as stack:
        for _ in range(count):
            wanted(stack.enter_context(Peer(server)).ask("OPTIONS", "*"))
        yield


def told(peer, text, said=b""):
    """Tells if a peer that says this isn't told just this text, and closed."""
    peer.send(said)
    if (came := peer.bytes(len(text))) != text or not is_closed(peer):
        yield f"{said[:20]!r} is answered {came!r}, and not {text!r} and the end"


def cannot_be_served(program, *options):
    """Who says no request, a line without an end, or comes when all places are taken, is told so; the first two have left theirs."""
    if not has_descriptors(cannot_be_served):
        return
    with serving(program, "--accept", str(PLACES + 3), *options) as server, contextlib.ExitStack() as kept:
        yield from told(kept.enter_context(Peer(server)), BAD, b"HELLO\r\n")
        with Peer(server) as long:
            yield from told(long, LONG_LINE, b"A" * 8192)
        with filled(server):
            yield from told(kept.enter_context(Peer(server)), FULL)
        yield from ends(server)


def places_are_free_again(program, *options):
    """Once a camera has closed, and a connection was reset, their places are free: with two that stay 1,022 are served, and no more."""
    if not has_descriptors(places_are_free_again):
        return
    with serving(program, "--accept", str(PLACES + 3), *options) as server:
        with Camera(server) as camera, Player(server), Peer(server) as other:
            camera.close()
            if not until(SOON, lambda: other.ask("DESCRIBE", camera.url).status == 404):
                yield "the mount stays"
            name = close_amid_replies(server)
            if not until(SOON, lambda: any(f" {name}: " in line for line in server.lines)):
                yield "no line tells of the reset"
            with filled(server, PLACES - 2), Peer(server) as late:
                yield from told(late, FULL)
        yield from ends(server)


def refused_peers_read_why(program, *options):
    """Each of twenty peers for which there is no place reads why and then the end, though it has asked."""
    if not has_descriptors(refused_peers_read_why):
        return
    with serving(program, "--accept", str(PLACES + 20), *options) as server:
        with filled(server):
            for _ in range(20):
                with Peer(server) as late:
                    late.send(OPTIONS)
                    if (came := late.bytes(len(FULL))) != FULL:
                        yield f"it reads {came!r}"
                    yield from leaves(late)
        yield from ends(server)


def crowd_of_refused_peers(program, *options):
    """A hundred peers for which there is no place read why within two seconds: none is waited for."""
    if not has_descriptors(crowd_of_refused_peers):
        return
    with serving(program, "--accept", str(PLACES + 100), *options) as server:
        with filled(server), contextlib.ExitStack() as stack:
            begun = time.monotonic()
            for late in [stack.enter_context(Peer(server)) for _ in range(100)]:
                yield from told(late, FULL)
            if (took := time.monotonic() - begun) >= 2:
                yield f"it takes {took:.2f} seconds"
        yield from ends(server)


def in_modes(*parts):
    return [(part, options) for part in parts for options in MODES]


LONG = in_modes(silent_player_is_hung_up_behind_the_end, stalled_player_that_asks_for_nothing)
LONG += in_modes(stalled_player_that_asked_and_sends_a_fault, stalled_player_that_asked_and_falls_silent)
LONG += in_modes(stalled_player_that_asked_and_tears_down, stalled_players_are_disconnected)

PARTS = in_modes(mount_ends_where_its_publisher_closes, seat_is_free_where_its_player_closes, server_ends_while_packets_gather)
PARTS += in_modes(player_that_closes_behind_the_end, player_may_stay_behind_the_end)
PARTS += in_modes(stalled_player_that_sends_a_fault, stalled_player_that_falls_silent, stalled_player_that_tears_down)
PARTS += [(part, ()) for part in (flood_is_answered, silent_peer_is_closed, reset_ends_one_connection)]
PARTS += [(server_ends_with_its_last_connection, ())]

# For their descriptors, and one for its time.
ALONE = in_modes(places_are_free_again) + [(part, ()) for part in (cannot_be_served, refused_peers_read_why, crowd_of_refused_peers)]
