"""Players and their camera: what comes to whom, on which channel, behind which reply, and who has a seat."""
import concurrent.futures
import contextlib
import itertools
import threading
import time

from peers import MODES, OPTIONS, Camera, Frame, Peer, Player, Reply, frame, packet, serving, wanted

# So many bytes, and packets, are more than a system's buffers mostly hold; so many are published before they are read.
SIZE, PUBLISHED, BATCH = 6_000, 2_000, 20

# Many players come, one before each third batch, and from the eleventh on the first of those that are there leaves.
BATCHES, COMING, AT_A_TIME = 100, 30, 10

# So many packets a player reads of a stream that runs: all of thirty, six of them at a time, take some 2,000.
STAY, SIDE_BY_SIDE = 400, 6

# How often a stalled player asks to pause and to play again, and how often a player joins.
PAUSES, JOINS = 500, 60

# How many seconds a PAUSE may take, in one of several tries, since a machine that does other work may be late.
PROMPT = 0.1

# How replies begin.
GRANTED, NO_SEAT = b"RTSP/1.0 200 OK\r\n", b"RTSP/1.0 453 "

# The orders in which three players leave.
ORDERS = (0, 1, 2), (2, 1, 0), (1, 2, 0), (2, 0, 1)

# Of the requests of two peers: what the owner announces, and what players are told of it.
OWNER, PLAYER = 0, 1
ANNOUNCED = "v=0\r\nm=video 0 RTP/AVP 96\r\na=control:trackID=1\r\nm=audio 0 RTP/AVP 0\r\n"
DESCRIBED = "v=0\r\na=control:*\r\nm=video 0 RTP/AVP 96\r\na=control:trackID=0\r\nm=audio 0 RTP/AVP 0\r\na=control:trackID=1\r\n"

# Rows: who asks, what (in braces whose session it is in), and the status and the body that it is answered with.
DESCRIBE = PLAYER, "DESCRIBE rtsp://h/cam RTSP/1.0\r\nCSeq: 1\r\n\r\n", 200, DESCRIBED

# The owner's first track was announced as `trackID=1`. It isn't announced by another.
OWNER_AND_CONTROL_NAMES = (
    (OWNER, "ANNOUNCE rtsp://h/cam RTSP/1.0\r\nCSeq: 1\r\nContent-Length: 69\r\n\r\n" + ANNOUNCED, 200, ""),
    DESCRIBE,
    (PLAYER, "ANNOUNCE rtsp://h/cam RTSP/1.0\r\nCSeq: 1\r\nContent-Length: 26\r\n\r\nv=0\nm=audio 0 RTP/AVP 0  \n", 403, ""),
    DESCRIBE,
    (PLAYER, "SETUP rtsp://h/cam RTSP/1.0\r\nCSeq: 2\r\nTransport: RTP/AVP/TCP\r\n\r\n", 459, ""),
    (OWNER, "SETUP rtsp://h/cam/trackID=1 RTSP/1.0\r\nCSeq: 2\r\nTransport: RTP/AVP/TCP;interleaved=0-1;mode=record\r\n\r\n", 200, ""),
    (OWNER, "RECORD rtsp://h/cam RTSP/1.0\r\nCSeq: 3\r\nSession: {owner}\r\n\r\n", 200, ""),
    (PLAYER, "SETUP rtsp://h/cam/trackID=0 RTSP/1.0\r\nCSeq: 3\r\nTransport: RTP/AVP/TCP;interleaved=8-9\r\n\r\n", 200, ""),
    (PLAYER, "PLAY rtsp://h/cam/trackID=0 RTSP/1.0\r\nCSeq: 4\r\nSession: {player}\r\n\r\n", 200, ""),
)

# What the player asks once the mount has ended.
BEHIND_THE_END = (
    (OWNER, "TEARDOWN rtsp://h/cam RTSP/1.0\r\nCSeq: 4\r\nSession: {owner}\r\n\r\n", 200, ""),
    (PLAYER, "DESCRIBE rtsp://h/cam RTSP/1.0\r\nCSeq: 5\r\n\r\n", 404, ""),
    (PLAYER, "TEARDOWN rtsp://h/cam RTSP/1.0\r\nCSeq: 6\r\nSession: {player}\r\n\r\n", 200, ""),
)


def reply_in(came, begins=GRANTED):
    """That reply, which begins so; anything else is a failure of what is tried, a frame too."""
    if not isinstance(came, Reply) or not came.head.startswith(begins):
        raise AssertionError(f"{begins} is wanted next, and not {str(came)[:200]}")
    return came


def asks(peer, method, begins=GRANTED):
    """Asks for the peer's mount, in its session: what comes next is a reply that begins so."""
    peer.say(method, peer.url)
    return reply_in(peer.next(), begins)


def frame_comes(player, wanted_packet, channel=4):
    """Tells where that packet's frame isn't what comes next."""
    came = player.next()
    if came != Frame(channel, wanted_packet):
        yield f"{wanted_packet} is wanted on {channel}, and not {str(came)[:200]}"


def ends(server):
    """Tells where the server doesn't end by itself, now that all of its connections have ended."""
    if not server.has_ended():
        yield f"all connections have ended, and its status is {server.process.returncode}"


def a_frame_comes_out_where_it_was_set_up(program, *options):
    """A frame comes out on its player's channel, and a later player is told the number behind it, not of one that was refused."""
    with serving(program, "--accept", "3", "--seats", "2", *options) as server:
        with Camera(server) as camera, Player(server, plays=False) as player:
            asks(player, "PLAY")
            camera.publish([7])
            yield from frame_comes(player, packet(7))
            # It is refused for its length: no player is told of its number.
            camera.publish([99], 16_385)
            camera.is_read()
            with Player(server, plays=False) as late:
                info = asks(late, "PLAY").field("RTP-Info")
                if info != f"url={late.url}/trackID=0;seq=8;rtptime=9000":
                    yield f"the late player is told {info}"
        yield from ends(server)


def each_connection_comes_asks_and_hangs_up(program, *options):
    """Two connections, one after the other, are answered, and the server ends with the second one."""
    with serving(program, "--accept", "2", "--seats", "1", *options) as server:
        for _ in range(2):
            with Peer(server) as peer:
                peer.send(OPTIONS)
                reply_in(peer.next())
        yield from ends(server)


def connections_are_served_side_by_side(program, *options):
    """One in the middle of a request, and one of a frame, keep no other waiting, and are answered when they have said the rest."""
    with serving(program, "--accept", "3", "--seats", "1", *options) as server:
        with Peer(server) as asking, Camera(server) as camera:
            held = (asking, OPTIONS), (camera, frame(packet(7)) + OPTIONS)
            for peer, said in held:
                # Nine bytes are some of a request, and of a frame. The answer to the request before them tells that they have come.
                peer.send(OPTIONS + said[:9])
                reply_in(peer.next())
            with Peer(server) as other:
                other.socket.settimeout(10)
                other.send(OPTIONS)
                reply_in(other.next())
            for peer, said in held:
                peer.send(said[9:])
                reply_in(peer.next())
        yield from ends(server)


def two_read_all(camera, players):
    """Players read each batch before the next one is published, and are told the mount's end."""
    for first in range(0, PUBLISHED, BATCH):
        batch = list(range(first, first + BATCH))
        camera.publish(batch, SIZE)
        for player in players:
            if (came := player.numbers(BATCH)) != batch:
                yield f"of {batch} a player reads {came}"
                return
    asks(camera, "TEARDOWN")
    # Players are hung up when they have read what was kept for them.
    if not all(player.is_hung_up() for player in players):
        yield "the mount has ended, and a player is sent more"


def a_player_that_reads_nothing_hurts_no_other(program, *options):
    """Two players read all, while a third one reads nothing, and then what was kept for it, the last packet too."""
    with serving(program, "--accept", "4", "--seats", "3", *options) as server:
        with Camera(server) as camera, Player(server) as first, Player(server) as second, Player(server) as stalled:
            yield from two_read_all(camera, (first, second))
            came = stalled.numbers(PUBLISHED)
            if came[-1:] != [PUBLISHED - 1] or came != sorted(set(came)):
                yield f"the third one reads {len(came)} packets, the last ones {came[-BATCH:]}"
        yield from ends(server)


def a_seat_is_free_again_behind_a_pause(program, *options):
    """The only seat is another player's once its player pauses, who isn't sent what comes then."""
    with serving(program, "--accept", "3", "--seats", "1", *options) as server:
        with Camera(server) as camera, Player(server) as first, Player(server, plays=False) as second:
            asks(second, "PLAY", NO_SEAT)
            asks(first, "PAUSE")
            asks(second, "PLAY")
            camera.publish([7])
            yield from frame_comes(second, packet(7))
            # No frame comes before the reply.
            asks(first, "TEARDOWN")
        yield from ends(server)


def publish_on(camera, over):
    """Publishes, sixteen packets at a time, until it is over."""
    frames = b"".join(frame(packet(number)) for number in range(16))
    while not over.is_set():
        camera.send(frames)


def best_pause(player, times, is_running):
    """Plays and pauses so often, behind a frame in every second turn of a running stream: the reply to each PLAY comes before any
    frame, and no frame behind the reply to a PAUSE. The shortest time that a PAUSE took."""
    best = 60.0
    for turn in range(times):
        asks(player, "PLAY")
        # Else a PAUSE may come so soon that no frame was ever sent.
        if is_running and turn % 2 and not isinstance(came := player.next(), Frame):
            raise AssertionError(f"a frame is wanted, and not {came}")
        begun = time.monotonic()
        player.say("PAUSE", player.url)
        reply_in(player.reply())
        best = min(best, time.monotonic() - begun)
    return best


def a_player_of_a_running_stream_reads_its_reply_first(program, *options):
    """Whoever joins and pauses while packets come reads each reply before any frame, no frame behind a pause, and is answered soon."""
    with serving(program, "--accept", "2", "--seats", "1", *options) as server:
        with Camera(server) as camera, Player(server, plays=False) as player, concurrent.futures.ThreadPoolExecutor(1) as pool:
            over = threading.Event()
            publishing = pool.submit(publish_on, camera, over)
            try:
                best = best_pause(player, JOINS, True)
            finally:
                over.set()
            publishing.result()
            if best >= PROMPT:
                yield f"the best pause took {best:.3f} s"
        yield from ends(server)


def a_pause_of_a_quiet_stream_is_answered_at_once(program, *options):
    """While nothing is published, a PAUSE is answered soon."""
    with serving(program, "--accept", "2", "--seats", "1", *options) as server:
        with Camera(server), Player(server, plays=False) as player:
            best = best_pause(player, 5, False)
            if best >= PROMPT:
                yield f"the best pause took {best:.3f} s"
        yield from ends(server)


def hand_on(camera, player, late, playing):
    """A player pauses. The late one has its seat meanwhile, and what is published goes to it and to those that play yet."""
    asks(player, "PAUSE")
    asks(late, "PLAY")
    camera.publish([7])
    for reading in (late, *playing):
        yield from frame_comes(reading, packet(7))
    asks(late, "PAUSE")


def seats_come_back_in_any_order(program, *options):
    """Three players leave in any order, and each time another one has the seat; then they come again, on just three seats."""
    with serving(program, "--accept", "5", "--seats", "3", *options) as server, contextlib.ExitStack() as peers:
        camera = peers.enter_context(Camera(server))
        players = [peers.enter_context(Player(server)) for _ in range(3)]
        late = peers.enter_context(Player(server, plays=False))
        for order in ORDERS:
            playing = list(players)
            for place in order:
                playing.remove(players[place])
                yield from hand_on(camera, players[place], late, playing)
            for player in players:
                asks(player, "PLAY")
            asks(late, "PLAY", NO_SEAT)
        peers.close()
        yield from ends(server)


def change(guests, came):
    """Where there are enough players, the first one just closes, or tears its session down before, by turns."""
    if len(guests) >= AT_A_TIME:
        first = guests.pop(0)
        if came % 2:
            asks(first, "TEARDOWN")
        first.close()


def players_that_come_and_leave_read_all_meanwhile(program, *options):
    """Each player reads all that is published while it is there, from the first packet behind its PLAY on."""
    with serving(program, "--accept", str(COMING + 1), "--seats", "16", *options) as server, contextlib.ExitStack() as peers:
        camera, guests = peers.enter_context(Camera(server)), []
        for place in range(BATCHES):
            came, is_due = divmod(place, 3)
            if is_due == 0 and came < COMING:
                change(guests, came)
                guests.append(peers.enter_context(Player(server)))
            batch = list(range(place * BATCH, (place + 1) * BATCH))
            camera.publish(batch, SIZE)
            for guest in guests:
                if (numbers := guest.numbers(BATCH)) != batch:
                    yield f"of {batch} one of {came + 1} players reads {numbers}"
                    return
        peers.close()
        yield from ends(server)


def publish_at_a_pace(camera, over):
    """Publishes, sixteen packets at a time and then a moment nothing, until it is over."""
    for first in itertools.count(0, 16):
        camera.publish(range(first, first + 16))
        if over.wait(0.004):
            return


def stay(server, turn):
    """The numbers that a player reads of a stream that runs. Then it tears its session down, or just closes while more comes, by
    turns."""
    with Player(server) as player:
        numbers = player.numbers(STAY)
        if turn % 2:
            wanted(player.ask("TEARDOWN", player.url))
    return numbers


def players_that_come_and_leave_amid_a_stream_miss_nothing(program, *options):
    """Each of thirty players, six at a time, reads all packets from its first to its last, while others come and leave."""
    with serving(program, "--accept", str(COMING + 1), "--keep", "4095", "--seats", "16", *options) as server:
        with Camera(server) as camera, concurrent.futures.ThreadPoolExecutor(SIDE_BY_SIDE) as pool:
            over = threading.Event()
            publishing = threading.Thread(target=publish_at_a_pace, args=(camera, over))
            publishing.start()
            try:
                came = list(pool.map(lambda turn: stay(server, turn), range(COMING)))
            finally:
                over.set()
                publishing.join()
            for turn, numbers in enumerate(came):
                if numbers != [(numbers[0] + place) % 65536 for place in range(STAY)]:
                    yield f"player {turn} reads {numbers}"
        yield from ends(server)


def each_pause_of_a_stalled_player_is_answered(program, *options):
    """A player that reads nothing asks often to pause and to play: another peer is answered meanwhile, and it once it reads."""
    with serving(program, "--accept", "2", "--seats", "1", *options) as server:
        with Camera(server) as camera, Player(server) as stalled:
            for first in range(0, PUBLISHED, BATCH):
                camera.publish(range(first, first + BATCH), SIZE)
            requests = [f"{method} {stalled.url} RTSP/1.0\r\nCSeq: 7\r\nSession: {stalled.session}\r\n\r\n" for method in ("PAUSE", "PLAY")]
            stalled.send("".join(requests * PAUSES).encode())
            camera.is_read()
            for place in range(2 * PAUSES):
                reply = stalled.reply()
                if reply is None or reply.status != 200:
                    yield f"request {place} of the stalled player: {reply}"
                    return
        yield from ends(server)


def each_mount_has_its_own_packets(program, *options):
    """Each player has the packets of its own mount alone, and keeps on having them when the other mount ends."""
    with serving(program, "--accept", "4", "--seats", "1", "--keep-ended", *options) as server, contextlib.ExitStack() as peers:
        cameras = [peers.enter_context(Camera(server, mount)) for mount in ("first", "second")]
        players = [peers.enter_context(Player(server, mount)) for mount in ("first", "second")]
        for number in range(20):
            packets = [packet(number, source=source) for source in (1, 2)]
            for camera, its in zip(cameras, packets):
                camera.send(frame(its))
            for player, its in zip(players, packets):
                yield from frame_comes(player, its)
        asks(cameras[0], "TEARDOWN")
        cameras[1].send(frame(packet(20, source=2)))
        yield from frame_comes(players[1], packet(20, source=2))
        # Nothing of the other mount came to the first one's player: what it reads next is a reply.
        players[0].send(OPTIONS)
        reply_in(players[0].next())
        peers.close()
        yield from ends(server)


def rows_hold(peers, rows):
    """Tells of each row that isn't answered as it says. Peers keep the sessions that they are told."""
    for who, request, status, body in rows:
        peer = peers[who]
        peer.send(request.format(owner=peers[OWNER].session, player=peers[PLAYER].session).encode())
        came = peer.next()
        if not isinstance(came, Reply) or (came.status, came.body) != (status, body.encode()):
            yield f"{request!r}: {came}"
            return
        if session := came.field("Session"):
            peer.session = session.partition(";")[0]


def a_track_has_its_owners_name_and_its_players(program, *options):
    """A track is its owner's `trackID=1` and its players' `trackID=0`, and with `--keep-ended` the mount's end leaves its player's
    connection open."""
    with serving(program, "--accept", "2", "--seats", "1", "--gather", "0", "--keep-ended", *options) as server:
        with Peer(server) as owner, Peer(server) as player:
            yield from rows_hold((owner, player), OWNER_AND_CONTROL_NAMES)
            # The track that its owner set up as 1 is the one that its player set up as 0.
            owner.send(frame(packet(7)))
            yield from frame_comes(player, packet(7), 8)
            yield from rows_hold((owner, player), BEHIND_THE_END)
        yield from ends(server)


# Those that no player's frames bear on.
ONCE = each_connection_comes_asks_and_hangs_up, connections_are_served_side_by_side

IN_BOTH_MODES = (
    a_frame_comes_out_where_it_was_set_up,
    a_player_that_reads_nothing_hurts_no_other,
    a_seat_is_free_again_behind_a_pause,
    a_player_of_a_running_stream_reads_its_reply_first,
    a_pause_of_a_quiet_stream_is_answered_at_once,
    seats_come_back_in_any_order,
    players_that_come_and_leave_read_all_meanwhile,
    players_that_come_and_leave_amid_a_stream_miss_nothing,
    each_pause_of_a_stalled_player_is_answered,
    each_mount_has_its_own_packets,
    a_track_has_its_owners_name_and_its_players,
)

LONG = []

PARTS = [(part, ()) for part in ONCE] + [(part, options) for part in IN_BOTH_MODES for options in MODES]

ALONE = []
