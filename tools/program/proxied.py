"""Connections from a proxy (`--proxy-from`): the header with which each begins, whose client's address counts in place of its own."""
import concurrent.futures
import contextlib
import ipaddress
import random
import time

from limits import has_ipv6, reads_full
from peers import OPTIONS, SDP, Camera, Frame, Peer, Player, ending, ends_told, leave_out, packet, serving, until, wanted
from proxy_headers import CLIENT, GOOD, MOST_LINE, PORT, SIGNATURE, block, line, of_client, read

# The address of the proxy, and one that is none.
PROXY, OTHER = "127.0.4.1", "127.0.4.2"

FROM_PROXY = "--proxy-from", f"10.0.0.0/8,{PROXY}"

# For how many seconds a header may be under way.
HEADER_WAIT = 2

HINT = "--proxy-from has this address: use the proxy or another address"
NO_HEADER, LATE, CUT = f"no PROXY header, but {HINT}", f"no PROXY header for 2 s, but {HINT}", "left within its PROXY header"

# From these networks mounts may be described: 404 of a mount that isn't there, else 403. The proxy's own address is in none.
MAY_PLAY = "--play-from", "192.0.2.7,2001:db8::7"

DESCRIBE = b"DESCRIBE rtsp://h/nothing RTSP/1.0\r\nCSeq: 9\r\n\r\n"

# Bytes that begin no header, and why. Each is refused at its last byte.
BAD = (
    (b"O", NO_HEADER),
    (b"PL", NO_HEADER),
    (b"PROXY TCP5", NO_HEADER),
    (b"PROXY t", NO_HEADER),
    (b"\r\n\r\n\0\r\nQUIT\r", NO_HEADER),
    (b"PROXY TCP4 192.0.2.7 127.0.0.9 1\r\n", "bad PROXY line"),
    (b"PROXY TCP4 192.0.2.7  127.0.0.9 1 2\r\n", "bad PROXY line"),
    (b"PROXY TCP4 192.0.2.7 127.0.0.9 1 2 \r\n", "bad PROXY line"),
    (b"PROXY TCP4 192.0.2.7 127.0.0.9 01 2\r\n", "bad PROXY line"),
    (b"PROXY TCP4 192.0.2.7 127.0.0.9 1 65536\r\n", "bad PROXY line"),
    (b"PROXY TCP4 192.0.2.7 127.0.0.9 1 -2\r\n", "bad PROXY line"),
    (b"PROXY TCP4 192.0.2.07 127.0.0.9 1 2\r\n", "bad PROXY line"),
    (b"PROXY TCP4 192.0.2 127.0.0.9 1 2\r\n", "bad PROXY line"),
    (b"PROXY TCP4 ::1 127.0.0.9 1 2\r\n", "bad PROXY line"),
    (b"PROXY TCP6 192.0.2.7 ::9 1 2\r\n", "bad PROXY line"),
    (b"PROXY TCP6 1:2:3 ::9 1 2\r\n", "bad PROXY line"),
    (b"PROXY TCP4 ".ljust(MOST_LINE, b"1"), "PROXY line too long"),
    (b"PROXY UNKNOWN".ljust(MOST_LINE - 1) + b"\r", "PROXY line too long"),
    (SIGNATURE + b"\x11", "unknown PROXY version or command"),
    (SIGNATURE + b"\x22", "unknown PROXY version or command"),
    (SIGNATURE + b"\x21\x13", "unknown PROXY family"),
    (SIGNATURE + b"\x21\x10", "unknown PROXY family"),
    (SIGNATURE + b"\x21\x11\0\x0b", "PROXY header too short"),
    (SIGNATURE + b"\x21\x21\0\x23", "PROXY header too short"),
    (SIGNATURE + b"\x21\x31\0\xd7", "PROXY header too short"),
    (SIGNATURE + b"\x20\0\x07\xf1", "PROXY header too long"),
    (SIGNATURE + b"\x21\x11\x08", "PROXY header too long"),
)


def proxied(server, header=b""):
    """A connection of the proxy that begins with these bytes."""
    peer = Peer(server, PROXY)
    peer.send(header)
    return peer


def in_pieces(peer, data, place):
    """Sends bytes in two pieces that the server reads apart."""
    peer.send(data[:place])
    if place:
        time.sleep(0.003)
    peer.send(data[place:])


def headers_are_read(program):
    """Each header gives its client, by what the client may do, and by the line of its connection's end. It is cut at every byte, also within
    the request after it, or comes in one piece with that. No byte after it is lost."""
    for header, client in GOOD:
        data, wanted_status = header + DESCRIBE + b"HELLO\r\n", 404 if client else 403
        places = range(len(data)) if len(data) < 300 else [*range(30), *range(30, len(data), 97), *range(len(header) - 2, len(header) + 3)]
        with serving(program, *FROM_PROXY, *MAY_PLAY) as server:
            for place in places:
                with Peer(server, PROXY) as peer:
                    in_pieces(peer, data, place)
                    statuses = [it and it.status for it in (peer.reply(), peer.reply())]
                if statuses != [wanted_status, 400]:
                    yield f"{data[:120]!r} cut at {place} is answered {statuses}, and not {wanted_status} and 400"
        with ending(program, 1, *FROM_PROXY, *MAY_PLAY) as server, Peer(server, PROXY) as peer:
            name = client or peer.name()
            peer.send(data)
            peer.reply(), peer.reply()
        if ends_told(server, name) != ["stream fault 1: bad request line"]:
            yield f"{data[:120]!r}: no line names {name}: {server.lines}"


def bad_headers_end_connections(program):
    """A connection that begins with no header is closed at its first byte that begins none, without a byte, and a line says why."""
    for data, why in BAD:
        with ending(program, 1, *FROM_PROXY) as server, proxied(server, data[:-1]) as peer:
            time.sleep(0.02)
            begun = time.monotonic()
            peer.send(data[-1:])
            if not peer.is_hung_up() or time.monotonic() - begun > 1:
                yield f"after {data!r} the connection isn't closed at once"
            name = peer.name()
        if ends_told(server, name) != [why]:
            yield f"{data!r}: {server.lines}, and not {why}"


def headers_may_take_two_seconds(program):
    """A header that isn't whole two seconds after the connection came ends it, however its bytes come, and not before; other connections
    don't wait for it. One that is whole before is read, in whatever pieces."""
    with ending(program, 5, *FROM_PROXY) as server, concurrent.futures.ThreadPoolExecutor(4) as pool:
        begun = time.monotonic()
        header = of_client(CLIENT, PORT, bytes(400))
        with proxied(server) as silent, proxied(server) as slow, proxied(server, line(CLIENT, PORT)[:-1]) as late, proxied(server) as good:
            trickles = pool.submit(trickle, slow, header, 0.01)
            closed = [pool.submit(closes_after, peer, begun) for peer in (silent, late)]
            with Peer(server, OTHER) as other:
                wanted(other.ask("OPTIONS", "*"))
            if time.monotonic() - begun > 1:
                yield "another connection waits for headers"
            trickle(good, of_client(CLIENT, PORT), HEADER_WAIT * 0.7 / 28)
            wanted(good.ask("OPTIONS", "*"))
            trickles.result()
            passed = [it.result() for it in closed] + [closes_after(slow, begun)]
            names = [peer.name() for peer in (silent, late, slow)]
    if not all(it and HEADER_WAIT - 0.1 <= it < HEADER_WAIT + 1 for it in passed[:2]) or not passed[2] or passed[2] > 5:
        yield f"connections without a header are closed after {passed} s"
    if (told := [ends_told(server, name) for name in names]) != [[LATE]] * 3:
        yield f"their ends are {told}"


def trickle(peer, data, pause):
    """Sends a byte, and another one after each pause, until it can't."""
    with contextlib.suppress(OSError):
        for byte in data:
            peer.send(bytes([byte]))
            time.sleep(pause)


def closes_after(peer, begun):
    """How many seconds after that moment the connection is closed, without a byte, or None if a byte comes."""
    return time.monotonic() - begun if peer.is_hung_up() else None


def looks_are_no_faults(program):
    """A connection of the proxy that is closed or reset before its first byte has no line; one that is closed within its header has one."""
    with ending(program, 3, *FROM_PROXY) as server:
        with proxied(server) as closed:
            name = closed.name()
        proxied(server).reset()
        with proxied(server, line(CLIENT, PORT)[:9]) as cut:
            cut.fall_silent()
            if not cut.is_hung_up():
                yield "a connection that is closed within its header stays"
            within = cut.name()
    if [line for line in server.lines if "PROXY" not in line] or ends_told(server, name) or ends_told(server, within) != [CUT]:
        yield f"lines of looks are {server.lines}"


def bad_headers_leave_no_place(program):
    """More connections than a server has places for have no header, one after another; the next one is served."""
    with serving(program, *FROM_PROXY, "--per-address", "1") as server:
        for count in range(1_100):
            data = (b"O", line(CLIENT, PORT)[:5], b"")[count % 3]
            with proxied(server, data) as peer, contextlib.suppress(OSError):
                peer.fall_silent()
                peer.bytes(1)
        if not until(3, lambda: takes(server, of_client(CLIENT, PORT))):
            yield "no connection is served after 1,100 without a header"
        if not until(3, lambda: server.threads() < 20):
            yield f"it has {server.threads()} threads after them"


def clients_count_by_their_addresses(program):
    """A client's address decides what it may do and counts for the limits of an address: 503 comes after the header. LOCAL and UNKNOWN count
    under the proxy's own address. Before its header a connection counts for no address."""
    options = *FROM_PROXY, "--per-address", "2", "--mounts-per-address", "1", "--publish-from", "192.0.2.0/28", "--play-from", CLIENT
    with serving(program, *options) as server, contextlib.ExitStack() as peers:
        waiting = [peers.enter_context(proxied(server)) for _ in range(4)]
        first, second = (peers.enter_context(proxied(server, of_client(CLIENT, port))) for port in (1, 2))
        wanted(first.ask("ANNOUNCE", "rtsp://h/cam", body=SDP))
        wanted(second.ask("ANNOUNCE", "rtsp://h/more", body=SDP), 503)
        wanted(second.ask("DESCRIBE", "rtsp://h/cam"))
        with proxied(server, line(CLIENT, 3)) as third:
            yield from reads_full(third)
        with proxied(server, line("192.0.2.8", 3)) as other, proxied(server, of_client("198.51.100.1", 4)) as stranger:
            wanted(other.ask("DESCRIBE", "rtsp://h/cam"), 403)
            wanted(other.ask("ANNOUNCE", "rtsp://h/other", body=SDP))
            wanted(stranger.ask("ANNOUNCE", "rtsp://h/strange", body=SDP), 403)
        own = [peers.enter_context(proxied(server, it)) for it in (block(command=0), b"PROXY UNKNOWN\r\n")]
        for peer in own:
            wanted(peer.ask("OPTIONS", "*"))
        with proxied(server, block(command=0)) as third:
            yield from reads_full(third)
        # The proxy's own address is full, and its clients aren't.
        with proxied(server, of_client("198.51.100.2", 1)) as another:
            wanted(another.ask("OPTIONS", "*"))
        for peer in own:
            wanted(peer.ask("ANNOUNCE", "rtsp://h/own", body=SDP), 403)
            wanted(peer.ask("DESCRIBE", "rtsp://h/cam"), 403)
        for peer in waiting:
            peer.close()
        own[0].close()
        if not until(3, lambda: takes(server, block(command=0))):
            yield "an address has no room after one of its connections has ended"


def ipv6_clients_count_by_64_bits(program):
    """Clients of a subnet count as one, and exempt ones have no limit. The row of the refused has the client's address."""
    with ending(program, 5, *FROM_PROXY, "--per-address", "1", "--limit-exempt", CLIENT) as server, contextlib.ExitStack() as peers:
        wanted(peers.enter_context(proxied(server, line("2001:db8::1", 1))).ask("OPTIONS", "*"))
        with proxied(server, of_client("2001:db8::2", 77)) as second:
            yield from reads_full(second)
        wanted(peers.enter_context(proxied(server, of_client("2001:db8:0:1::2", 2))).ask("OPTIONS", "*"))
        for port in 3, 4:
            wanted(peers.enter_context(proxied(server, of_client(CLIENT, port))).ask("OPTIONS", "*"))
    if "[WARN  relay_server::refusing] 1 refused 503 on no mount, the last [2001:db8::2]:77" not in server.lines:
        yield f"the row of a refused client isn't among {server.lines}"


def lines_have_the_client(program):
    """Lines of `--verbose` have the client's address, and none has the proxy's."""
    with ending(program, 1, *FROM_PROXY, "--verbose", "--report", "1") as server, proxied(server, line(CLIENT, PORT)) as peer:
        wanted(peer.ask("ANNOUNCE", "rtsp://h/cam", body=SDP))
        wanted(peer.ask("DESCRIBE", "rtsp://h/nothing"), 404)
        time.sleep(1.2)
    if not any(f" {CLIENT}:{PORT}: " in text for text in server.lines) or any(PROXY in text for text in server.lines):
        yield f"lines of a proxy's client: {server.lines}"


def takes(server, header):
    """Whether a connection with this header is served."""
    with proxied(server, header + OPTIONS) as peer, contextlib.suppress(OSError):
        return peer.bytes(12) == b"RTSP/1.0 200"
    return False


def others_have_no_headers(program):
    """From an address that is no proxy's, the bytes of a header are a fault of the stream. A camera and a player from a proxy are served as
    others are."""
    with serving(program, *FROM_PROXY) as server:
        for header in line(CLIENT, PORT), of_client(CLIENT, PORT):
            with Peer(server, OTHER) as peer:
                peer.send(header + b"\r\n")
                if (reply := peer.reply()) is None or reply.status != 400:
                    yield f"{header!r} from another address is answered {reply}"
        with Camera(server, source=OTHER) as camera, proxied(server, of_client(CLIENT, PORT)) as player:
            wanted(player.ask("DESCRIBE", camera.url))
            if player.set_up(f"{camera.url}/trackID=0", "interleaved=4-5") != 200:
                yield "SETUP of a player from a proxy is refused"
            wanted(player.ask("PLAY", camera.url))
            camera.publish([7])
            if (came := player.next()) != Frame(4, packet(7)):
                yield f"a player from a proxy reads {came}"


def mapped_proxies_are_ipv4(program):
    """Of a server on `[::]`, a proxy at an IPv4 address is in its network by that address."""
    if not has_ipv6():
        leave_out(mapped_proxies_are_ipv4, "no address ::1")
        return
    with serving(program, *FROM_PROXY, host="[::]") as server:
        if not takes(server, of_client(CLIENT, PORT)):
            yield "a header of a proxy with a mapped address isn't read"


def changed(rng, header):
    """A header with a byte changed, dropped or put in, or as it is."""
    data, place = bytearray(header), rng.randrange(min(len(header), 60))
    match rng.randrange(4):
        case 0:
            data[place] = rng.choice(b"\0\1\r\n 0129:.PTCP46\x11\x21\xff")
        case 1:
            del data[place]
        case 2:
            data.insert(place, rng.choice(b" 0:.\0"))
    return bytes(data)


def random_headers_are_read_as_by_another_parser(program):
    """A thousand headers, some with a byte that is another one, are taken or refused as a parser of a few lines does, and give the same
    clients."""
    rng = random.Random(82)
    with serving(program, *FROM_PROXY, *MAY_PLAY) as server:
        for _ in range(1_000):
            data = changed(rng, rng.choice(GOOD)[0]) + DESCRIBE
            found, came = read(data), b""
            expected = b""
            if found is not None and data[found[0]:].startswith(b"DESCRIBE"):
                may_play = found[1] and ipaddress.ip_address(found[1][0]) in map(ipaddress.ip_address, MAY_PLAY[1].split(","))
                expected = b"RTSP/1.0 404" if may_play else b"RTSP/1.0 403"
            elif found is not None:
                continue
            with proxied(server, data) as peer, contextlib.suppress(OSError):
                peer.fall_silent()
                came = peer.bytes(12)
            if came != expected:
                yield f"{data!r} is answered {came!r}, and not {expected!r}: the other parser reads {found}"


PARTS = [(part, ()) for part in (headers_are_read, bad_headers_end_connections, headers_may_take_two_seconds, looks_are_no_faults)]
PARTS += [(part, ()) for part in (bad_headers_leave_no_place, clients_count_by_their_addresses, ipv6_clients_count_by_64_bits)]
PARTS += [(part, ()) for part in (lines_have_the_client, others_have_no_headers, mapped_proxies_are_ipv4)]
PARTS += [(random_headers_are_read_as_by_another_parser, ())]
