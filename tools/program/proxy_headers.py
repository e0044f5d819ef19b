"""Headers with which a proxy begins a connection, and a small parser of them (HAProxy's PROXY protocol, 2.1 and 2.2)."""
import ipaddress
import re
import struct

SIGNATURE = b"\r\n\r\n\0\r\nQUIT\n"

# Of these families the connection's own address is kept, and their addresses have at least this length.
SKIPPED = {0x00: 0, 0x12: 12, 0x22: 36, 0x31: 216, 0x32: 216}

MOST_LINE, MOST_BLOCK = 107, 2048

CLIENT, PORT = "192.0.2.7", 40_961


def line(client, port, own="127.0.0.9", own_port=8554):
    """A header of version 1."""
    family = 6 if ":" in client else 4
    return f"PROXY TCP{family} {client} {own if family == 4 else '::9'} {port} {own_port}\r\n".encode()


def block(body=b"", command=1, family=0x00, length=None, version=2):
    """A header of version 2."""
    return SIGNATURE + struct.pack(">BBH", 16 * version + command, family, len(body) if length is None else length) + body


def of_client(client, port, more=b""):
    """A header of version 2 of a client over TCP. The bytes `more` come after the addresses."""
    address = ipaddress.ip_address(client)
    own = ipaddress.ip_address("127.0.0.9" if address.version == 4 else "::9")
    return block(address.packed + own.packed + struct.pack(">HH", port, 8554) + more, family=0x11 if address.version == 4 else 0x21)


def unmapped(address):
    """An address as text. An IPv4-mapped one is its IPv4 address."""
    return str(getattr(address, "ipv4_mapped", None) or address)


def number(text):
    """The port that a text writes, or None."""
    return int(text) if re.fullmatch(rb"0|[1-9][0-9]{0,4}", text) and int(text) < 65_536 else None


def of_line(text):
    """The client of a line without its CRLF, () if it gives none, or None if it is bad."""
    if text.startswith(b"PROXY UNKNOWN"):
        return ()
    fields = text.split(b" ")
    kinds = {b"TCP4": ipaddress.IPv4Address, b"TCP6": ipaddress.IPv6Address}
    if len(fields) != 6 or fields[0] != b"PROXY" or fields[1] not in kinds or b"%" in text:
        return None
    try:
        client, _ = (kinds[fields[1]](it.decode("ascii")) for it in fields[2:4])
    except ValueError:
        return None
    ports = [number(it) for it in fields[4:]]
    return None if None in ports else (unmapped(client), ports[0])


def of_block(head, body):
    """The client of a block with this head of four bytes after the signature, () if it gives none, or None if it is bad."""
    if head[0] == 0x20:
        return ()
    width = {0x11: 4, 0x21: 16}.get(head[1])
    least = SKIPPED.get(head[1], 2 * (width or 0) + 4 if width else None)
    if head[0] != 0x21 or least is None or len(body) < least:
        return None
    if not width:
        return ()
    return unmapped(ipaddress.ip_address(body[:width])), struct.unpack(">H", body[2 * width : 2 * width + 2])[0]


def read(data):
    """What bytes begin with: (length, client), with () for a client whose connection's own address is kept; or None if they begin with no
    whole header."""
    if data.startswith(b"PROXY "):
        end = data.find(b"\r\n")
        if end < 0 or end + 2 > MOST_LINE or (client := of_line(data[:end])) is None:
            return None
        return end + 2, client
    if not data.startswith(SIGNATURE) or len(data) < 16:
        return None
    head, length = data[12:16], struct.unpack(">H", data[14:16])[0]
    if 16 + length > MOST_BLOCK or len(data) < 16 + length or (client := of_block(head, data[16 : 16 + length])) is None:
        return None
    return 16 + length, client


# Headers, and the client that each gives: None for the connection's own address.
GOOD = (
    (line(CLIENT, PORT), f"{CLIENT}:{PORT}"),
    (line("2001:db8::7", 1), "[2001:db8::7]:1"),
    (line("::ffff:192.0.2.7", 65_535), "192.0.2.7:65535"),
    (b"PROXY UNKNOWN\r\n", None),
    (b"PROXY UNKNOWN ffff:: \n\r ::1 no ports".ljust(MOST_LINE - 2) + b"\r\n", None),
    (of_client(CLIENT, PORT), f"{CLIENT}:{PORT}"),
    (of_client("2001:db8::7", 258), "[2001:db8::7]:258"),
    (of_client("::ffff:192.0.2.7", 513), "192.0.2.7:513"),
    (of_client(CLIENT, PORT, b"\x03\0\4abcd\x20\0\1x"), f"{CLIENT}:{PORT}"),
    (of_client(CLIENT, PORT, bytes(MOST_BLOCK - 28)), f"{CLIENT}:{PORT}"),
    (block(command=0), None),
    (block(bytes(range(40)), command=0, family=0x11), None),
    (block(b"\xff" * 3, command=0, family=0xEE), None),
    *((block(bytes(least), family=family), None) for family, least in SKIPPED.items()),
)
