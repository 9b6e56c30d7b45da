"""Packets, captures and the balancer's own numbers, for the scripts that make captures. The numbers are computed here a
second time, from the documents and not from the program."""
import hashlib
import struct

FIN, SYN, RST, PSH, ACK = 1, 2, 4, 8, 16
SECRET = bytes(range(32))
SERVICE = (0xC633640A, 80)
SERVER = (0x0A000001, 8080)
# A whole request head, for the rules of examples/takeover.
HEAD = b"GET /cart/1 HTTP/1.1\r\nHost: Shop.Example:80\r\nCookie: id=9; beta=1\r\n\r\n"
# MSS 1460, SACK permitted, a timestamp, and a window scale of 7.
OPTIONS = bytes.fromhex("020405b4 0402080a 00000001 00000000 01030307")


def total(data):
    """The Internet checksum (RFC 1071)."""
    data += b"\0" * (len(data) % 2)
    s = sum(struct.unpack(f">{len(data) // 2}H", data))
    while s >> 16:
        s = (s & 0xFFFF) + (s >> 16)
    return 0xFFFF - s


def packet(source, target, seq, ack, flags, data=b"", options=b"", window=64240):
    """A TCP segment in an IPv4 packet, from one (address, port) to another."""
    addresses = struct.pack(">II", source[0], target[0])
    words = 5 + len(options) // 4
    head = struct.pack(
        ">HHIIBBHHH", source[1], target[1], seq % 2**32, ack % 2**32, words << 4, flags, window, 0, 0) + options
    check = total(addresses + struct.pack(">BBH", 0, 6, len(head) + len(data)) + head + data)
    segment = head[:16] + struct.pack(">H", check) + head[18:] + data
    ip = struct.pack(">BBHHHBBH", 0x45, 0, 20 + len(segment), 0, 0x4000, 64, 6, 0) + addresses
    return ip[:10] + struct.pack(">H", total(ip)) + ip[12:] + segment


def write_capture(name, packets, ethernet=False):
    """Writes IPv4 packets as a capture, a millisecond apart: raw, or each behind an Ethernet head."""
    head = bytes(12) + b"\x08\x00" if ethernet else b""
    with open(name, "wb") as out:
        out.write(struct.pack("<IHHiIII", 0xA1B2C3D4, 2, 4, 0, 0, 65535, 1 if ethernet else 101))
        for n, packet in enumerate(packets):
            frame = head + packet
            out.write(struct.pack("<IIII", n // 1000, n % 1000 * 1000, len(frame), len(frame)) + frame)


class Flow:
    """One connection of a client to a server, as the two ends see it: the client speaks with the service in the forged
    numbers, the server with the balancer's port. `sent` and `answered` count what either has sent, its SYN among it."""

    def __init__(self, client, client_first, server_first, shards, taken=()):
        self.client_end = client
        message = SECRET + struct.pack(">HIHH", 0, *client, 0)
        self.forged, first = struct.unpack(">II", hashlib.sha256(message).digest()[:8])
        shard = sum(client) % shards
        ports = (1024 + shard + shards * ((first + i) % (64512 // shards)) for i in range(8))
        # None where another flow has each of the eight.
        self.port = next((p for p in ports if p not in taken), None)
        self.client_first, self.server_first = client_first, server_first
        self.sent = self.answered = 1

    def syn(self, options=b""):
        return packet(self.client_end, SERVICE, self.client_first, 0, SYN, options=options)

    def syn_ack(self, options=b""):
        return packet(SERVER, (SERVICE[0], self.port), self.server_first, self.client_first + 1, SYN | ACK, options=options)

    def client(self, flags=ACK, data=b"", at=None):
        """A segment of the client at a place of its stream, the next one where none is given."""
        at = self.sent if at is None else at
        out = packet(self.client_end, SERVICE, self.client_first + at, self.forged + self.answered, flags, data)
        self.sent = max(self.sent, at + len(data) + (1 if flags & FIN else 0))
        return out

    def server(self, flags=ACK, data=b""):
        """The server's next segment."""
        out = packet(
            SERVER, (SERVICE[0], self.port), self.server_first + self.answered, self.client_first + self.sent, flags, data)
        self.answered += len(data) + (1 if flags & FIN else 0)
        return out
