"""Connections of a client with a web server that speak with each other directly, for captures as anyone can take them."""
import struct

from wire import ACK, FIN, PSH, SYN, packet

SERVER = (0xCB007105, 80)
# What a SYN of Linux offers: segment size 1460, SACK, timestamps, and windows in units of 128 bytes.
OFFER = bytes.fromhex("020405b4 0402 080a") + struct.pack(">II", 1, 0) + bytes.fromhex("01 030307")
STAMPS = bytes.fromhex("0101 080a") + struct.pack(">II", 2, 1)


def head(method, target, *fields):
    """A request head."""
    return "\r\n".join([f"{method} {target} HTTP/1.1", *fields, "", ""]).encode()


class Direct:
    """A connection without a balancer; `sent` and `answered` count what either end has sent, its SYN among it."""

    def __init__(self, client, client_first, server_first):
        self.client_end, self.client_first, self.server_first = client, client_first, server_first
        self.sent = self.answered = 1

    def open(self):
        """The handshake."""
        return [
            packet(self.client_end, SERVER, self.client_first, 0, SYN, options=OFFER),
            packet(SERVER, self.client_end, self.server_first, self.client_first + 1, SYN | ACK, options=OFFER, window=65160),
            self.client(),
        ]

    def client(self, flags=ACK, data=b""):
        """The client's next segment; its window is counted in units of 128 bytes."""
        out = packet(
            self.client_end, SERVER, self.client_first + self.sent, self.server_first + self.answered, flags, data, STAMPS, 502)
        self.sent += len(data) + flags % 2
        return out

    def server(self, flags=ACK, data=b""):
        """The server's next segment."""
        out = packet(
            SERVER, self.client_end, self.server_first + self.answered, self.client_first + self.sent, flags, data, STAMPS, 509)
        self.answered += len(data) + flags % 2
        return out

    def ask(self, *pieces):
        """The client's request, piece by piece, each of which the server acknowledges."""
        return [segment for piece in pieces for segment in (self.client(PSH | ACK, piece), self.server())]

    def answer(self, body):
        """The server's answer, and its acknowledgment."""
        start = b"HTTP/1.1 200 OK\r\nContent-Type: text/plain\r\nContent-Length: %d\r\n\r\n" % len(body)
        return [self.server(PSH | ACK, start + body), self.client()]

    def close(self):
        """Both ends close, the client first."""
        return [self.client(FIN | ACK), self.server(FIN | ACK), self.client()]
