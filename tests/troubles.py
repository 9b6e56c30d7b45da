"""Makes a capture of which tools/behind cannot keep all, for tests/behind.sh: python3 troubles.py OUT"""
import sys

from direct import SERVER, Direct, head
from wire import ACK, SYN, packet, write_capture

CLIENT = 0xC0000207
first, again = Direct((CLIENT, 40000), 1000, 70000), Direct((CLIENT, 40000), 5000, 80000)
secret, unruled, late = Direct((CLIENT, 40001), 1, 2), Direct((CLIENT, 40002), 3, 4), Direct((CLIENT, 40003), 5, 6)
unanswered = packet((CLIENT, 40004), SERVER, 9, 0, SYN)
ping = bytes.fromhex("4500001c 00000000 4001d4aa c0000207 cb007105 0800f7ff 00000000")
write_capture(sys.argv[1], [
    *first.open(), *first.ask(head("GET", "/", "Host: shop.example", "Cookie: beta=1")), *first.close(),
    *again.open(), *again.ask(head("GET", "/cart", "Host: shop.example")),
    # A TLS client says hello.
    *secret.open(), *secret.ask(bytes.fromhex("16030100050100000103")),
    *unruled.open(), *unruled.ask(head("GET", "/", "Host: other.example")), *unruled.answer(b"no.\n"),
    late.client(ACK, b"more"),
    unanswered,
    ping,
])
