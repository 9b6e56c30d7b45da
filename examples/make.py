"""Makes ordinary.pcap, four connections of clients with a web server that speak with each other directly, as a capture
beside the server has them; and empty.pcap, a capture without records. What tools/behind makes of ordinary.pcap by
rules.toml is trace.pcap.

Usage, in this folder: PYTHONPATH=../tests python3 make.py && ../tools/behind rules.toml ordinary.pcap >trace.pcap"""
from direct import Direct, head
from wire import write_capture

HOST = "Host: shop.example"

cart = Direct((0xC0000207, 40000), 1000, 70000)
tester = Direct((0xC0000214, 51514), 4294967200, 3000000000)
order = Direct((0xC633642A, 33060), 777000, 12345)
other = Direct((0xC0000209, 40021), 52, 99)
form = b"item=7&count=2"
post = head("POST", "/order", HOST, "Content-Type: application/x-www-form-urlencoded", f"Content-Length: {len(form)}")
write_capture("ordinary.pcap", [
    *cart.open(),
    *tester.open(),
    *cart.ask(head("GET", "/cart/7?full=1", HOST, "User-Agent: curl/7.88.1", "Accept: */*")),
    *tester.ask(head("GET", "/", HOST, "Cookie: id=9; beta=1")),
    *cart.answer(b"a cart.\n"),
    *order.open(),
    # The head comes in two segments, and the form after it.
    *order.ask(post[:40], post[40:], form),
    *tester.answer(b"the new page.\n"),
    *cart.close(),
    *other.open(),
    *order.answer(b"ordered.\n"),
    *other.ask(head("GET", "/about", "Host: 203.0.113.5")),
    *tester.close(),
    *other.answer(b"about us.\n"),
    *order.close(),
    *other.close(),
])
write_capture("empty.pcap", [])
