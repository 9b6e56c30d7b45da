"""Makes what the benchmarks run on, each from a number: captures as Ethernet frames with all checksums right, with the
rules and the script that they are run under.

Usage: captures.py KIND NUMBER [WORD=VALUE ..]. It writes rules.toml, trace.pcap and script.txt where it runs. The words
are flows (how many forwarded connections), data (bytes in each of their segments), copies (of each record) and shards.
The number is that of records, or of what the kind is named by."""
import itertools
import pathlib
import subprocess
import sys

from wire import ACK, PSH, RST, SECRET, SERVICE, SYN, Flow, packet, write_capture

HEAD = b"GET / HTTP/1.1\r\nHost: shop.example\r\n\r\n"
RULES = 255
HEAD_BYTES = 14_000
ONE_BYTE_HEAD = 2_000
# What the program takes of a capture at most.
MOST_RECORDS = 262_144
MOST_BYTES = 67_108_864
HEADS = 16 + 14 + 40


def rules(copies, shards, conditions=()):
    """A rules file with one server, which all requests go to; before the rule for that stand rules with these conditions."""
    lines = [
        "instances = 4", "replicas = 8", f"copies = {copies}", f"shards = {shards}", f'secret = "{SECRET.hex()}"',
        "[service]", "number = 0", 'address = "198.51.100.10"', "port = 80",
        "[[server]]", 'name = "a"', 'address = "10.0.0.1"', "port = 8080",
    ]
    for condition in conditions:
        lines += ["[[rule]]", condition, 'to = ["a"]', "weights = [1]"]
    return "\n".join(lines + ["[[rule]]", 'to = ["a"]', "weights = [1]", ""])


def client(n):
    """The n-th client's address and port."""
    return 0x0B000000 + n // 200, 20_000 + n % 200


def flows(count, shards):
    """Connections of so many clients, each with a port of its own; a client that finds none is passed over."""
    taken = set()
    for n in itertools.count():
        if len(taken) == count:
            return
        flow = Flow(client(n), 1000 + n, 700_000 + n, shards, taken)
        if flow.port is not None:
            taken.add(flow.port)
            yield flow


def opened(all_flows):
    """Each connection's SYN and request head, and then the servers' SYN-ACKs in the same order."""
    for flow in all_flows:
        yield flow.syn()
        yield flow.client(PSH | ACK, HEAD)
    for flow in all_flows:
        yield flow.syn_ack()


def exchange(flow, turn, data):
    """A segment of the client or of the server, in turn."""
    body = bytes([turn % 251]) * data
    return flow.client(PSH | ACK, body) if turn % 2 else flow.server(PSH | ACK, body)


def forwarded(count, options):
    """Records of connections that are opened and then forward data both ways; no more than a capture may have."""
    count = min(count, MOST_RECORDS, MOST_BYTES // (HEADS + options["data"]))
    all_flows = list(flows(options["flows"], options["shards"]))
    yield from opened(all_flows)
    for n in range(count - 3 * len(all_flows)):
        yield exchange(all_flows[n % len(all_flows)], n // len(all_flows), options["data"])


def opened_in_order(count, options):
    """Connections that all send their heads and are then opened in the same order."""
    yield from opened(list(flows(count, options["shards"])))


def client_resets(count, options):
    """Connections that all send half a head, and are then reset in the same order."""
    all_flows = list(flows(count, options["shards"]))
    for flow in all_flows:
        yield flow.syn()
        yield flow.client(PSH | ACK, HEAD[:20])
    for flow in all_flows:
        yield flow.client(RST)


def syns(count, options):
    """So many clients' SYNs."""
    for n in range(count):
        yield packet(client(n), SERVICE, 1000 + n, 0, SYN)


def full_options(count, options):
    """So many clients' SYNs, each with twenty options of two bytes, as many as a header has room for."""
    for n in range(count):
        yield packet(client(n), SERVICE, 1000 + n, 0, SYN, options=bytes((253, 2)) * 20)


def equal_hashes(count, options):
    """SYNs of clients whose keys' hashes would agree, did they not take in the secret; equal_hashes.c finds them."""
    source = pathlib.Path(__file__).with_name("equal_hashes.c")
    subprocess.run(["cc", "-O2", "-o", "equal_hashes", source], check=True)
    found = subprocess.run(["./equal_hashes", str(count)], capture_output=True, text=True, check=True).stdout
    for n, line in enumerate(found.splitlines()):
        address, port = line.split()
        yield packet((int(address), int(port)), SERVICE, 1000 + n, 0, SYN)


def sent_again(head, count, options):
    """A head, and then so many records that send its last byte again."""
    flow = next(flows(1, options["shards"]))
    yield flow.syn()
    for at in range(0, len(head), 1400):
        yield flow.client(PSH | ACK, head[at:at + 1400])
    again = flow.client(PSH | ACK, head[-1:], at=len(head))
    yield from itertools.repeat(again, count)


def cookie_rules(count, options):
    """A head with as many cookies as it can have, under rules with cookies."""
    return sent_again(HEAD[:-2] + b"Cookie: " + b"a;" * (HEAD_BYTES // 2) + b"\r\n\r\n", count, options)


def long_fields(count, options):
    """A head with a long target and a long host, under rules with hosts and paths."""
    half = b"a" * (HEAD_BYTES // 2)
    return sent_again(b"GET /" + half + b" HTTP/1.1\r\nHost: " + half + b"\r\n\r\n", count, options)


def one_byte_pieces(count, options):
    """So many clients' heads, each byte in a segment of its own."""
    head = HEAD[:-2] + b"Cookie: "
    head += b"a" * (ONE_BYTE_HEAD - len(head) - 4) + b"\r\n\r\n"
    for flow in flows(count, options["shards"]):
        yield flow.syn()
        for at in range(len(head)):
            yield flow.client(PSH | ACK, head[at:at + 1])


def script_lines(count, options):
    """A record for each line of the script."""
    return forwarded(count, options)


def lines(count):
    """A script of so many lines: instances that crash and come back, and records that are given to one."""
    for n in range(0, count, 4):
        yield f"crash {n // 4 % 4} at {n} after {n % 7}\n"
        yield f"give {n + 1} {n % 4}\n"
        yield f"back {n // 4 % 4} at {n + 2}\n"
        yield f"give {n + 3} {n % 3}\n"


KINDS = {make.__name__: make for make in (
    forwarded, equal_hashes, opened_in_order, client_resets, syns, full_options, cookie_rules, long_fields, one_byte_pieces, script_lines)}
# The conditions of the rules before the last, for the kinds whose rules have any.
CONDITIONS = {
    "cookie_rules": [f'cookie = "group={n:04}"' for n in range(RULES)],
    "long_fields": [f'path = "/{n:04}"' if n % 2 else f'host = "{n:04}.example"' for n in range(RULES)],
}


def main(kind, number, *words):
    options = {"flows": 1000, "data": 196, "copies": 2, "shards": 8}
    options.update((name, int(value)) for name, value in (word.split("=") for word in words))
    count = int(number)
    with open("rules.toml", "w") as out:
        out.write(rules(options["copies"], options["shards"], CONDITIONS.get(kind, ())))
    with open("script.txt", "w") as out:
        out.writelines(lines(count) if kind == "script_lines" else ())
    write_capture("trace.pcap", KINDS[kind](count, options), ethernet=True)


if __name__ == "__main__":
    main(*sys.argv[1:])
