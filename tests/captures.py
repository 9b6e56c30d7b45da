"""Makes captures for tests/dump.sh, and compares dumps of them."""
import random
import struct
import sys

from wire import total


def packet(rng, options=b"", data=b"", spoil=None, ip_options=b""):
    """An IPv4 packet with a TCP segment; `spoil` names a checksum to be made wrong."""
    source, target = rng.randbytes(4), rng.randbytes(4)
    words = 5 + len(options) // 4
    flags = rng.choice([0x02, 0x12, 0x10, 0x18, 0x11, 0x14, 0x04, 0x10 | 0x20])
    head = struct.pack(
        ">HHIIBBHHH", rng.randrange(1, 65536), rng.randrange(1, 65536), rng.randrange(2**32), rng.randrange(2**32),
        words << 4, flags, rng.randrange(65536), 0, rng.randrange(65536) if flags & 0x20 else 0)
    segment = head + options + data
    check = total(source + target + struct.pack(">BBH", 0, 6, len(segment)) + segment)
    if spoil == "tcp":
        check ^= 0x0101
    segment = segment[:16] + struct.pack(">H", check) + segment[18:]
    length = 20 + len(ip_options)
    ip = struct.pack(">BBHHHBBH", 0x40 | length // 4, 0, length + len(segment), rng.randrange(65536), 0x4000, 64, 6, 0)
    ip = ip + source + target + ip_options
    check = total(ip)
    if spoil == "ip":
        check ^= 0x0101
    return ip[:10] + struct.pack(">H", check) + ip[12:] + segment


MSS = b"\x02\x04\x05\xb4"
SYN_OPTIONS = MSS + b"\x04\x02" + b"\x08\x0a" + bytes(8) + b"\x01" + b"\x03\x03\x07"
STAMPS = b"\x01\x01\x08\x0a" + bytes(8)


def frames(rng, ethernet):
    """Frames of many forms; Ethernet ones are padded to the smallest length."""
    for n in range(200):
        options = rng.choice([b"", b"", MSS, SYN_OPTIONS, STAMPS])
        data = rng.randbytes(rng.choice([0, 0, 1, 2, 7, 100, 1399]))
        spoil = rng.choice([None] * 8 + ["tcp", "ip"])
        body = packet(rng, options, data, spoil, rng.choice([b"", b"", b"\x01\x01\x01\x00"]))
        if ethernet:
            body = rng.randbytes(12) + b"\x08\x00" + body
            body += bytes(max(0, 60 - len(body)))
        yield body


def make(folder):
    for order in "<>":
        for nano in (False, True):
            for ethernet in (False, True):
                rng = random.Random(f"{order}{nano}{ethernet}")
                name = f"{folder}/{'little' if order == '<' else 'big'}-{'nano' if nano else 'micro'}-{'ethernet' if ethernet else 'raw'}.pcap"
                with open(name, "wb") as out:
                    magic = 0xA1B23C4D if nano else 0xA1B2C3D4
                    out.write(struct.pack(order + "IHHiIII", magic, 2, 4, 0, 0, 65535, 1 if ethernet else 101))
                    for n, body in enumerate(frames(rng, ethernet)):
                        out.write(struct.pack(order + "IIII", n, 1000 * n, len(body), len(body)) + body)


LETTERS = [(0x80, "C"), (0x40, "E"), (0x20, "U"), (0x10, "A"), (0x08, "P"), (0x04, "R"), (0x02, "S"), (0x01, "F")]


def expected(number, line):
    """Our line for a frame, from tshark's fields of it."""
    source, source_port, target, target_port, flags, seq, ack, window, length, ip_sum, tcp_sum = line.split(",")
    if ip_sum == "0":
        return f"{number} badip sum"
    if tcp_sum == "0":
        return f"{number} badtcp sum"
    letters = "".join(letter for bit, letter in LETTERS if int(flags, 16) & bit) or "-"
    return f"{number} {source}:{source_port} > {target}:{target_port} {letters} {seq} {ack} {window} {length}"


def compare(ours, theirs):
    ours, theirs = open(ours).read().splitlines(), open(theirs).read().splitlines()
    if len(ours) != len(theirs):
        sys.exit(f"{len(ours)} lines here, {len(theirs)} there")
    for number, (mine, other) in enumerate(zip(ours, theirs)):
        want = expected(number, other)
        short = " ".join(mine.split(" ")[:3]) if " sum" in want else mine
        if short != want:
            sys.exit(f"ours:   {mine}\ntheirs: {want}")


if __name__ == "__main__":
    {"make": make, "compare": compare}[sys.argv[1]](*sys.argv[2:])
