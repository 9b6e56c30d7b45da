"""Captures and the TCP segments in them, for the tools beside the program: classic pcap files are read, raw IPv4 packets
are written. The program's own reader is stricter; it alone says what Yoda takes."""
import struct
from typing import NamedTuple

FIN, SYN, RST, PSH, ACK, URG = 1, 2, 4, 8, 16, 32
# The byte order of a file's heads, and how many of its fractions make a microsecond.
MAGICS = {
    b"\xa1\xb2\xc3\xd4": (">", 1), b"\xd4\xc3\xb2\xa1": ("<", 1),
    b"\xa1\xb2\x3c\x4d": (">", 1000), b"\x4d\x3c\xb2\xa1": ("<", 1000),
}
# What other beginnings of a file are, and what makes a capture of them.
OTHERS = {
    b"\x0a\x0d\x0d\x0a": "a pcapng; 'editcap -F pcap IN OUT' makes a pcap of it",
    b"\x1f\x8b": "gzip; 'gunzip' unpacks it",
    b"\x28\xb5\x2f\xfd": "zstd; 'zstd -d' unpacks it",
}
# Where a link type's frames have their EtherType, and where the packet begins.
TYPED = {1: (12, 14), 113: (14, 16), 276: (0, 20)}
RAW = {101: 0, 228: 0, 0: 4, 108: 4}
IPV4, VLANS = 0x0800, (0x8100, 0x88A8)


class Frame(NamedTuple):
    """One record of a capture: seconds and microseconds, the packet behind the link's head (or None), and whether the
    frame was kept whole."""
    time: tuple
    packet: bytes | None
    whole: bool


class Segment(NamedTuple):
    """A TCP segment; an end is a pair of address and port, both numbers."""
    source: tuple
    target: tuple
    seq: int
    ack: int
    flags: int
    window: int
    options: bytes
    data: bytes


def header(data):
    """The byte order, the divisor of fractions and the link type of a capture."""
    for begin, what in OTHERS.items():
        if data.startswith(begin):
            raise ValueError(f"the file is {what}")
    if data[:4] not in MAGICS or len(data) < 24:
        raise ValueError("the file is no classic pcap")
    order, divisor = MAGICS[data[:4]]
    return order, divisor, struct.unpack_from(order + "I", data, 20)[0]


def packet_of(link, body):
    """The IPv4 packet of a frame, behind any VLAN tags, or None."""
    if link in RAW:
        body = body[RAW[link]:]
        return body if body[:1] and body[0] >> 4 == 4 else None
    if link not in TYPED:
        raise ValueError(f"the capture's link type is {link}; capture on one interface, or see 'tcprewrite --dlt=enet'")
    place, begin = TYPED[link]
    while len(body) >= begin and int.from_bytes(body[place:place + 2]) in VLANS:
        place, begin = begin + 2, begin + 4
    return body[begin:] if int.from_bytes(body[place:place + 2]) == IPV4 else None


def frames(data):
    """The frames of a capture, up to its end or to a record that is cut."""
    order, divisor, link = header(data)
    at = 24
    while at + 16 <= len(data):
        seconds, fraction, kept, length = struct.unpack_from(order + "IIII", data, at)
        if at + 16 + kept > len(data):
            return
        body = data[at + 16:at + 16 + kept]
        yield Frame((seconds, fraction // divisor), packet_of(link, body), kept >= length)
        at += 16 + kept


def segment_of(packet):
    """The TCP segment of an IPv4 packet, whatever its sums are, or None where it has none."""
    if packet is None or len(packet) < 20 or packet[0] >> 4 != 4 or packet[9] != 6:
        return None
    begin, end = packet[0] % 16 * 4, int.from_bytes(packet[2:4])
    # The length 0 is that of an offloaded packet, whose card fills it in.
    tcp = packet[begin:end or len(packet)]
    if int.from_bytes(packet[6:8]) & 0x3FFF or len(tcp) < 20 or not 20 <= tcp[12] // 16 * 4 <= len(tcp):
        return None
    source, target, seq, ack, offset, flags, window = struct.unpack_from(">HHIIBBH", tcp)
    ends = struct.unpack_from(">II", packet, 12)
    offset = offset // 16 * 4
    return Segment((ends[0], source), (ends[1], target), seq, ack, flags, window, tcp[20:offset], tcp[offset:])


def option(segment, kind):
    """The value of the first option of this kind in a segment, as bytes, or None."""
    area = segment.options
    while area and area[0] != 0:
        length = 1 if area[0] == 1 else area[1] if len(area) > 1 else 0
        if length == 0 or length > len(area):
            return None
        if area[0] == kind:
            return area[2:length]
        area = area[length:]
    return None


def checksum(data):
    """The Internet checksum (RFC 1071)."""
    data += b"\0" * (len(data) % 2)
    total = sum(struct.unpack(f">{len(data) // 2}H", data))
    while total >> 16:
        total = (total & 0xFFFF) + (total >> 16)
    return 0xFFFF - total


def packet(segment):
    """An IPv4 packet with this segment, its sums filled in."""
    ends = struct.pack(">II", segment.source[0], segment.target[0])
    words = 5 + len(segment.options) // 4
    head = struct.pack(
        ">HHIIBBHHH", segment.source[1], segment.target[1], segment.seq % 2**32, segment.ack % 2**32, words * 16,
        segment.flags, segment.window, 0, 0)
    tcp = head + segment.options + segment.data
    tcp_sum = checksum(ends + struct.pack(">BBH", 0, 6, len(tcp)) + tcp)
    ip = struct.pack(">BBHHHBBH", 0x45, 0, 20 + len(tcp), 0, 0x4000, 64, 6, 0)
    ip_sum = checksum(ip + ends)
    return ip[:10] + struct.pack(">H", ip_sum) + ends + tcp[:16] + struct.pack(">H", tcp_sum) + tcp[18:]


def capture(packets):
    """A capture of raw IPv4 packets, each with its time."""
    out = [struct.pack("<IHHiIII", 0xA1B2C3D4, 2, 4, 0, 0, 65535, 101)]
    out += [struct.pack("<IIII", *time, len(body), len(body)) + body for time, body in packets]
    return b"".join(out)


def end_text(end):
    """An end as ADDRESS:PORT."""
    address, port = end
    return ".".join(str(part) for part in address.to_bytes(4)) + f":{port}"
