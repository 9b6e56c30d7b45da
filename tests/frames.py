"""Puts the packets of a raw capture into other frames, for tests/behind.sh: python3 frames.py FORM IN OUT"""
import struct
import sys

MACS = bytes.fromhex("020000000002 020000000001")
LITTLE, BIG, NANO = ("<", 0xA1B2C3D4), (">", 0xA1B2C3D4), (">", 0xA1B23C4D)


def records(name):
    """The records of a capture of ours: seconds, microseconds and the packet."""
    with open(name, "rb") as file:
        data = file.read()
    at = 24
    while at < len(data):
        seconds, fraction, kept, _ = struct.unpack_from("<IIII", data, at)
        yield seconds, fraction, data[at + 16:at + 16 + kept]
        at += 16 + kept


def unfilled(packet):
    """The packet with a TCP sum that is not filled in, as a card that does so gets it: that of the pseudo header alone."""
    total = sum(struct.unpack(">4H", packet[12:20])) + 6 + len(packet) - 20
    total = (total & 0xFFFF) + (total >> 16)
    return packet[:36] + struct.pack(">H", total) + packet[38:]


def ethernet(packet):
    return MACS + b"\x08\x00" + packet


# The link type, the byte order and magic number, the frame of a packet, and how many of its bytes are kept.
FORMS = {
    "ethernet": (1, LITTLE, ethernet, 65535),
    "big": (1, BIG, ethernet, 65535),
    "nano": (1, NANO, ethernet, 65535),
    "vlan": (1, LITTLE, lambda packet: MACS + b"\x81\x00\x00\x2a\x08\x00" + packet, 65535),
    "unfilled": (1, LITTLE, lambda packet: ethernet(unfilled(packet)), 65535),
    "cooked": (113, LITTLE, lambda packet: bytes.fromhex("0000 0001 0006 020000000001 0000 0800") + packet, 65535),
    "cooked2": (276, LITTLE, lambda packet: bytes.fromhex("0800 0000 00000001 0001 00 06 020000000001 0000") + packet, 65535),
    "snapped": (1, LITTLE, ethernet, 96),
}


def main(form, source, target):
    link, (order, magic), frame, most = FORMS[form]
    with open(target, "wb") as out:
        out.write(struct.pack(order + "IHHiIII", magic, 2, 4, 0, 0, most, link))
        for seconds, fraction, packet in records(source):
            body, fraction = frame(packet), fraction * (1000 if form == "nano" else 1)
            out.write(struct.pack(order + "IIII", seconds, fraction, min(most, len(body)), len(body)) + body[:most])


if __name__ == "__main__":
    main(*sys.argv[1:])
