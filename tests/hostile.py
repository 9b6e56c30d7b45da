"""Makes hostile captures, rules, scripts and words from a number: well-formed ones that are cut, flipped, doubled and spliced,
or whose fields have other values, with their checksums made right again.

Usage: hostile.py NUMBER CASE. It writes the files of a case where it runs, and prints its words."""
import functools
import hashlib
import itertools
import random
import struct
import sys
from dataclasses import dataclass, field
from pathlib import Path

from running import DUMP, PLAIN, RUN
from wire import ACK, FIN, HEAD, OPTIONS, PSH, RST, SECRET, SERVER, SERVICE, SYN, Flow, packet, total

ENDS = (0, 1, 2, 0x7F, 0x80, 0xFE, 0xFF, 0x7FFF, 0x8000, 0xFFFF, 2**31 - 1, 2**31, 2**32 - 2, 2**32 - 1)
# What request heads are made of, and what they should not be made of.
HEAD_PIECES = (
    b"GET ", b"POST ", b"/cart", b"/", b"/cart?x=1", b"http://shop.example/cart", b" HTTP/1.1", b" HTTP/1.0", b" HTTP/9.9",
    b"\r\n", b"\n", b"\r", b"\r\n\r\n", b"Host: ", b"shop.example", b"SHOP.EXAMPLE:80", b"[::1]", b"Cookie: ", b"beta=1", b";",
    b"; ", b"=", b":", b" ", b"\t", b"\0", b"\x7f", b"\xff", b"x: y\r\n" * 70, b"a" * 1400, b"Host : a\r\n", b" folded\r\n",
)
HEADS = (
    HEAD,
    b"GET / HTTP/1.1\r\nHost: shop.example\r\n\r\n",
    b"POST / HTTP/1.1\r\nCookie: beta=1\r\nContent-Length: 5\r\n\r\nhello",
    b"\r\n\nGET / HTTP/1.0\n\n",
)
RULES_PIECES = (
    b"[", b"]", b"[[", b"]]", b"{", b"}", b'"', b"'", b'"""', b"=", b",", b".", b"#", b"\n", b"\r", b"\0", b"\xff", b"\\u0000",
    b"\\U0010ffff", b"\\uD800", b"0x", b"-", b"1e9", b"nan", b"inf", b"true", b"1979-05-27", b"9223372036854775807",
    b"9223372036854775808", b"a.b.c", b"[" * 90, b"instances", b"rule", b"server", b"service", b"\xef\xbb\xbf", b"_",
)
SCRIPT_PIECES = (
    b"give", b"crash", b"back", b"fail", b"at", b"after", b" ", b"  ", b"\t", b"\n", b"\r\n", b"\r", b"#", b"0", b"1", b"00",
    b"-1", b"+1", b"262143", b"262144", b"88", b"89", b"18446744073709551616", b"9" * 400, b"\0", b"\xff", b"x",
)
WORDS = (
    b"", b"-", b"!", b"plain", b"run", b"drive", b"dump", b"rules.toml", b"trace.pcap", b"script.txt", b"gone.pcap", b".",
    b"gone/out.pcap", b"out.pcap", b"report.txt", b"journal.txt", b"\xff", b"\xc3", b"0", b"1", b"2", b"01", b"+1", b"-1",
    b"1001", b"100001", b"18446744073709551615", b"18446744073709551616", b"a" * 300, b"a" * 5000, b"a\nb", b"--help", b"/dev/null",
)
# The servers and weights of a rule.
CHOICES = ('to = ["a"]\nweights = [1]', 'to = ["b", "a"]\nweights = [0, 65535]', 'to = ["a", "b"]\nweights = [1, 1]')
MOST_SHARDS = 64
SIZES = (("instances", 16), ("replicas", 8), ("copies", 8))


@functools.cache
def crowd():
    """Nine clients on one of the most shards there can be, who all have the same eight ports: the last finds none."""
    ports = 64512 // MOST_SHARDS
    found = {}
    for number in itertools.count():
        end = (0x0B000000 + number // 1000, 20_000 + number % 1000)
        message = SECRET + struct.pack(">HIHH", 0, *end, 0)
        first, = struct.unpack(">I", hashlib.sha256(message).digest()[4:8])
        clients = found.setdefault((sum(end) % MOST_SHARDS, first % ports), [])
        clients.append(end)
        if len(clients) == 9:
            return clients


@dataclass
class Case:
    """A command and its inputs."""
    words: list
    rules: bytes
    trace: bytes
    script: bytes
    # What an input is made long by, in bytes, by its name.
    longer: dict = field(default_factory=dict)

    def write(self):
        """Writes the inputs, under their names."""
        for name, content in (("rules.toml", self.rules), ("trace.pcap", self.trace), ("script.txt", self.script)):
            with open(name, "wb") as out:
                out.write(content)
                if name in self.longer:
                    out.truncate(self.longer[name])


class Maker:
    """Makes a case from a source of draws."""

    def __init__(self, number, case):
        """The source of the draws of this case of the number."""
        self.draw = random.Random(f"{number} {case}")

    def chance(self, part):
        """Whether a draw is in this part of all draws."""
        return self.draw.random() < part

    def value(self, bits):
        """A number of so many bits, often one at an end of some range."""
        return (self.draw.choice(ENDS) if self.chance(0.5) else self.draw.getrandbits(bits)) % 2**bits

    # Bytes of any kind.

    def damaged(self, content, pieces=()):
        """The bytes, cut, flipped, doubled, spliced, or with a piece put in, some times."""
        ways = [self.cut, self.flipped, self.doubled, self.spliced, self.overwritten] + [self.with_piece] * (4 if pieces else 0)
        for _ in range(self.draw.choice((1, 1, 1, 2, 3, 8))):
            content = self.draw.choice(ways)(content, pieces)
        return content

    def place(self, content):
        """A place before one of the bytes, or behind them."""
        return self.draw.randint(0, len(content))

    def part(self, content):
        """A short part of the bytes, by its ends."""
        first = self.place(content)
        return first, min(len(content), first + self.draw.choice((1, 2, 4, 16, 60, 300)))

    def cut(self, content, _):
        """The bytes without a short part, or without all from there on."""
        first, last = self.part(content)
        return content[:first] + (b"" if self.chance(0.5) else content[last:])

    def flipped(self, content, _):
        """The bytes with another bit."""
        if not content:
            return content
        content = bytearray(content)
        content[self.draw.randrange(len(content))] ^= 1 << self.draw.randrange(8)
        return bytes(content)

    def doubled(self, content, _):
        """The bytes with a short part twice, or many times."""
        first, last = self.part(content)
        return content[:last] + content[first:last] * self.draw.choice((1, 1, 2, 30)) + content[last:]

    def spliced(self, content, _):
        """The bytes with a short part of them at another place too."""
        first, last = self.part(content)
        at = self.place(content)
        return content[:at] + content[first:last] + content[at:]

    def overwritten(self, content, _):
        """The bytes with one value all over a short part."""
        first, last = self.part(content)
        value = self.draw.choice((b"\0", b"\xff", b"\x80", self.draw.randbytes(1)))
        return content[:first] + value * (last - first) + content[last:]

    def with_piece(self, content, pieces):
        """The bytes with a piece put in, or in place of a short part."""
        first, last = self.part(content)
        return content[:first] + self.draw.choice(pieces) + (content[first:] if self.chance(0.5) else content[last:])

    # Captures.

    def head(self):
        """A request head, or what is none."""
        if self.chance(0.75):
            return self.draw.choice(HEADS)
        if self.chance(0.5):
            return self.damaged(self.draw.choice(HEADS), HEAD_PIECES)
        return b"".join(self.draw.choices(HEAD_PIECES, k=self.draw.randint(1, 30)))

    def option(self):
        """An option of any kind and length, mostly with as many bytes as it says, or its kind alone."""
        kind = bytes((self.draw.choice((0, 1, 2, 3, 4, 5, 8, 19, 34, 253)),))
        length = self.draw.choice((0, 1, 2, 3, 4, 6, 10, 18, 40, 255))
        return kind + bytes((length,)) + self.draw.randbytes(max(0, min(length, 38) - 2)) if self.chance(0.8) else kind

    def options(self):
        """The option area of a segment, with its padding or without."""
        if self.chance(0.6):
            return self.draw.choice((b"", OPTIONS))
        area = b""
        for _ in range(self.draw.randint(0, 4)):
            area += self.option()
        area = area[:40]
        return area + bytes((0 if self.chance(0.5) else 1,)) * (-len(area) % 4)

    def conversation(self, flow):
        """The packets of a connection, of which some are left out, come twice, or come in another order."""
        head = self.head()
        size = self.draw.choice((1, 20, 536, 1460, 1460, 1460))
        pieces = [head[at:at + size] for at in range(0, min(len(head), 12 * size), size)]
        packets = [flow.syn(self.options()), flow.client()]
        packets += [flow.client(PSH | ACK, piece) for piece in pieces]
        packets += [flow.syn_ack(self.options())]
        for _ in range(self.draw.randint(0, 8)):
            body = self.draw.randbytes(self.draw.choice((0, 1, 100)))
            packets.append(self.draw.choice((flow.client, flow.server))(PSH | ACK, body))
        packets += [flow.server(self.draw.choice((FIN, RST, RST)) | ACK), flow.client(self.draw.choice((FIN | ACK, RST)))]
        while self.chance(0.3):
            first, second = self.draw.randrange(len(packets)), self.draw.randrange(len(packets))
            self.draw.choice((self.swap, self.again, self.drop))(packets, first, second)
        return packets

    @staticmethod
    def swap(packets, first, second):
        """Changes the places of two packets."""
        packets[first], packets[second] = packets[second], packets[first]

    @staticmethod
    def again(packets, first, second):
        """Sends a packet once more, before another."""
        packets.insert(first, packets[second])

    @staticmethod
    def drop(packets, first, _):
        """Leaves a packet out, where it is not the only one."""
        if len(packets) > 1:
            del packets[first]

    def renumbered(self, content):
        """A packet with another value in one of its fields."""
        at, form = self.draw.choice((
            (0, "B"), (2, "H"), (4, "H"), (6, "H"), (8, "B"), (9, "B"), (12, "I"), (16, "I"), (20, "H"), (22, "H"), (24, "I"),
            (28, "I"), (32, "B"), (33, "B"), (34, "H"), (38, "H")))
        if len(content) < at + struct.calcsize(form):
            return content
        bits = 8 * struct.calcsize(form)
        old, = struct.unpack_from(f">{form}", content, at)
        new = (old + self.draw.choice((-1, 1, 2**31, -2**31))) % 2**bits if self.chance(0.4) else self.value(bits)
        return content[:at] + struct.pack(f">{form}", new) + content[at + bits // 8:]

    def changed(self, content):
        """A packet that is changed some times, mostly with its checksums made right again."""
        for _ in range(self.draw.choice((1, 1, 2, 4))):
            content = self.renumbered(content) if self.chance(0.7) else self.damaged(content)
        return summed(content) if self.chance(0.8) else content

    def stray(self):
        """A packet of anybody."""
        ends = [SERVICE, SERVER, (self.value(32), self.value(16)), (SERVICE[0], self.value(16))]
        return packet(
            self.draw.choice(ends), self.draw.choice(ends), self.value(32), self.value(32), self.value(8),
            self.draw.choice((b"", self.head()[:1460])), self.options(), self.value(16))

    def crowded(self):
        """What clients send who have the same ports."""
        flows = [Flow(end, self.value(32), 0, MOST_SHARDS) for end in crowd()]
        return [packet for flow in flows for packet in (flow.syn(), flow.client(PSH | ACK, HEADS[0]))]

    def packets(self, shards):
        """The packets of some connections, one in between the other, and strays among them."""
        if shards == MOST_SHARDS and self.chance(0.3):
            return self.crowded()
        flows = [Flow((0xC0000207 + n, 40000 + self.draw.choice((0, n))), self.value(32), self.value(32), shards)
                 for n in range(self.draw.choice((1, 1, 2, 3)))]
        rows = [self.conversation(flow) for flow in flows]
        in_turns = itertools.chain.from_iterable(itertools.zip_longest(*rows))
        packets = in_turns if self.chance(0.5) else itertools.chain(*rows)
        packets = [self.changed(packet) if self.chance(0.06) else packet for packet in packets if packet]
        while self.chance(0.3):
            packets.insert(self.place(packets), self.stray())
        return packets

    def record(self, order, content):
        """A record of a capture: now and then its lengths are others than what is there."""
        kept, original = len(content), len(content)
        if self.chance(0.01):
            original = self.value(32)
        if self.chance(0.003):
            kept = self.draw.choice((0, kept - 1, kept + 1, 262_144, 262_145, self.value(32))) % 2**32
        return struct.pack(f"{order}IIII", self.value(32), self.value(32), kept, original) + content

    def capture(self, shards):
        """A capture, of any order of bytes, resolution and link type, and now and then damaged as a whole."""
        order, link = self.draw.choice("<>"), self.draw.choice((1, 101))
        head = bytes(12) + (b"\x08\x00" if self.chance(0.95) else self.draw.randbytes(2)) if link == 1 else b""
        magic = self.draw.choice((0xA1B2C3D4, 0xA1B23C4D))
        if self.chance(0.02):
            magic, link = self.draw.choice(((self.value(32), link), (magic, self.value(32))))
        content = struct.pack(f"{order}IHHiIII", magic, 2, 4, 0, 0, 65535, link)
        content += b"".join(self.record(order, head + packet) for packet in self.packets(shards))
        return self.damaged(content) if self.chance(0.07) else content

    # Rules and scripts.

    def rules(self, sizes):
        """Rules with these sizes, two servers, and one to four rules."""
        lines = [f"{name} = {value}" for name, value in sizes.items()]
        lines += [f'secret = "{SECRET.hex()}"', "[service]", "number = 0", 'address = "198.51.100.10"', "port = 80"]
        for number, name in enumerate("ab"):
            lines += ["[[server]]", f'name = "{name}"', f'address = "10.0.0.{number + 1}"', "port = 8080"]
        conditions = ('host = "shop.example"', 'path = "/cart"', 'cookie = "beta=1"', "")
        for condition in self.draw.sample(conditions, self.draw.randint(1, 4)):
            lines += ["[[rule]]", condition, self.draw.choice(CHOICES)]
        return "\n".join(lines + [""]).encode()

    def script(self, sizes):
        """A script for these sizes, with crashes, returns, gives and failures."""
        lines = []
        for instance in range(sizes["instances"]):
            record = self.draw.randint(0, 8)
            while self.chance(0.3):
                lines.append(f"crash {instance} at {record} after {self.draw.choice((0, 1, 2, 3, 7, 9, 88))}")
                record += self.draw.randint(1, 5)
                lines.append(f"back {instance} at {record}")
        gives = self.draw.sample(range(30), self.draw.randint(0, 10))
        lines += [f"give {record} {self.draw.randrange(sizes['instances'])}" for record in gives]
        fails = self.draw.sample(range(sizes["replicas"]), self.draw.randint(0, sizes["replicas"]) if self.chance(0.3) else 0)
        lines += [f"fail {replica} at {self.draw.randint(0, 30)}" for replica in fails]
        return "\n".join(lines + ["# end"]).encode()

    def sizes(self):
        """The numbers of instances, replicas, copies and shards."""
        sizes = {name: self.draw.randint(1, most) for name, most in SIZES}
        sizes["copies"] = min(sizes["copies"], sizes["replicas"])
        return {**sizes, "shards": 2 ** self.draw.randint(0, 6)}

    def words(self):
        """Words that are mostly no command's."""
        if self.chance(0.3):
            return [b"drive", *(str(self.draw.choice(some)).encode() for some in ((1, 2, 5), (0, 1, 1459, 3000), (7, 2**64 - 1)))]
        words = self.draw.choice((PLAIN, RUN, DUMP)).encode().split()
        for _ in range(self.draw.randint(1, 3)):
            at = self.draw.randrange(len(words))
            words[at:at + self.draw.choice((0, 1, 1, 1))] = [self.draw.choice(WORDS)] * self.draw.choice((0, 1, 1, 1, 2))
            words = words or [b""]
        return words

    def case(self):
        """A command, mostly on whole rules and a whole script, and now and then on inputs that are too large."""
        sizes = self.sizes()
        rules, script = self.rules(sizes), self.script(sizes)
        trace = self.capture(sizes["shards"])
        if self.chance(0.2):
            rules = self.damaged(rules, RULES_PIECES)
        if self.chance(0.2):
            script = self.damaged(script, SCRIPT_PIECES)
        command, = self.draw.choices((PLAIN, RUN, DUMP), (6, 3, 1))
        words = self.words() if self.chance(0.05) else command.encode().split()
        longer = {}
        if self.chance(0.005):
            longer = {self.draw.choice(("rules.toml", "script.txt")): self.draw.randint(1_048_576, 1_048_577),
                      "trace.pcap": 67_108_865}
        return Case(words, rules, trace, script, longer)


def summed(content):
    """A packet with the checksums that its bytes and lengths give, as far as it has the places for them."""
    content = bytearray(content)
    words = 4 * (content[0] & 15) if content else 0
    if not 20 <= words <= len(content):
        return bytes(content)
    content[10:12] = bytes(2)
    content[10:12] = struct.pack(">H", total(bytes(content[:words])))
    end = int.from_bytes(content[2:4], "big")
    segment = bytearray(content[words:end])
    if words <= end <= len(content) and len(segment) >= 20:
        segment[16:18] = bytes(2)
        pseudo = bytes(content[12:20]) + struct.pack(">BBH", 0, 6, len(segment))
        content[words + 16:words + 18] = struct.pack(">H", total(pseudo + bytes(segment)))
    return bytes(content)


def main(number, case):
    """Writes the files of a case, and prints its words."""
    made = Maker(int(number), int(case)).case()
    made.write()
    print(*(word.decode(errors="backslashreplace") for word in made.words))


if __name__ == "__main__":
    main(*sys.argv[1:])
