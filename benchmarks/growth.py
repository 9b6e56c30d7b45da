#!/usr/bin/env python3
"""`yoda plain` on what a stranger would send to make it slow or large, and on twice as much of it: the processor's time and
the memory are to be about twice as much too; and `yoda run` with one instance on some of it. The figures are kept in
docs/BENCHMARKS.md. With the word `judge` it ends with 1 where one of them is more than MOST times as much."""
import shutil
import sys
from dataclasses import dataclass

import measure

# What is made, the smaller number, and the words that go with it.
HOSTILE = (
    ("syns", 100_000, "shards=1"),
    ("equal_hashes", 50_000, "shards=1"),
    ("full_options", 50_000, "shards=1"),
    ("opened_in_order", 10_000, "shards=1"),
    ("client_resets", 10_000, "shards=1"),
    ("one_byte_pieces", 60, ""),
    ("cookie_rules", 5_000, ""),
    ("long_fields", 5_000, ""),
    ("script_lines", 25_000, ""),
)
IN_THREADS = (
    ("syns", 25_000, "shards=1"),
    ("equal_hashes", 25_000, "shards=1"),
    ("one_byte_pieces", 15, ""),
)
# Where time goes with the square it is four times as much; a run beside other work may take a quarter longer than another.
MOST = 2.6


def records(capture):
    """How many records the capture has. It is not read whole, since what this process had at most a run is told too."""
    count = 0
    with open(capture, "rb") as file:
        file.seek(24)
        while head := file.read(16):
            file.seek(int.from_bytes(head[8:12], "little"), 1)
            count += 1
    return count


@dataclass
class Growth:
    """What a capture costs and what twice as much of it does, which has so many more records."""
    once: measure.Cost
    twice: measure.Cost
    more: int

    def times(self):
        """How many times as much the second takes of the processor's time, by the median run and by the quickest."""
        return self.twice.seconds / self.once.seconds, min(self.twice.times) / min(self.once.times)

    def memory(self):
        """How many times as much memory the second takes."""
        return self.twice.memory / self.once.memory

    def row(self):
        """The row's columns."""
        later = (self.twice.seconds - self.once.seconds) / self.more * 1e6
        return (f"{self.once.seconds:.3f} | {self.twice.seconds:.3f} | {self.times()[0]:.2f} | {later:.1f}"
                f" | {self.once.memory / 2**20:.0f} | {self.twice.memory / 2**20:.0f} | {self.memory():.2f}")


def growth(command, kind, number, words):
    """What so much of a kind costs, and twice as much."""
    with measure.folder() as top:
        once, twice = top / "once", top / "twice"
        for place, count in ((once, number), (twice, 2 * number)):
            measure.make(place, kind, count, *words)
            if command[1] == "run":
                # Several wait for each other by giving up the processor, the more often the busier the machine is.
                measure.set_instances(place, 1)
        found = measure.costs({place.name: (command, place) for place in (once, twice)})
        return Growth(found["once"], found["twice"], records(twice / "trace.pcap") - records(once / "trace.pcap"))


def main(*words):
    """Prints the table, and judges it where this is asked for."""
    yoda = measure.program()
    print("| Command | capture | number | once, s | twice, s | twice / once | a record of the second half, µs"
          " | memory once, MB | twice, MB | twice / once |")
    print("|---" * 10 + "|")
    steep = []
    rows = [(measure.PLAIN, row) for row in HOSTILE] + [(measure.RUN, row) for row in IN_THREADS]
    for command, (kind, number, own) in rows:
        if kind == "equal_hashes" and not shutil.which("cc"):
            print(f"| {command[0]} | {kind} | there is no cc" + " |" * 8)
            continue
        found = growth([yoda, *command], kind, number, own.split())
        print(f"| {command[0]} | {kind} | {number:,} | {found.row()} |", flush=True)
        if max(found.times()[1], found.memory()) > MOST:
            steep.append(f"{command[0]} of {kind}")
    if "judge" in words and steep:
        sys.exit(f"growth: more than {MOST} times as much for twice as much: {', '.join(steep)}")


if __name__ == "__main__":
    main(*sys.argv[1:])
