#!/usr/bin/env python3
"""`yoda plain` beside `tcprewrite`, which rewrites addresses, ports and checksums, on captures of forwarded traffic. The
frames are Ethernet's, since tcprewrite leaves raw IP as it is. The figures are kept in docs/BENCHMARKS.md."""
import measure

REWRITE = "tcprewrite -i trace.pcap -o other.pcap --srcipmap=0.0.0.0/0:198.51.100.10 --portmap=80:8080 --fixcsum".split()
CAPTURES = (
    "data=196", "data=196 copies=1", "data=196 copies=3", "data=196 copies=8", "data=196 flows=10000 shards=64",
    "data=196 flows=10000", "data=0", "data=0 copies=1", "data=0 copies=8", "data=1400", "data=1400 copies=1", "data=1400 copies=8",
)
MOST = 262_144


def main():
    yoda = measure.program("tcprewrite")
    print("| Capture | plain, s | tcprewrite, s | plain / tcprewrite | memory / capture |")
    print("|---|---|---|---|---|")
    for words in CAPTURES:
        with measure.folder() as top:
            place = top / "made"
            capture = measure.make(place, "forwarded", MOST, *words.split())
            size = capture.stat().st_size
            found = measure.costs({"plain": ([yoda, *measure.PLAIN], place), "tcprewrite": (REWRITE, place)})
            plain, other = found["plain"], found["tcprewrite"]
            print(f"| {words} | {plain.seconds:.3f} | {other.seconds:.3f} | {plain.seconds / other.seconds:.2f}"
                  f" | {plain.memory / size:.2f} |", flush=True)


if __name__ == "__main__":
    main()
