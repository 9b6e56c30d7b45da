#!/usr/bin/env python3
"""`yoda dump` beside `tcpdump -nr`, on captures of forwarded traffic. The figures are kept in docs/BENCHMARKS.md."""
import measure

CAPTURES = "data=196", "data=196 flows=10000", "data=0", "data=1400"
MOST = 262_144


def main():
    yoda = measure.program("tcpdump")
    print("| Capture | dump, s | tcpdump, s | dump / tcpdump | memory / capture |")
    print("|---|---|---|---|---|")
    for words in CAPTURES:
        with measure.folder() as top:
            place = top / "made"
            capture = measure.make(place, "forwarded", MOST, *words.split())
            size = capture.stat().st_size
            found = measure.costs({
                "dump": ([yoda, "dump", "trace.pcap"], place), "tcpdump": (["tcpdump", "-nr", "trace.pcap"], place)})
            dump, other = found["dump"], found["tcpdump"]
            print(f"| {words} | {dump.seconds:.3f} | {other.seconds:.3f} | {dump.seconds / other.seconds:.2f}"
                  f" | {dump.memory / size:.2f} |", flush=True)


if __name__ == "__main__":
    main()
