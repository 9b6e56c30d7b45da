#!/usr/bin/env python3
"""What a segment costs in the generated runs of 100 and of 1,000 flows of 100,000 bytes, the second of which is as large as
any. The numbers of segments are the lengths of the list of all that was sent, at the end of these runs. The figures are kept
in docs/BENCHMARKS.md."""
import measure

SEGMENTS = {"drive 100 100000 3": 29_367, "drive 1000 100000 3": 293_552}


def main():
    yoda = measure.program()
    found = measure.costs({words: ([yoda, *words.split()], ".") for words in SEGMENTS})
    first = next(iter(SEGMENTS))
    print("| Run | segments | s | a segment, µs | to the first's | memory, MB |")
    print("|---|---|---|---|---|---|")
    for words, count in SEGMENTS.items():
        cost = found[words]
        each = cost.seconds / count
        ratio = each / (found[first].seconds / SEGMENTS[first])
        print(f"| `{words}` | {count:,} | {cost.seconds:.2f} | {each * 1e6:.1f} | {ratio:.2f} | {cost.memory / 1e6:.0f} |", flush=True)


if __name__ == "__main__":
    main()
