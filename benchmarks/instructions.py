#!/usr/bin/env python3
"""Instructions a record of `yoda plain` and `yoda dump`, counted by callgrind on 16,384 and on 262,144 records of the same
kind, with as many flows in proportion. The figures are kept in docs/BENCHMARKS.md."""
import re
import subprocess

import measure

SMALL, LARGE = 16_384, 262_144
RECORDS_OF_A_FLOW = 256
DATA = 180


def counted(words, place):
    """How many instructions the command takes."""
    grind = ["valgrind", "--tool=callgrind", "--callgrind-out-file=/dev/null", *words]
    told = subprocess.run(grind, cwd=place, capture_output=True, text=True, check=True).stderr
    return int(re.search(r"Collected : (\d+)", told).group(1))


def main():
    yoda = measure.program("valgrind")
    print(f"| Command | a record of {SMALL:,} | a record of {LARGE:,} | their ratio |")
    print("|---|---|---|---|")
    with measure.folder() as top:
        places = {}
        for count in (SMALL, LARGE):
            places[count] = top / str(count)
            measure.make(places[count], "forwarded", count, f"data={DATA}", f"flows={count // RECORDS_OF_A_FLOW}")
        for name, words in (("plain", measure.PLAIN), ("dump", ["dump", "trace.pcap"])):
            small, large = (counted([yoda, *words], places[count]) / count for count in (SMALL, LARGE))
            print(f"| {name} | {small:,.0f} | {large:,.0f} | {large / small:.2f} |", flush=True)


if __name__ == "__main__":
    main()
