#!/usr/bin/env python3
"""`yoda run` beside `yoda plain` on forwarded traffic of a thousand flows over 64 shards, by the clock: with four
instances and one, three and eight copies of each record, and with sixteen instances. A run in threads takes the time of
several processors at once, so what is compared is how long each takes. Where the variable BEFORE names another program,
its `run` is told too, in the same turns. The figures are kept in docs/BENCHMARKS.md."""
import os
import statistics
import time

import measure

MOST = 262_144
CASES = ((4, 1), (4, 3), (4, 8), (16, 3))


class Taken:
    """How long the runs of a command took, and the most memory of one."""

    def __init__(self):
        self.times, self.memory = [], 0

    def add(self, command, folder):
        start = time.monotonic()
        usage = measure.run(command, folder)
        self.times.append(time.monotonic() - start)
        self.memory = max(self.memory, usage.ru_maxrss * 1024)

    @property
    def seconds(self):
        return statistics.median(self.times)


def main():
    yoda, before = measure.program(), os.environ.get("BEFORE")
    print("| Instances | Copies | plain, s | run, s | run / plain | memory of run / capture | of plain |"
          + (" before, s | run / before |" if before else ""))
    print("|---|---|---|---|---|---|---|" + ("---|---|" if before else ""))
    for instances, copies in CASES:
        with measure.folder() as top:
            place = top / "made"
            capture = measure.make(place, "forwarded", MOST, "data=184", "shards=64", f"copies={copies}")
            measure.set_instances(place, instances)
            size = capture.stat().st_size
            plain, run, was = Taken(), Taken(), Taken()
            for _ in range(measure.RUNS):
                plain.add([yoda, *measure.PLAIN], place)
                run.add([yoda, *measure.RUN], place)
                if before:
                    was.add([before, *measure.RUN], place)
            print(f"| {instances} | {copies} | {plain.seconds:.3f} | {run.seconds:.3f} | {run.seconds / plain.seconds:.2f}"
                  f" | {run.memory / size:.2f} | {plain.memory / size:.2f} |"
                  + (f" {was.seconds:.3f} | {run.seconds / was.seconds:.2f} |" if before else ""), flush=True)


if __name__ == "__main__":
    main()
