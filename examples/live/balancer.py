"""The balancer: `yoda plain` is run anew over a trace that grows, and what is new in its capture is sent.

That a longer run begins with the shorter one is proved (`plain_run::longer_runs`). It is looked at here again: a capture or
a report that is not begun by the one before it ends the run."""
import subprocess
import time

import packets


class Balancer:
    def __init__(self, program, rules, folder, faults):
        self.names = [rules, *(f"{folder}/{name}" for name in ("trace.pcap", "script.txt", "out.pcap", "report.txt"))]
        self.program, self.faults = program, faults
        self.trace = open(self.names[1], "wb")
        self.header = packets.capture([])
        self.trace.write(self.header)
        self.out, self.lines = self.header, b""
        self.records = self.runs = 0
        self.seconds = 0.0

    def take(self, arrived):
        """Adds these packets to the trace, and answers those that are sent for them."""
        now = time.time()
        stamp = (int(now), int(now % 1 * 1000000))
        self.trace.write(packets.capture([(stamp, packet) for packet in arrived])[len(self.header):])
        self.trace.flush()
        self.records += len(arrived)
        self.faults.reach(self.records)
        return self.run()

    def run(self):
        begun = time.monotonic()
        subprocess.run([self.program, "plain", *self.names], check=True)
        self.runs, self.seconds = self.runs + 1, self.seconds + time.monotonic() - begun
        with open(self.names[3], "rb") as out, open(self.names[4], "rb") as report:
            sent, lines = out.read(), report.read()
        # The report's last line counts.
        lines = lines[:lines.rindex(b"records ")]
        if not (sent.startswith(self.out) and lines.startswith(self.lines)):
            raise RuntimeError("a longer run does not begin with the shorter one")
        new, self.out, self.lines = sent[len(self.out):], sent, lines
        return [frame.packet for frame in packets.frames(self.header + new)]

    def verdicts(self, verdict):
        """How many records have this verdict so far."""
        return sum(line.split()[2:3] == [verdict.encode()] for line in self.lines.splitlines())
