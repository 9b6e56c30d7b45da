"""The script of faults. It grows with the trace: its further lines are for records that were not there before."""
import random

# A crash comes after so many steps at most; where the handling has ended by then, right after it.
STEPS = 6


class Faults:
    """Every so many records one goes to an instance that dies in it and is back halfway to the next. Replica 0, 1, .. fails
    before the record that is named for it."""

    def __init__(self, path, seed, instances, every, failing):
        self.file, self.draws = open(path, "w"), random.Random(seed)
        self.instances, self.every, self.failing = instances, every, failing
        self.crashes, self.next = [], every
        for replica, record in enumerate(failing):
            self.file.write(f"fail {replica} at {record}\n")

    def reach(self, records):
        """Writes the lines for the crashes in a trace of so many records, where they are not yet written."""
        while self.next < records:
            instance, steps = self.draws.randrange(self.instances), self.draws.randint(0, STEPS)
            self.file.write(f"give {self.next} {instance}\ncrash {instance} at {self.next} after {steps}\n")
            self.file.write(f"back {instance} at {self.next + (self.every + 1) // 2}\n")
            self.crashes.append(self.next)
            self.next += self.every
        self.file.flush()

    def happened(self, records):
        """How many crashes and failures came in a trace of so many records."""
        return sum(at < records for at in self.crashes), sum(at < records for at in self.failing)
