"""Runs the program once for each allocation that it makes, and refuses this one; then once more each, and refuses it and all
behind it.

Usage: refused.py PROGRAM LIBRARY [ROW ..]. The library is built from refuse.c. Each run answers the status for want of
memory, and has started no output then; or it is done, with the outputs of a run with ample memory, or with lines `nomemory`
in the report. It prints how many runs each row has, and how they ended."""
import itertools
import multiprocessing
import os
import shutil
import sys
import tempfile
from collections import Counter
from dataclasses import dataclass
from functools import partial
from pathlib import Path

from answers import Wrong, check, check_journal, check_line, packets_of, report_of
from running import PLAIN, RUN, run
from wire import ACK, FIN, HEAD, OPTIONS, PSH, Flow, write_capture

TOP = Path(__file__).resolve().parent.parent
TAKEOVER = TOP / "examples/takeover"
SECONDS = 60
OUTPUTS = ("out.pcap", "report.txt", "journal.txt", "said")
# More runs than allocations, since in threads a run may have a few more than another.
BEYOND = 20


@dataclass(frozen=True)
class Row:
    """A small run: its words, and the files that stand in for an empty script and a whole connection."""
    name: str
    words: str
    script: str = ""
    trace: str = "flow.pcap"

    def is_threaded(self):
        """Whether it is done in threads."""
        return self.words.startswith("run ")


ROWS = (
    Row("plain, a connection", PLAIN),
    Row("plain, a takeover", PLAIN, "takeover.txt", "takeover.pcap"),
    Row("dump, a connection", "dump trace.pcap"),
    Row("run, a connection", RUN),
    Row("run, a takeover", RUN, "takeover.txt", "takeover.pcap"),
    Row("drive, 3 flows", "drive 3 2000 7"),
    Row("drive, 50 flows", "drive 50 20000 7"),
)


def make_inputs(folder):
    """The files of all rows: a whole connection, and the takeover of the examples."""
    flow = Flow((0xC0000207, 40000), 1000, 70000, 4)
    write_capture(folder / "flow.pcap", [
        flow.syn(OPTIONS), flow.client(), flow.client(PSH | ACK, HEAD), flow.syn_ack(bytes.fromhex("020405b4")),
        flow.server(), flow.server(PSH | ACK, bytes(200)), flow.client(), flow.server(FIN | ACK), flow.client(FIN | ACK),
        flow.server(),
    ])
    for name, own in (("rules.toml", "rules.toml"), ("script.txt", "takeover.txt"), ("trace.pcap", "takeover.pcap")):
        shutil.copy(TAKEOVER / name, folder / own)


def begin(row, inputs):
    """Goes to a folder of this process's own with the row's inputs."""
    os.chdir(tempfile.mkdtemp(dir=inputs))
    shutil.copy(inputs / "rules.toml", "rules.toml")
    shutil.copy(inputs / row.trace, "trace.pcap")
    Path("script.txt").write_bytes((inputs / row.script).read_bytes() if row.script else b"")


def outputs():
    """What each output holds that was started."""
    return {name: Path(name).read_bytes() for name in OUTPUTS if os.path.exists(name)}


def refuse(program, library, row, number, on):
    """Runs the row with this allocation refused: the answer, what it left, and how many allocations there were."""
    for name in OUTPUTS:
        Path(name).unlink(missing_ok=True)
    Path("count").write_bytes(bytes(8))
    environment = {"LD_PRELOAD": library, "REFUSE_COUNT": "count", "REFUSE": str(number)} | ({"REFUSE_ON": "1"} if on else {})
    answer = run([program, *row.words.split()], SECONDS, environment)
    return answer, outputs(), int.from_bytes(Path("count").read_bytes(), sys.byteorder)


def check_refused_lines(row, found, whole):
    """A report with lines `nomemory`: as many segments are sent as it says. On one thread the lines before the first are those
    of a run with ample memory, and so is what is sent for them."""
    lines, outs = report_of(found["report.txt"])
    packets = packets_of(found["out.pcap"])
    check(len(packets) == outs, f"{len(packets)} segments are sent of {outs}")
    if not row.is_threaded():
        first = next(n for n, line in enumerate(lines) if " nomemory " in line)
        check(lines[:first] == report_of(whole["report.txt"])[0][:first], "the lines before are others")
        check(sent_before(first, packets) == sent_before(first, packets_of(whole["out.pcap"])), "what was sent before is another")


def sent_before(record, packets):
    """The packets of the records before this one, by their times, which are a millisecond apart."""
    return [packet for packet in packets if packet[0] < (record // 1000, record % 1000 * 1000)]


def kind_of(row, whole, answer, found):
    """How the run ended, in a word; it fails where it may not end so."""
    check_line(answer)
    if answer.status == 9:
        check(found.keys() == {"said"} and not found["said"], f"status 9 has started {found.keys()}")
        return "status 9"
    check(answer.status == 0, f"status {answer.status}: {answer.said!r}")
    check(found.keys() == whole.keys(), f"only {found.keys()} are there")
    if row.is_threaded():
        check_journal(Path("rules.toml").read_bytes(), Path("script.txt").read_bytes(), found)
    if b" nomemory " in found.get("report.txt", b""):
        check_refused_lines(row, found, whole)
        return "lines nomemory"
    # Which of two instances comes first is left to the threads, so of a run in threads its own journal is the judge.
    check(row.is_threaded() or found == whole, "the outputs are others, and memory was refused to no record")
    return "the row itself"


def judge(program, library, row, whole, on, number):
    """How the run ended in which this allocation was refused, None where it had fewer."""
    answer, found, count = refuse(program, library, row, number, on)
    try:
        kind = kind_of(row, whole, answer, found)
    except Exception as fault:
        raise Wrong(f"{row.name}: allocation {number}{' and on' if on else ''}: {type(fault).__name__}: {fault}") from None
    return kind if count >= number else None


def allocations(program, library, row):
    """How many allocations the row has with ample memory, the most of several runs, and what it leaves."""
    counts = []
    for _ in range(10 if row.is_threaded() else 2):
        answer, whole, count = refuse(program, library, row, 0, False)
        check_line(answer)
        check(answer.status == 0, f"{row.name} ends with {answer.status}")
        counts.append(count)
    check(row.is_threaded() or len(set(counts)) == 1, f"{row.name}: the number of allocations differs")
    return max(counts), whole


def refuse_all(program, library, row, inputs, on):
    """Refuses each allocation of the row in turn: how many there are, and how the runs ended."""
    begin(row, inputs)
    most, whole = allocations(program, library, row)
    numbers = range(1, most + 1 + BEYOND)
    with multiprocessing.Pool(initializer=begin, initargs=(row, inputs)) as pool:
        kinds = pool.map(partial(judge, program, library, row, whole, on), numbers, chunksize=16)
    check(row.is_threaded() or kinds.index(None) == most, f"{row.name}: an allocation was not refused")
    check(kinds[-1] is None, f"{row.name}: there are more allocations")
    return sum(kind is not None for kind in kinds), Counter(kind for kind in kinds if kind)


def refuse_rows(program, library, rows):
    """Refuses each allocation of these rows, and prints how the runs ended: how many there were."""
    kinds = ("status 9", "lines nomemory", "the row itself")
    print("| Row | refused | runs |", " | ".join(kinds), "|")
    print("|---" * 6 + "|")
    runs = 0
    with tempfile.TemporaryDirectory() as name:
        make_inputs(Path(name))
        for row, on in itertools.product(rows, (False, True)):
            count, found = refuse_all(program, library, row, Path(name), on)
            runs += count
            told = " | ".join(f"{found[kind]:,}" for kind in kinds)
            print(f"| {row.name} | {'that one and all behind it' if on else 'that one'} | {count:,} | {told} |", flush=True)
        os.chdir("/")
    return runs


def main(program, library, *names):
    """Refuses each allocation of the rows with these names, or of all, or says which run is wrong."""
    try:
        runs = refuse_rows(program, library, [row for row in ROWS if not names or row.name in names])
    except Wrong as wrong:
        sys.exit(f"refused: {wrong}")
    print(f"refused: {runs:,} runs, and each ended as it may")


if __name__ == "__main__":
    main(*sys.argv[1:])
