"""Runs the program on hostile cases, under a limit of time and of memory, and checks each answer.

Usage: attack.py PROGRAM NUMBER CASES [FIRST]. No run may end by a signal or come to a limit; each status has its line; a
capture is refused exactly where it is none; a command that is done has a line for each record, right checksums in what it
sends, and in threads a journal that agrees with its report; one that is not has started no output. It prints how the runs
ended, by command, and which verdicts there were. `hostile.py NUMBER CASE` makes the files of a case again."""
import contextlib
import multiprocessing
import os
import resource
import sys
import tempfile
import tomllib
from collections import Counter
from functools import partial
from pathlib import Path

from answers import DUMPED, SUMMARY, Wrong, check, check_journal, check_line, lines_of, packets_of, refusal_of, report_of
from hostile import Maker
from running import DUMP, PLAIN, RUN, run

SECONDS, MEGABYTES = 10, 256
OUTPUTS = ("out.pcap", "report.txt", "journal.txt")
COMMANDS = {PLAIN: OUTPUTS[:2], RUN: OUTPUTS, DUMP: ()}
LIMITS = {"rules.toml": 1_048_576, "trace.pcap": 67_108_864, "script.txt": 1_048_576}
AT_ONCE = 100


def limit_of(command):
    """What the command says of its first input that is above its limit, or None."""
    for name, most in LIMITS.items():
        size = os.path.getsize(name)
        if name in command.split() and size > most:
            return f"limit: {name.split('.')[0]} bytes {size}"
    return None


def judged(case, command, answer):
    """Inputs are refused exactly where they are too large, or the trace is no capture, in this order: how many records it has,
    and None where something ends the command before they count."""
    if answer.status == 9:
        return None
    check(answer.status not in (2, 3, 4), f"right words and open files, and status {answer.status}")
    refusal, records = refusal_of(case.trace)
    wanted = limit_of(command) or refusal and f"trace refused: {refusal}"
    if wanted:
        check(answer.said.decode() == f"yoda: {wanted}\n", f"{wanted}, and it says {answer.said!r}")
        return None
    check(answer.status not in (5, 8), f"a right trace is refused: {answer.said!r}")
    return records


def check_run(case, records, found):
    """What `plain` or `run` leaves: the verdicts of its report."""
    lines, outs = report_of(found["report.txt"])
    check(len(lines) == records, f"{len(lines)} lines of {records} records")
    check(len(packets_of(found["out.pcap"])) == outs, f"the report tells {outs} segments, and the capture has others")
    if "journal.txt" in found:
        # Python reads an older TOML than the program.
        with contextlib.suppress(tomllib.TOMLDecodeError):
            check_journal(case.rules, case.script, found)
    return [line.split(" ", 2)[2] for line in lines]


def check_done(case, command, records, found, said):
    """What a command that is done leaves: the verdicts that it tells."""
    if command == DUMP:
        check(len(lines_of(said, DUMPED)) == records, "the dump has other records")
        return []
    check(found.keys() == set(COMMANDS[command]) and not said, f"it leaves {found.keys()} and {said[:100]!r}")
    return check_run(case, records, found)


def check_answer(case, command, answer):
    """The command's word for the counts, and the verdicts that it tells."""
    check_line(answer)
    said = Path("said").read_bytes()
    if command not in COMMANDS:
        if case.words[:1] == [b"drive"] and answer.status == 0:
            check(SUMMARY.fullmatch(said.decode()), f"the summary {said[:100]!r}")
        return "other words", []
    found = {name: Path(name).read_bytes() for name in OUTPUTS if os.path.exists(name)}
    records = judged(case, command, answer)
    verdicts = []
    if answer.status == 0:
        verdicts = check_done(case, command, records, found, said)
    else:
        check(not found and not said, f"status {answer.status} has started {found.keys()}")
    return command.split()[0], verdicts


def kind_of(verdict):
    """A verdict without its numbers."""
    first, *others = verdict.split()
    return f"{first} {others[0]}" if first in ("badip", "badtcp", "refused") else first


def attack(program, number, first):
    """Runs some cases: how often each command ended with each status, the verdicts, and the longest time."""
    endings, verdicts, seconds = Counter(), Counter(), 0
    for place in range(first, first + AT_ONCE):
        case = Maker(number, place).case()
        for entry in os.listdir():
            os.unlink(entry)
        case.write()
        try:
            answer = run([program, *case.words], SECONDS, {"MALLOC_ARENA_MAX": "1"})
            command, told = check_answer(case, b" ".join(case.words).decode(errors="replace"), answer)
        except Exception as fault:
            raise Wrong(f"case {place} of the number {number}: {type(fault).__name__}: {fault}") from None
        endings[command, answer.status] += 1
        verdicts.update(map(kind_of, told))
        seconds = max(seconds, answer.seconds)
    return endings, verdicts, seconds


def begin(folder):
    """Goes to a folder of this process's own, and sets the limit of memory for all that it runs."""
    os.chdir(tempfile.mkdtemp(dir=folder))
    resource.setrlimit(resource.RLIMIT_AS, (MEGABYTES * 2**20, resource.RLIM_INFINITY))
    resource.setrlimit(resource.RLIMIT_CORE, (0, 0))


def show(endings, verdicts, seconds):
    """Prints how the runs ended, and what they told."""
    statuses = sorted({status for _, status in endings})
    print("| Command |", " | ".join(f"{status}" for status in statuses), "|")
    print("|---" * (1 + len(statuses)) + "|")
    for command in sorted({command for command, _ in endings}):
        print(f"| {command} |", " | ".join(f"{endings[command, status]:,}" for status in statuses), "|")
    print(", ".join(f"{verdict} {count:,}" for verdict, count in sorted(verdicts.items())))
    print(f"at most {seconds:.2f} seconds of the processor a run, in {MEGABYTES} MB of address space")


def attack_all(program, number, cases):
    """Runs all these cases, side by side: what `attack` answers of them together."""
    endings, verdicts, seconds = Counter(), Counter(), 0
    with tempfile.TemporaryDirectory(dir="/dev/shm" if os.path.isdir("/dev/shm") else None) as folder:
        with multiprocessing.Pool(initializer=begin, initargs=(folder,)) as pool:
            for found in pool.imap_unordered(partial(attack, program, number), cases):
                endings += found[0]
                verdicts += found[1]
                seconds = max(seconds, found[2])
    return endings, verdicts, seconds


def main(program, number, cases, first="0"):
    """Runs so many cases of this number and shows them, or says which of them is wrong."""
    try:
        found = attack_all(program, int(number), range(int(first), int(first) + int(cases), AT_ONCE))
    except Wrong as wrong:
        sys.exit(f"attack: {wrong}")
    show(*found)
    print(f"attack: {sum(found[0].values()):,} cases of the number {number}, and each has its answer")


if __name__ == "__main__":
    main(*sys.argv[1:])
