"""Checks a journal against the report of its run, by the rules of docs/THREADS.md, without the handling table.

Usage: journal.py RULES SCRIPT REPORT JOURNAL. It says what disagrees, and ends with 1 then. As a module it also replays the
asks of SYNs from a journal."""
import re
import sys
import tomllib
from dataclasses import dataclass, field

CALLS = {"take": 2, "step": 1, "crash": 1, "fail": 1}
STEPS_PER_COPY = 11


class Disagreement(Exception):
    """What a journal and a report do not agree on."""


def check(holds, text):
    if not holds:
        raise Disagreement(text)


@dataclass
class Setup:
    instances: int
    replicas: int
    copies: int
    shards: int

    def places(self, shard, replica):
        return [place for place in range(self.copies) if (shard + place) % self.replicas == replica]


@dataclass
class Script:
    crashes: dict = field(default_factory=dict)
    """The steps after which an instance crashes in a record, by both numbers."""
    fails: dict = field(default_factory=dict)
    """The record before which a replica fails, by the replica."""


@dataclass
class Handling:
    instance: int
    record: int
    shard: int
    steps: int = 0
    crashed: bool = False


def read_setup(text):
    rules = tomllib.loads(text)
    return Setup(*(rules[name] for name in ("instances", "replicas", "copies", "shards")))


def read_script(text):
    script = Script()
    for line in text.splitlines():
        match line.split("#")[0].split():
            case ["crash", instance, "at", record, "after", steps]:
                script.crashes[int(instance), int(record)] = int(steps)
            case ["fail", replica, "at", record]:
                script.fails[int(replica)] = int(record)
    return script


def read_report(text):
    """The instance, or None, and the verdict of each record."""
    *lines, last = text.splitlines()
    report = []
    for number, line in enumerate(lines):
        record, instance, verdict = line.split(" ", 2)
        check(int(record) == number, f"line {number} of the report is of record {record}")
        report.append((None if instance == "-" else int(instance), verdict))
    check(last.split()[:2] == ["records", str(len(report))], "the report's last line counts other records")
    return report


def read_journal(text, shards):
    """The calls of each shard, each a word and its numbers."""
    check(text.endswith("\n"), "the journal does not end with a line feed")
    journal = []
    for line in text[:-1].split("\n"):
        word, *numbers = line.split(" ")
        check(all(re.fullmatch("0|[1-9][0-9]*", number) for number in numbers), f"the line {line!r}")
        if word == "shard":
            check(numbers == [str(len(journal))], f"the head {line!r} behind {len(journal)} shards")
            journal.append([])
        else:
            check(journal and CALLS.get(word) == len(numbers), f"the line {line!r}")
            journal[-1].append((word, *map(int, numbers)))
    check(len(journal) == shards, f"{len(journal)} shards of {shards}")
    return journal


def handlings_of(journal, setup):
    """The handlings of all shards, by their records: a step stands behind a take of its instance, no crash between."""
    found = {}
    for shard, calls in enumerate(journal):
        current, latest = {}, {}
        for word, number, *record in calls:
            if word == "fail":
                check(number < setup.copies, f"place {number} of shard {shard}")
                continue
            check(number < setup.instances, f"instance {number} on shard {shard}")
            if word == "take":
                check(record[0] not in found, f"record {record[0]} is taken twice")
                check(latest.get(number, -1) < record[0], f"record {record[0]} is taken late on shard {shard}")
                latest[number] = record[0]
                current[number] = found[record[0]] = Handling(number, record[0], shard)
            elif word == "step":
                check(number in current, f"instance {number} makes a step on shard {shard} and handles nothing")
                current[number].steps += 1
            elif number in current:
                current.pop(number).crashed = True
    return found


def check_lines(report, handlings, script, setup):
    """A record has an instance where it is taken; a crash cuts where the script has it so."""
    check(all(record < len(report) for record in handlings), "a record is taken that is not there")
    for record, (instance, verdict) in enumerate(report):
        handling = handlings.get(record)
        if handling is None:
            check(instance is None or verdict == "nomemory 0", f"record {record} is handled, and nobody took it")
            continue
        check(handling.instance == instance, f"record {record} is taken by instance {handling.instance}")
        check(handling.steps <= STEPS_PER_COPY * setup.copies, f"record {record} has {handling.steps} steps")
        after = script.crashes.get((instance, record))
        if verdict == "crashed":
            check(after is not None and handling.crashed, f"record {record} crashed, and no line or call says so")
            check(handling.steps == after, f"record {record} crashed after {handling.steps} steps")
        if verdict.startswith("nomemory "):
            check(handling.steps + 1 == int(verdict.split()[1]), f"record {record} had {handling.steps + 1} calls")


def check_script(journal, report, script, setup):
    """Each crash and each failure that is reached has its calls on each shard, and no other has."""
    crashes = [instance for instance, record in script.crashes if record < len(report)]
    failing = [replica for replica, record in script.fails.items() if record < len(report)]
    for shard, calls in enumerate(journal):
        made = sorted(call[1] for call in calls if call[0] == "crash")
        check(made == sorted(crashes), f"shard {shard} has crashes of {made}")
        failed = sorted(call[1] for call in calls if call[0] == "fail")
        wanted = sorted(place for replica in failing for place in setup.places(shard, replica))
        check(failed == wanted, f"shard {shard} has failures at {failed}")


def check_run(setup, script, report, journal):
    handlings = handlings_of(journal, setup)
    check_lines(report, handlings, script, setup)
    check_script(journal, report, script, setup)
    return handlings


def replay_syns(setup, calls, syns):
    """The verdicts of the SYNs that one shard handles, by its calls. `syns` has the client's end and number of a record."""
    cells = [{} for _ in range(setup.copies)]
    jobs, verdicts = {}, {}
    for word, number, *record in calls:
        if word == "take":
            jobs[number] = [record[0], 0, syns[record[0]][1], False]
        elif word == "crash":
            jobs.pop(number, None)
        elif word == "fail":
            cells[number] = None
        else:
            record, place, carried, met = job = jobs[number]
            client, own = syns[record]
            if cells[place] is not None:
                job[2], job[3] = cells[place].setdefault(client, carried), True
            job[1] += 1
            if job[1] == setup.copies:
                _, _, decided, met = jobs.pop(number)
                verdicts[record] = "storedown" if not met else "answered" if decided == own else f"othernumber {decided}"
    return verdicts


def main(names):
    rules, script, report, journal = (open(name).read() for name in names)
    setup = read_setup(rules)
    try:
        check_run(setup, read_script(script), read_report(report), read_journal(journal, setup.shards))
    except Disagreement as disagreement:
        sys.exit(f"journal: {disagreement}")
    print("journal: it agrees with the report")


if __name__ == "__main__":
    main(sys.argv[1:])
