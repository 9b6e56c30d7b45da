"""Runs one small capture in threads so many times, and checks each report against its own journal.

Usage: thousand.py PROGRAM RUNS. Each of eight clients sends two SYNs with different numbers, which two instances handle: the
SYN whose record is put first is answered, and the other is not. So the schedule decides, and a journal tells how."""
import subprocess
import sys
from pathlib import Path

from journal import check, check_run, read_journal, read_report, read_script, read_setup, replay_syns
from wire import SERVICE, SYN, SECRET, packet, write_capture

CLIENTS = 8
INSTANCES = 4
SCRIPT = "crash 3 at 14 after 1\nfail 1 at 6\n"
RULES = (
    f'instances = {INSTANCES}\nreplicas = 3\ncopies = 3\nshards = 2\nsecret = "{SECRET.hex()}"\n'
    '[service]\nnumber = 0\naddress = "198.51.100.10"\nport = 80\n'
    '[[server]]\nname = "a"\naddress = "10.0.0.1"\nport = 8080\n'
    '[[rule]]\nto = ["a"]\nweights = [1]\n'
)


def make_files():
    """The SYNs as (end, number), each given to an instance, and the files of a run over them."""
    syns = [((0xC0000201, 40000 + n % CLIENTS), 1000 + n) for n in range(2 * CLIENTS)]
    gives = "".join(f"give {n} {(n + n // CLIENTS) % INSTANCES}\n" for n in range(2 * CLIENTS))
    Path("rules.toml").write_text(RULES)
    Path("script.txt").write_text(gives + SCRIPT)
    write_capture("trace.pcap", [packet(end, SERVICE, number, 0, SYN) for end, number in syns])
    return syns


def replayed(setup, syns, handlings, journal):
    """The verdict of each record that was handled, by the replay of its shard."""
    verdicts = {}
    for calls in journal:
        verdicts |= replay_syns(setup, calls, syns)
    return {record: verdicts.get(record, "crashed") for record in handlings}


program, runs = sys.argv[1], int(sys.argv[2])
syns = make_files()
setup, script = read_setup(RULES), read_script(Path("script.txt").read_text())
journals, reports = set(), set()
for _ in range(runs):
    command = [program, "run", "rules.toml", "trace.pcap", "script.txt", "out.pcap", "report.txt", "journal.txt"]
    subprocess.run(command, check=True)
    told, text = Path("report.txt").read_text(), Path("journal.txt").read_text()
    report, journal = read_report(told), read_journal(text, setup.shards)
    handlings = check_run(setup, script, report, journal)
    for record, verdict in replayed(setup, syns, handlings, journal).items():
        check(report[record][1] == verdict, f"record {record}: {report[record][1]}, and its replay {verdict}")
    journals.add(text)
    reports.add(told)
check(len(journals) > 1, "all runs have one journal")
print(f"thousand: {runs} runs, {len(journals)} journals, {len(reports)} reports; each report is its own journal's")
