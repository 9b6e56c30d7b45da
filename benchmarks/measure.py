"""What the benchmarks have in common: the built program, a folder of their own, captures, and what runs cost.

A cost is the processor's time, user and system, as the median of five runs in turns with the other commands, and the most
memory that a run took. This process makes no capture itself and so stays small: no run is told its memory."""
import contextlib
import os
import pathlib
import shutil
import statistics
import subprocess
import sys
import tempfile

RUNS = 5
TOP = pathlib.Path(__file__).resolve().parent.parent
PLAIN = ["plain", "rules.toml", "trace.pcap", "script.txt", "out.pcap", "report.txt"]
RUN = ["run", "rules.toml", "trace.pcap", "script.txt", "out.pcap", "report.txt", "journal.txt"]


class Cost:
    """What the runs of a command took: seconds of the processor, and bytes of memory."""

    def __init__(self):
        self.times, self.memory = [], 0

    def add(self, usage):
        self.times.append(usage.ru_utime + usage.ru_stime)
        self.memory = max(self.memory, usage.ru_maxrss * 1024)

    @property
    def seconds(self):
        return statistics.median(self.times)


def run(command, folder="."):
    """Runs the command once, a list of words, and answers what it used."""
    child = subprocess.Popen(command, cwd=folder, stdout=subprocess.DEVNULL, stderr=subprocess.DEVNULL)
    _, status, usage = os.wait4(child.pid, 0)
    if status:
        sys.exit(f"{' '.join(command)} ended with {status}")
    return usage


def costs(commands):
    """What each of these commands costs, by name, each with the folder that it runs in."""
    found = {name: Cost() for name in commands}
    for _ in range(RUNS):
        for name, (command, folder) in commands.items():
            found[name].add(run(command, folder))
    return found


def program(*tools):
    """The built program; a benchmark ends here where one of the tools is missing."""
    for tool in tools:
        if not shutil.which(tool):
            sys.exit(f"{pathlib.Path(sys.argv[0]).name}: there is no {tool}")
    if given := os.environ.get("YODA"):
        return given
    built = subprocess.run(["bash", "-c", '. "$1/tests/program.bash" && program "$1"', "bash", TOP], check=False)
    if built.returncode:
        sys.exit(built.returncode)
    return str(TOP / "crates/yoda/out/yoda")


@contextlib.contextmanager
def folder():
    """A folder of the benchmark's own, which is gone when it ends."""
    with tempfile.TemporaryDirectory() as name:
        yield pathlib.Path(name)


def make(place, *words):
    """Makes a capture with its rules and script in that place, and answers the capture's file."""
    place.mkdir()
    environment = {**os.environ, "PYTHONPATH": str(TOP / "tests"), "PYTHONDONTWRITEBYTECODE": "1"}
    subprocess.run(
        [sys.executable, TOP / "benchmarks/captures.py", *map(str, words)], cwd=place, env=environment, check=True)
    return place / "trace.pcap"


def set_instances(place, instances):
    """Gives the rules that stand there another number of instances."""
    rules = place / "rules.toml"
    rules.write_text(rules.read_text().replace("instances = 4\n", f"instances = {instances}\n"))
