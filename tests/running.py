"""The commands that the scripts run, and how a run of the built program in the current folder ends."""
import os
import signal
from dataclasses import dataclass

PLAIN = "plain rules.toml trace.pcap script.txt out.pcap report.txt"
RUN = "run rules.toml trace.pcap script.txt out.pcap report.txt journal.txt"
DUMP = "dump trace.pcap"
CREATE = os.O_WRONLY | os.O_CREAT | os.O_TRUNC


@dataclass
class Answer:
    """How a run ended."""
    status: int
    """The exit status, or the number of the signal that ended it with a minus."""
    said: bytes
    """What it wrote to standard error."""
    seconds: float
    """The processor's time, user and system."""


class TooLong(Exception):
    """A run had not ended in time."""


def out_of_time(*_):
    """Ends the waiting of `ended`."""
    raise TooLong


def ended(child, seconds):
    """The status and the usage of a child that ends within so many seconds. One that does not is killed."""
    signal.signal(signal.SIGALRM, out_of_time)
    signal.setitimer(signal.ITIMER_REAL, seconds)
    try:
        _, status, usage = os.wait4(child, 0)
    except TooLong:
        os.kill(child, signal.SIGKILL)
        os.wait4(child, 0)
        raise
    finally:
        signal.setitimer(signal.ITIMER_REAL, 0)
    return status, usage


def run(words, seconds, environment):
    """Runs the words; standard output goes into the file `said`, and standard error into `told`."""
    files = [(os.POSIX_SPAWN_OPEN, 1, "said", CREATE, 0o600), (os.POSIX_SPAWN_OPEN, 2, "told", CREATE, 0o600)]
    child = os.posix_spawn(words[0], words, environment, file_actions=files)
    status, usage = ended(child, seconds)
    with open("told", "rb") as told:
        return Answer(os.waitstatus_to_exitcode(status), told.read(), usage.ru_utime + usage.ru_stime)
