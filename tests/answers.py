"""What the program may answer, by the documents: the line of each status, the lines of a report and of a dump, and captures
whose checksums are right."""
import re
import struct

import journal
from wire import total

NUMBER = r"(0|[1-9][0-9]*)"
ADDRESS = rf"{NUMBER}\.{NUMBER}\.{NUMBER}\.{NUMBER}"
USAGE = (
    "usage: plain RULES TRACE SCRIPT OUT REPORT, run RULES TRACE SCRIPT OUT REPORT JOURNAL, drive FLOWS BYTES NUMBER, "
    "dump TRACE")
SAYS = {
    2: re.escape(USAGE),
    3: "read fault: (?P<name>.+)",
    4: "write fault: (?P<name>.+)",
    5: rf"trace refused: (header cut at {NUMBER}|magic [0-9a-f]{{8}}|version {NUMBER}\.{NUMBER}|link {NUMBER}"
       rf"|record cut at {NUMBER}|record too large at {NUMBER})",
    6: rf"rules refused: (syntax|missing .+|form .+|range .+ -?{NUMBER}|extra .*|twice .+|unknown server .+|zero total {NUMBER})",
    7: rf"script refused: line {NUMBER} (form|range|twice|order)",
    8: rf"limit: (rules bytes {NUMBER}|trace bytes {NUMBER}|script bytes {NUMBER}|trace records 262145)",
    9: "no memory",
}
LINES = {status: re.compile(f"yoda: {text}\n", re.DOTALL) for status, text in SAYS.items()}
FRAME = (
    "snapcut|notipv4"
    rf"|badip (short {NUMBER} {NUMBER}|version {NUMBER}|headerlength {NUMBER}|totallength {NUMBER}"
    rf"|sum [0-9a-f]{{4}} [0-9a-f]{{4}}|fragment|protocol {NUMBER})"
    rf"|badtcp (short {NUMBER} {NUMBER}|offset {NUMBER}|sum [0-9a-f]{{4}} [0-9a-f]{{4}}|option {NUMBER})")
ENDED = rf"({FRAME}|notours|odd [0-9a-f]{{2}}|noinstance|nomemory 0)"
HANDLED = (
    "(answered|waiting|letgo|opened|forwarded|turnedaway|unknown|early|storedown|crashed|refused (toolong|badhead|norule)"
    rf"|(held|othernumber|badack|otheropen|nomemory) {NUMBER}|(ahead|asked) {NUMBER} {NUMBER}"
    rf"|portstaken( {ADDRESS}:{NUMBER}){{8}})")
LINE = re.compile(rf"(?P<record>{NUMBER}) (- {ENDED}|{NUMBER} {HANDLED})")
END = re.compile(rf"records (?P<records>{NUMBER}) outs (?P<outs>{NUMBER})")
DUMPED = re.compile(
    rf"(?P<record>{NUMBER}) ({FRAME}"
    rf"|{ADDRESS}:{NUMBER} > {ADDRESS}:{NUMBER} (-|(?=[A-Z])C?E?U?A?P?R?S?F?) {NUMBER} {NUMBER} {NUMBER} {NUMBER})")
SUMMARY = re.compile(
    rf"flows {NUMBER} closed {NUMBER} open {NUMBER} reset {NUMBER}\nto servers {NUMBER}\nto clients {NUMBER}\n")
MOST_KEPT = 262_144


class Wrong(Exception):
    """An answer that the documents do not have."""


def check(holds, text):
    """Says what is wrong where it does not hold."""
    if not holds:
        raise Wrong(text)


def check_line(answer):
    """The status is one of the program's, and the line on standard error is that status's own: its match, if it has one."""
    check(answer.status in (0, *LINES), f"status {answer.status}: {answer.said[:200]!r}")
    if answer.status == 0:
        return check(not answer.said, f"status 0 says {answer.said[:200]!r}")
    found = LINES[answer.status].fullmatch(answer.said.decode())
    check(found, f"status {answer.status} says {answer.said[:200]!r}")
    return found


def lines_of(text, form):
    """The lines of a report or a dump, each of this form and with its record's number."""
    lines = text.decode("ascii").split("\n")
    check(lines.pop() == "", "the last line has no end")
    for number, line in enumerate(lines):
        found = form.fullmatch(line)
        check(found and int(found["record"]) == number, f"line {number}: {line[:200]!r}")
    return lines


def report_of(text):
    """The lines of a report, and how many segments it says were sent."""
    head, _, last = text[:-1].rpartition(b"\n")
    end = END.fullmatch(last.decode("ascii"))
    check(text.endswith(b"\n") and end, f"a report ends with {text[-100:]!r}")
    lines = lines_of(head + b"\n" if head else b"", LINE)
    check(len(lines) == int(end["records"]), "the report counts other records")
    return lines, int(end["outs"])


def check_journal(rules, script, found):
    """The journal of a run agrees with its report."""
    setup = journal.read_setup(rules.decode())
    # The lines of Python's text end at more characters than a script's.
    lines = "\n".join(line for line in script.decode("latin-1").split("\n") if not line.startswith("#"))
    report = journal.read_report(found["report.txt"].decode())
    calls = journal.read_journal(found["journal.txt"].decode(), setup.shards)
    journal.check_run(setup, journal.read_script(lines), report, calls)


def is_right(packet):
    """Both checksums of an IPv4 packet with a TCP segment are right."""
    pseudo = packet[12:20] + struct.pack(">BBH", 0, 6, len(packet) - 20)
    return total(packet[:20]) == 0 and total(pseudo + packet[20:]) == 0


def packets_of(capture):
    """The times and packets of a capture that the program wrote."""
    check(capture[:24] == struct.pack("<IHHiIII", 0xA1B2C3D4, 2, 4, 0, 0, 65535, 101), "a capture begins otherwise")
    found, at = [], 24
    while at < len(capture):
        seconds, fraction, kept, original = struct.unpack_from("<IIII", capture, at)
        packet = capture[at + 16:at + 16 + kept]
        check(len(packet) == kept == original, f"the record at {at} is cut")
        check(packet[:2] == b"\x45\0" and int.from_bytes(packet[2:4], "big") == kept, f"the packet at {at} has another head")
        check(is_right(packet), f"the packet at {at} has a wrong checksum")
        found.append(((seconds, fraction), packet))
        at += 16 + kept
    return found


def refusal_of(capture):
    """Why a capture is refused, in the program's words, or None, and how many records it has before that."""
    if len(capture) < 24:
        return f"header cut at {len(capture)}", 0
    magic = capture[:4].hex()
    order = {"a1b2c3d4": ">", "a1b23c4d": ">", "d4c3b2a1": "<", "4d3cb2a1": "<"}.get(magic)
    if not order:
        return f"magic {magic}", 0
    major, minor, link = struct.unpack_from(f"{order}HH12xI", capture, 4)
    if (major, minor) != (2, 4):
        return f"version {major}.{minor}", 0
    if link not in (1, 101):
        return f"link {link}", 0
    records, at = 0, 24
    while at < len(capture):
        if len(capture) - at < 16:
            return f"record cut at {at}", records
        kept, = struct.unpack_from(f"{order}8xI4x", capture, at)
        if kept > MOST_KEPT:
            return f"record too large at {at}", records
        if len(capture) - at - 16 < kept:
            return f"record cut at {at}", records
        at += 16 + kept
        records += 1
    return None, records
