"""Real ends behind `yoda plain`: live.py [OPTION ..] PROGRAM FOLDER. docs/LIVE.md has the options."""
import argparse
import os
import signal
import sys
import time
import tomllib

HERE = os.path.dirname(os.path.abspath(__file__))
sys.path.insert(0, os.path.join(HERE, "..", "..", "tools"))
from balancer import Balancer
from bodies import body
from faults import Faults
from network import IN, OUT, Host, Network

CLIENT = "192.0.2.1"
# The run ends with so many records at the latest; a trace has 262,144 at most.
MOST_RECORDS = 200000


def words():
    parser = argparse.ArgumentParser()
    numbers = {"downloads": 30, "uploads": 30, "bytes": 100000, "every": 20, "seed": 1, "seconds": 240}
    for name, value in numbers.items():
        parser.add_argument(f"--{name}", type=int, default=value)
    for name, value in {"loss": 2, "repeat": 0, "delay": 0}.items():
        parser.add_argument(f"--{name}", type=float, default=value)
    parser.add_argument("--fail", type=int, nargs="*", default=[300, 1500])
    parser.add_argument("--set", action="append", default=[])
    parser.add_argument("program")
    parser.add_argument("folder")
    return parser.parse_args()


def carry(network, balancer, client, seconds):
    """Carries packets until the clients have ended. While `plain` runs, the next packets gather in the devices, so that the
    batches grow with the time that a run takes."""
    end = time.monotonic() + seconds
    while client.is_running() and time.monotonic() < end and balancer.records < MOST_RECORDS:
        arrived = network.arrived()
        network.send(balancer.take(arrived) if arrived else [])


def join(asked, rules, balancer):
    """Joins the clients and the servers through the balancer, until the clients have ended, by the network that it answers."""
    service, hosts = rules["service"]["address"], []
    settings = ",".join(asked.set)
    try:
        for server in rules["server"]:
            address = server["address"]
            hosts.append(Host(address, service, settings, f"{HERE}/server.py", address, str(server["port"]), asked.folder))
        for host in hosts:
            host.says()
        sizes = map(str, (asked.downloads, asked.uploads, asked.bytes, asked.seconds))
        client = Host(CLIENT, service, settings, f"{HERE}/client.py", service, *sizes, asked.folder)
        hosts.append(client)
        network = Network(hosts, asked.loss, asked.repeat, asked.delay, asked.seed)
        carry(network, balancer, client, asked.seconds)
        return network
    finally:
        for host in hosts:
            host.end()


def whole(folder, kind, numbers, size):
    """How many bodies of this kind came through byte for byte."""
    def came(number):
        try:
            with open(f"{folder}/{kind}.{number}", "rb") as file:
                return file.read() == body(number, size)
        except FileNotFoundError:
            return False
    return sum(map(came, numbers))


def main():
    signal.signal(signal.SIGTERM, lambda *_: sys.exit(1))
    asked, begun = words(), time.monotonic()
    with open(f"{HERE}/rules.toml", "rb") as file:
        rules = tomllib.load(file)
    faults = Faults(f"{asked.folder}/script.txt", asked.seed, rules["instances"], asked.every, asked.fail)
    balancer = Balancer(asked.program, f"{HERE}/rules.toml", asked.folder, faults)
    network = join(asked, rules, balancer)
    took = time.monotonic() - begun
    downs, ups = range(asked.downloads), range(asked.downloads, asked.downloads + asked.uploads)
    came = whole(asked.folder, "download", downs, asked.bytes), whole(asked.folder, "upload", ups, asked.bytes)
    crashes, failures = faults.happened(balancer.records)
    print(f"downloads whole: {came[0]} of {len(downs)}, uploads whole: {came[1]} of {len(ups)}, of {asked.bytes} bytes each")
    print(f"crashes: {crashes}, of which {balancer.verdicts('crashed')} broke a handling off; replicas failed: {failures}")
    for what, count in ("lost", network.lost), ("repeated", network.repeated), ("delayed", network.delayed):
        if any(count):
            print(f"packets {what}: {count[IN]} on the way in, {count[OUT]} on the way out")
    print(f"records: {balancer.records}, in {balancer.runs} runs of plain, each of which began with the one before it")
    print(f"seconds: {took:.1f}, of which plain ran {balancer.seconds:.1f}")
    return came != (len(downs), len(ups))


if __name__ == "__main__":
    sys.exit(main())
