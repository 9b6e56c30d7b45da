"""Hosts in network namespaces of their own, and the network between them and the balancer, which loses packets."""
import os
import random
import select
import socket
import subprocess

HERE = os.path.dirname(os.path.abspath(__file__))
PACKET_BYTES = 65536
# How long one look for packets waits, and a command has to end.
LOOK_SECONDS, END_SECONDS = 0.05, 5
IN, OUT = 0, 1


class Host:
    """A Python program in a network namespace of its own, and the device by which its packets come and go."""

    def __init__(self, address, service, settings, *program):
        ours, theirs = socket.socketpair()
        words = ["unshare", "--net", "python3", f"{HERE}/host.py", str(theirs.fileno()), address, service, settings]
        self.process = subprocess.Popen(
            [*words, "python3", *program], stdin=subprocess.PIPE, stdout=subprocess.PIPE, pass_fds=[theirs.fileno()])
        theirs.close()
        with ours:
            devices = socket.recv_fds(ours, 16, 1)[1]
        if not devices:
            raise RuntimeError(f"the host {address} has no device")
        self.device, self.address = devices[0], socket.inet_aton(address)
        os.set_blocking(self.device, False)

    def says(self):
        """The next line that the program writes."""
        return self.process.stdout.readline()

    def is_running(self):
        return self.process.poll() is None

    def packets(self):
        """The IPv4 packets that have come out of the device."""
        while True:
            try:
                packet = os.read(self.device, PACKET_BYTES)
            except BlockingIOError:
                return
            if packet[0] >> 4 == 4:
                yield packet

    def end(self):
        """Ends the program with its input, and with it and the device the namespace."""
        try:
            self.process.communicate(timeout=END_SECONDS)
        except subprocess.TimeoutExpired:
            self.process.kill()
        os.close(self.device)


class Network:
    """What lies between the hosts and the balancer. On each way so many in a hundred of the packets are lost, come twice, or
    come late, with the packets of the next look."""

    def __init__(self, hosts, loss, repeat, delay, seed):
        self.loss, self.repeat, self.delay, self.draws = loss, repeat, delay, random.Random(seed)
        self.lost, self.repeated, self.delayed = [0, 0], [0, 0], [0, 0]
        self.late = [[], []]
        self.by_device = {host.device: host for host in hosts}
        self.by_address = {host.address: host for host in hosts}

    def happens(self, percent, count, way):
        """Whether this happens to a packet, which is counted."""
        does = self.draws.random() * 100 < percent
        count[way] += does
        return does

    def through(self, packets, way):
        """The packets that come through now."""
        now, self.late[way] = self.late[way], []
        for packet in packets:
            if self.happens(self.loss, self.lost, way):
                continue
            for _ in range(1 + self.happens(self.repeat, self.repeated, way)):
                (self.late[way] if self.happens(self.delay, self.delayed, way) else now).append(packet)
        return now

    def arrived(self):
        """The packets that have come from the hosts since the last look."""
        ready = select.select(list(self.by_device), [], [], LOOK_SECONDS)[0]
        return self.through([packet for device in ready for packet in self.by_device[device].packets()], IN)

    def send(self, packets):
        """Each packet goes to the host that has its destination address."""
        for packet in self.through(packets, OUT):
            host = self.by_address.get(packet[16:20])
            if host:
                os.write(host.device, packet)
