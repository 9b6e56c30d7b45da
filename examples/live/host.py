"""Becomes a command on a host of its own: python3 host.py SOCKET ADDRESS SERVICE SETTINGS COMMAND ..

It is started in a new network namespace. There it makes a TUN device with the address, through which the service is
reached, hands the device to whoever has the other end of the socket, and becomes the command. SETTINGS are those of the
namespace that are not to be Linux's own, NAME=VALUE with commas between. Namespace and device are gone when the command has
ended and the device is closed."""
import fcntl
import os
import socket
import struct
import subprocess
import sys

TUNSETIFF, IFF_TUN, IFF_NO_PI = 0x400454CA, 0x0001, 0x1000
# So many packets wait in the device while the balancer is at work.
QUEUE = 10000

end, address, service, settings, *command = sys.argv[1:]
for setting in filter(None, settings.split(",")):
    name, value = setting.split("=")
    with open("/proc/sys/" + name.replace(".", "/"), "w") as file:
        file.write(value)
device = os.open("/dev/net/tun", os.O_RDWR)
fcntl.ioctl(device, TUNSETIFF, struct.pack("16sH22x", b"live0", IFF_TUN | IFF_NO_PI))
for words in (
    "link set lo up", f"address add {address}/32 dev live0", f"link set live0 txqueuelen {QUEUE} up",
    f"route add {service}/32 dev live0",
):
    subprocess.run(["ip", *words.split()], check=True)
with socket.socket(fileno=int(end)) as other:
    socket.send_fds(other, [b"device"], [device])
os.execvp(command[0], command)
