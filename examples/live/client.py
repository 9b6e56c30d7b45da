"""Clients, all at once: python3 client.py SERVICE DOWNLOADS UPLOADS SIZE SECONDS FOLDER

Each is a curl with a connection of its own, from a port of its own. Downloads are kept as FOLDER/download.N; a curl that
does not end well, or in time, leaves what it has. All end with the input."""
import subprocess
import sys
import threading

from bodies import body

FIRST_PORT = 40000

service, downloads, uploads, size, seconds, folder = sys.argv[1:]
curl = ["curl", "--disable", "--noproxy", "*", "--silent", "--show-error", "--fail", "--max-time", seconds, "--header", "Expect:"]
clients = []
for number in range(int(downloads)):
    target = f"http://{service}/download/{number}/{size}"
    clients.append([*curl, "--output", f"{folder}/download.{number}", target])
for number in range(int(downloads), int(downloads) + int(uploads)):
    with open(f"{folder}/own.{number}", "wb") as file:
        file.write(body(number, int(size)))
    clients.append([*curl, "--output", "/dev/null", "--upload-file", f"{folder}/own.{number}", f"http://{service}/upload/{number}"])
running = [
    subprocess.Popen([*words, "--local-port", str(FIRST_PORT + place)], stdin=subprocess.DEVNULL)
    for place, words in enumerate(clients)
]


def stop():
    sys.stdin.read()
    for process in running:
        process.terminate()


threading.Thread(target=stop, daemon=True).start()
for process in running:
    process.wait()
