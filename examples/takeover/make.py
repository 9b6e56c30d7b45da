"""Makes trace.pcap: a client's connection whose instance dies before the server's answer is through. The request is curl's,
as it came to a listening socket; the numbers and the port that the balancer gives are computed from its documents.

Usage, in this folder: PYTHONPATH=../../tests python3 make.py"""
from wire import ACK, FIN, PSH, Flow, write_capture

CLIENT = (0xC0000207, 40000)
# What a SYN of Linux offers: segment size 1460, SACK, timestamps, and windows in units of 128 bytes.
OPTIONS = bytes.fromhex("020405b4 0402 080a 00000001 00000000 01 030307")
SERVER_OPTIONS = bytes.fromhex("020405b4")
ANSWER = b"HTTP/1.1 200 OK\r\nContent-Type: text/plain\r\nContent-Length: 14\r\n\r\nstill a cart.\n"

with open("request.http", "rb") as file:
    request = file.read()
flow = Flow(CLIENT, client_first=1000, server_first=70000, shards=4)
write_capture("trace.pcap", [
    flow.syn(OPTIONS),
    flow.client(),
    flow.client(PSH | ACK, request),
    # The first is taken by an instance that dies; nobody acknowledges it, so the server sends it again.
    flow.syn_ack(SERVER_OPTIONS),
    flow.syn_ack(SERVER_OPTIONS),
    # What the dead instance held of the request is lost and was never acknowledged, so the client sends it again.
    flow.client(PSH | ACK, request, at=1),
    flow.server(),
    flow.server(PSH | ACK, ANSWER),
    flow.client(),
    flow.client(FIN | ACK),
    flow.server(FIN | ACK),
    flow.client(),
])
