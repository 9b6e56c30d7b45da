"""A web server with a thread for each connection: python3 server.py ADDRESS PORT FOLDER

GET /download/N/SIZE answers with body N of this size. PUT /upload/N keeps what it is sent as FOLDER/upload.N. It says when
it listens, and ends with its input."""
import http.server
import sys
import threading

from bodies import body


class Server(http.server.ThreadingHTTPServer):
    request_queue_size = 256


class Handler(http.server.BaseHTTPRequestHandler):
    protocol_version = "HTTP/1.1"

    def answer(self, data):
        self.send_response(200)
        self.send_header("Content-Length", str(len(data)))
        self.end_headers()
        self.wfile.write(data)

    def do_GET(self):
        number, size = self.path.split("/")[2:]
        self.answer(body(int(number), int(size)))

    def do_PUT(self):
        number = int(self.path.split("/")[2])
        data = self.rfile.read(int(self.headers["Content-Length"]))
        with open(f"{folder}/upload.{number}", "wb") as file:
            file.write(data)
        self.answer(b"kept\n")

    def log_message(self, *words):
        pass


address, port, folder = sys.argv[1:]
server = Server((address, int(port)), Handler)
threading.Thread(target=server.serve_forever, daemon=True).start()
print("listening", flush=True)
sys.stdin.read()
