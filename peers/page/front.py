"""Serves `pages/desk.html` in front of a desk that runs, so that a changed page is tried without building the program.
All else is the desk's.

    python3 peers/page/front.py http://127.0.0.1:8080 [--port 8081]
"""

import argparse
import http.client
import threading
from http.server import BaseHTTPRequestHandler, ThreadingHTTPServer
from pathlib import Path
from urllib.parse import urlsplit

PAGE = Path(__file__).resolve().parents[2] / "pages" / "desk.html"
ANSWER_FIELDS = ("Content-Type", "Dispatch-Run", "Cache-Control")


class Handler(BaseHTTPRequestHandler):
    """One request, which goes on to the desk unless it asks for the page."""

    def log_message(self, *words):
        pass

    def do_GET(self):
        if self.path == "/":
            self.begin(200, {"Content-Type": "text/html; charset=utf-8", "Cache-Control": "no-store"})
            self.wfile.write(PAGE.read_bytes())
        else:
            self.pass_on()

    def do_POST(self):
        self.pass_on()

    def begin(self, status, fields):
        self.send_response(status)
        for name, value in fields.items():
            self.send_header(name, value)
        self.end_headers()

    def pass_on(self):
        desk = http.client.HTTPConnection(self.server.desk)
        fields = {name: value for name, value in self.headers.items() if name not in ("Host", "Connection")}
        if "Origin" in fields:
            fields["Origin"] = f"http://{self.server.desk}"
        try:
            body = self.rfile.read(int(self.headers.get("Content-Length", 0))) or None
            desk.request(self.command, self.path, body, {"Host": self.server.desk, **fields})
            answer = desk.getresponse()
            self.begin(answer.status, {name: value for name, value in answer.getheaders() if name in ANSWER_FIELDS})
            while piece := answer.read1(65536):
                self.wfile.write(piece)
        except (OSError, http.client.HTTPException):
            pass
        finally:
            desk.close()


class Front(ThreadingHTTPServer):
    """The front of a desk, on a port of this machine: any free one where 0 is asked for."""

    daemon_threads = True

    def __init__(self, base, port=0):
        super().__init__(("127.0.0.1", port), Handler)
        self.desk = urlsplit(base).netloc
        self.base = f"http://127.0.0.1:{self.server_port}"
        threading.Thread(target=self.serve_forever, daemon=True).start()


def main():
    words = argparse.ArgumentParser(description=__doc__, formatter_class=argparse.RawDescriptionHelpFormatter)
    words.add_argument("desk")
    words.add_argument("--port", type=int, default=8081)
    asked = words.parse_args()
    front = Front(asked.desk, asked.port)
    print(f"the page is at {front.base}", flush=True)
    try:
        threading.Event().wait()
    except KeyboardInterrupt:
        pass


if __name__ == "__main__":
    main()
