"""A member of etcd that loses answers: what stands between a client and a real member."""

import json
import threading
import urllib.request
from contextlib import suppress
from http.server import BaseHTTPRequestHandler, ThreadingHTTPServer
from typing import Any

from bozintar.processes import HOST
from bozintar.words import Address

PATIENCE = 20.0


class Handler(BaseHTTPRequestHandler):
    """A connection of a client."""

    server: "Proxy"
    protocol_version = "HTTP/1.1"

    def do_POST(self) -> None:  # pylint: disable=invalid-name
        """Hands a question on, and its answer back."""
        body = self.rfile.read(int(self.headers["Content-Length"]))
        changes = self.path == "/v3/kv/txn" and any(
            "requestPut" in one for one in json.loads(body).get("success", [])
        )
        answer = self.server.answer(self.path, body)
        if changes and self.server.loses > 0:
            self.server.loses -= 1
            self.close_connection = True
            return
        with suppress(OSError):  # a client that waits no more
            self.send_response(200)
            self.send_header("Content-Length", str(len(answer)))
            self.end_headers()
            self.wfile.write(answer)

    def log_message(self, *_: Any) -> None:
        """Nothing is logged."""


class Proxy(ThreadingHTTPServer):
    """The proxy of a member. It loses the answers to this number of changes."""

    daemon_threads = True

    def __init__(self, member: Address):
        super().__init__((HOST, 0), Handler)
        self.member, self.loses = member, 0
        self.thread = threading.Thread(target=self.serve_forever, daemon=True)
        self.thread.start()

    @property
    def option(self) -> str:
        """Its address."""
        return f"{HOST}:{self.server_address[1]}"

    def answer(self, path: str, body: bytes) -> bytes:
        """The member's answer."""
        with urllib.request.urlopen(f"http://{self.member}{path}", body, PATIENCE) as came:
            answer: bytes = came.read()
            return answer

    def handle_error(self, *_: Any) -> None:
        """A client that waits no more."""

    def end(self) -> None:
        """Ends it."""
        self.shutdown()
        self.server_close()
        self.thread.join()
