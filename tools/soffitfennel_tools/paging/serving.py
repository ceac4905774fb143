"""Serves a page to this machine alone."""
from __future__ import annotations

from http import HTTPStatus
from http.server import BaseHTTPRequestHandler, ThreadingHTTPServer

KINDS = {
    ".html": "text/html; charset=utf-8",
    ".js": "text/javascript; charset=utf-8",
    ".css": "text/css; charset=utf-8",
    ".wasm": "application/wasm",
    ".json": "application/json",
}
HOSTS = ("127.0.0.1", "localhost")


class Handler(BaseHTTPRequestHandler):
    """Answers with a file of the page, and with nothing else."""

    files: dict[str, bytes] = {}

    def do_GET(self) -> None:
        """Answers a request; one under another name of this machine gets nothing."""
        name = self.path.split("?")[0].lstrip("/") or "index.html"
        host = (self.headers.get("Host") or "").rsplit(":", 1)[0]
        if host not in HOSTS or name not in self.files:
            self.send_error(HTTPStatus.NOT_FOUND)
            return
        self.send_response(HTTPStatus.OK)
        content, kind = self.files[name], KINDS.get(f".{name.rsplit('.', 1)[-1]}", "application/octet-stream")
        for key, value in (
            ("Content-Type", kind),
            ("Content-Length", str(len(content))),
            ("Cache-Control", "no-store"),
            ("X-Content-Type-Options", "nosniff"),
            ("Content-Security-Policy", "frame-ancestors 'none'"),
        ):
            self.send_header(key, value)
        self.end_headers()
        self.wfile.write(content)

    def log_message(self, *_: object) -> None:
        """Says nothing of each request."""


def server(files: dict[str, bytes], port: int) -> ThreadingHTTPServer:
    """A server of these files on 127.0.0.1; port 0 is a free one."""
    handler = type("Page", (Handler,), {"files": files})
    return ThreadingHTTPServer(("127.0.0.1", port), handler)
