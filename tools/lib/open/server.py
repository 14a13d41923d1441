"""The server of the workbench: on 127.0.0.1 alone, at an address with a token, for its own page alone. Not proved.

Whoever calls by another host's name, from the page of another origin or without the token gets nothing. The page may load no
other script, style or frame, and makes no markup of texts.
"""
import hmac
import http.server
import json
import os
import secrets
import subprocess
import tempfile
import threading
import time
import urllib.parse

from command import CouldNot, Refused
from open.answers import Answers, Bad
from open.calls import TooLong

HERE = os.path.dirname(os.path.realpath(__file__))
MOST_BODY = 1 << 20
MOST_CONNECTIONS = 64
SLOW = 60
"""The seconds after which a connection that says nothing is closed."""
SCRIPTS = ("state.js", "lists.js", "reasons.js", "picture.js", "keys.js")
PARTS = {"": ("page.html", "text/html"), "page.css": ("page.css", "text/css"), **{name: (name, "text/javascript") for name in SCRIPTS}}
POLICY = ("default-src 'none'; script-src 'self'; style-src 'self'; connect-src 'self'; base-uri 'none'; form-action 'none'; "
          "frame-ancestors 'none'; require-trusted-types-for 'script'; trusted-types 'none'")
HEADS = {"Content-Security-Policy": POLICY, "X-Content-Type-Options": "nosniff", "Referrer-Policy": "no-referrer",
         "Cache-Control": "no-store", "Cross-Origin-Resource-Policy": "same-origin", "X-Frame-Options": "DENY",
         "Cross-Origin-Opener-Policy": "same-origin", "Permissions-Policy": "camera=(), microphone=(), geolocation=()"}
JSON = "application/json"


class Handler(http.server.BaseHTTPRequestHandler):
    """One call."""

    protocol_version, server_version, sys_version, timeout = "HTTP/1.1", "open", "", SLOW

    def do_GET(self):
        self.answer(self.get)

    def do_POST(self):
        self.answer(self.post)

    def answer(self, make):
        try:
            name, query = self.asked()
            self.send(200, *make(name, query))
        except Bad as bad:
            self.refuse(bad.status, bad.text)
        except CouldNot as error:
            self.refuse(409, str(error))
        except (ValueError, RecursionError, TooLong, subprocess.SubprocessError) as error:
            self.refuse(400, "this call cannot be answered: %s" % type(error).__name__)

    def send(self, status, kind, body, more=None):
        self.send_response(status)
        for name, value in {**HEADS, **(more or {}), "Content-Type": kind + "; charset=utf-8", "Content-Length": str(len(body))}.items():
            self.send_header(name, value)
        self.end_headers()
        self.wfile.write(body)

    def refuse(self, status, text):
        self.close_connection = True
        self.send(status, "text/plain", text.encode("utf-8", "replace"), {"Connection": "close"})

    def send_error(self, code, message=None, explain=None):
        """What is no call at all gets its status and nothing else."""
        self.refuse(code, "no such call")

    def asked(self):
        """What is asked for, and the words behind `?`; Bad where the caller may not ask."""
        own = "127.0.0.1:%d" % self.server.server_port
        if self.headers.get_all("Host", []) != [own]:
            raise Bad(421, "no such host")
        if any(origin != "http://" + own for origin in self.headers.get_all("Origin", [])):
            raise Bad(403, "no such origin")
        path, _, query = self.path.partition("?")
        token, slash, name = path[1:].partition("/")
        if not slash or not path.startswith("/") or not hmac.compare_digest(token.encode("utf-8", "replace"), self.server.token.encode()):
            raise Bad(404, "no such page")
        if self.headers.get("Sec-Fetch-Site", "none") not in ("same-origin", "none") and not self.is_visit(name):
            raise Bad(403, "no such site")
        self.server.called = time.monotonic()
        return name, dict(urllib.parse.parse_qsl(query, max_num_fields=20))

    def is_visit(self, name):
        """Whether somebody follows a link to the page, as from the file of --browser: the page alone has no data."""
        return (name == "" and self.command == "GET" and self.headers.get("Sec-Fetch-Mode") == "navigate" and
                self.headers.get("Sec-Fetch-Dest") == "document")

    def get(self, name, query):
        answers = self.server.answers
        if name in PARTS:
            file, kind = PARTS[name]
            with open(os.path.join(HERE, file), "rb") as part:
                return kind, part.read()
        if name == "picture":
            content, drawn = answers.picture(query)
            return "image/svg+xml", content, {"X-Boxes": drawn}
        if name == "model":
            return JSON, packed(answers.about())
        if name == "cuts":
            return JSON, packed(answers.cut_sets(query))
        raise Bad(404, "no such page")

    def post(self, name, _):
        if self.headers.get("Origin") is None or self.headers.get("Content-Type") != JSON:
            raise Bad(403, "no such call")
        size = self.headers.get("Content-Length", "")
        if not (size.isdecimal() and size.isascii() and len(size) < 10 and int(size) <= MOST_BODY) or "Transfer-Encoding" in self.headers:
            raise Bad(413, "too long")
        asked = json.loads(self.rfile.read(int(size)))
        if not isinstance(asked, dict):
            raise Bad(400, "no such call")
        if name == "reload":
            self.server.load()
            return JSON, packed({})
        made = {"run": self.server.answers.run, "why": self.server.answers.why}.get(name)
        if made is None:
            raise Bad(404, "no such page")
        return JSON, packed(made(asked))

    def log_message(self, *_):
        """Nothing is logged: a line would hold the token."""


class Server(http.server.ThreadingHTTPServer):
    """The server of one model; `called` is when the last call came that had the token."""

    daemon_threads, allow_reuse_address = True, False

    def __init__(self, port, words, folder):
        self.words, self.folder, self.answers, self.lock = words, folder, None, threading.Lock()
        self.token, self.called = secrets.token_urlsafe(32), time.monotonic()
        self.places = threading.BoundedSemaphore(MOST_CONNECTIONS)
        self.thread = threading.Thread(target=self.serve_forever, daemon=True)
        super().__init__(("127.0.0.1", port), Handler)
        try:
            self.load()
        except BaseException:
            self.server_close()
            raise

    @property
    def address(self):
        return "http://127.0.0.1:%d/%s/" % (self.server_port, self.token)

    def load(self):
        """Reads the file of the model, again where it was read before; a text that is refused leaves the old one."""
        with self.lock:
            folder = tempfile.mkdtemp(dir=self.folder)
            try:
                new = Answers(self.words, folder)
            except Refused as refused:
                if self.answers is None:
                    raise
                raise Bad(409, "The program refuses the new text: " + refused.line) from None
            old, self.answers = self.answers, new
        if old:
            old.end()

    def process_request(self, request, client_address):
        """Takes a connection, where there is a place for it."""
        if self.places.acquire(blocking=False):
            super().process_request(request, client_address)
        else:
            self.shutdown_request(request)

    def process_request_thread(self, request, client_address):
        try:
            super().process_request_thread(request, client_address)
        finally:
            self.places.release()

    def handle_error(self, request, client_address):
        """A connection that ends early is none of our business."""

    def end(self):
        """Ends the calls that run too."""
        self.answers.end()
        if self.thread.is_alive():
            self.shutdown()
        self.server_close()


def packed(it):
    return json.dumps(it, separators=(",", ":")).encode()
