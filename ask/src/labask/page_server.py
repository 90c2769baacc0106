"""A server for this machine alone: its page has an editor of a world and script, which are played when they are sent to it.

It listens at the loop-back address. Who asks has to know the token that stands in the address, and to name the server as that address
does, which a page of another site can't. A request that is too large or too slow is refused, and so is a run that takes too long.
"""
import hmac
import os
import pathlib
import re
import secrets
import signal
import socket
import subprocess
import sys
import threading
from collections import OrderedDict
from dataclasses import dataclass
from http import HTTPStatus
from http.server import BaseHTTPRequestHandler, ThreadingHTTPServer
from typing import Any, Optional

HOST = "127.0.0.1"
KEPT = 8  # pages of runs, of which the oldest is forgotten first
CONNECTIONS = 16  # requests at a time
GRACE = 5.0  # seconds in which a run that takes too long ends what it has started
RUN = re.compile(r"runs/([1-9][0-9]{0,8})")
TEXT, HTML = "text/plain; charset=utf-8", "text/html; charset=utf-8"
POLICY = ("default-src 'none'; script-src 'unsafe-inline'; style-src 'unsafe-inline'; connect-src 'self'; frame-src 'self'; "
          "frame-ancestors 'self'; base-uri 'none'; form-action 'none'")
HEADERS = {"Cache-Control": "no-store", "Content-Security-Policy": POLICY, "Cross-Origin-Resource-Policy": "same-origin",
           "Referrer-Policy": "no-referrer", "X-Content-Type-Options": "nosniff"}


@dataclass(frozen=True)
class Limits:
    """The most bytes of a world with its script, the most seconds of a run, and the most seconds until a request has come."""
    size: int = 1 << 20
    seconds: float = 20.0
    patience: float = 10.0


class NoRun(Exception):
    """Why there is no page of a run, with the status of the response."""

    def __init__(self, status: HTTPStatus, why: str):
        super().__init__(why)
        self.status = status


class PageRuns:
    """Runs `labask page` with `program` as `labsys`, one run at a time, and keeps the last pages that it wrote, by their numbers."""

    def __init__(self, program: str, seconds: float):
        self.program, self.seconds = program, seconds
        self._turn = threading.Lock()
        self._run: "Optional[subprocess.Popen[bytes]]" = None
        self._pages: "OrderedDict[int, bytes]" = OrderedDict()
        self._last = 0

    def play(self, world: bytes) -> int:
        """Plays a world and gives the number of its page; raises `NoRun` where there is none."""
        if not self._turn.acquire(timeout=self.seconds):
            raise NoRun(HTTPStatus.SERVICE_UNAVAILABLE, "Other runs are not done yet.\n")
        try:
            page = self._write(world)
            self._last += 1
            self._pages[self._last] = page
            if len(self._pages) > KEPT:
                self._pages.popitem(last=False)
            return self._last
        finally:
            self._turn.release()

    def page(self, number: int) -> Optional[bytes]:
        """The page with a number; none where it is forgotten."""
        return self._pages.get(number)

    def end(self) -> None:
        """Ends a run that is not done."""
        run = self._run
        if run is not None and run.poll() is None:
            run.send_signal(signal.SIGINT)
            self._turn.acquire(timeout=GRACE)

    def _write(self, world: bytes) -> bytes:
        """The page of a run; raises `NoRun` where the world is refused or the time is over."""
        words = [sys.executable, "-m", "labask", "page", "-", "--labsys", self.program]
        environment = {**os.environ, "PYTHONPATH": str(pathlib.Path(__file__).resolve().parent.parent)}
        self._run = run = subprocess.Popen(words, stdin=subprocess.PIPE, stdout=subprocess.PIPE, stderr=subprocess.PIPE,
                                           env=environment, start_new_session=True)
        try:
            page, messages = run.communicate(world, timeout=self.seconds)
        except subprocess.TimeoutExpired:
            stop(run)
            why = f"The run was stopped, since it was not done within {self.seconds:g} seconds.\n"
            raise NoRun(HTTPStatus.SERVICE_UNAVAILABLE, why) from None
        if run.returncode:
            raise NoRun(HTTPStatus.UNPROCESSABLE_ENTITY, messages.decode("utf-8", "replace"))
        return page


def stop(run: "subprocess.Popen[bytes]") -> None:
    """Ends a run as Ctrl-C does, so that it ends what it has started; by force, where it does not end."""
    run.send_signal(signal.SIGINT)
    try:
        run.communicate(timeout=GRACE)
    except subprocess.TimeoutExpired:
        run.kill()
        run.communicate()


class PageServer(ThreadingHTTPServer):
    """The server. `editor` is its first page."""
    daemon_threads = True

    def __init__(self, editor: str, program: str, port: int, limits: Limits):
        self.editor, self.limits = editor.encode("utf-8"), limits
        self.runs = PageRuns(program, limits.seconds)
        self.token = secrets.token_urlsafe(16)
        self._places = threading.BoundedSemaphore(CONNECTIONS)
        super().__init__((HOST, port), Handler)
        self.host = f"{HOST}:{self.server_address[1]}"

    @property
    def address(self) -> str:
        """The address of the first page, which has the token."""
        return f"http://{self.host}/{self.token}/"

    def process_request(self, request: Any, client_address: Any) -> None:
        """As that of the base class, but closes a connection beyond those that are served at a time."""
        if self._places.acquire(blocking=False):
            super().process_request(request, client_address)
        else:
            self.shutdown_request(request)

    def process_request_thread(self, request: Any, client_address: Any) -> None:
        """As that of the base class."""
        try:
            super().process_request_thread(request, client_address)
        finally:
            self._places.release()

    def handle_error(self, request: Any, client_address: Any) -> None:
        """Nothing is said of a client that is gone."""

    def server_close(self) -> None:
        """As that of the base class, and ends a run that is not done."""
        super().server_close()
        self.runs.end()


class Handler(BaseHTTPRequestHandler):
    """The answer to one request, after which the connection is closed."""
    server: PageServer
    server_version, sys_version = "labask", ""

    def setup(self) -> None:
        """As that of the base class. A request that has not come in time is cut there, and what has come of it is refused."""
        super().setup()
        self.connection.settimeout(2 * self.server.limits.patience)  # longer, so that a read ends by the cut and has its answer
        self.clock = threading.Timer(self.server.limits.patience, self.cut)
        self.clock.daemon = True
        self.clock.start()

    def finish(self) -> None:
        """As that of the base class."""
        self.clock.cancel()
        super().finish()

    def cut(self) -> None:
        """Reads no more of the request."""
        try:
            self.connection.shutdown(socket.SHUT_RD)
        except OSError:
            pass  # the connection is closed

    def log_message(self, *_: Any) -> None:
        """Nothing is written of a request."""

    def give(self, status: HTTPStatus, data: bytes, kind: str = TEXT, **more: str) -> None:
        """Sends a response."""
        self.send_response(status)
        for name, value in {**HEADERS, "Content-Type": kind, "Content-Length": str(len(data)), **more}.items():
            self.send_header(name, value)
        self.end_headers()
        self.wfile.write(data)

    def refuse(self, status: HTTPStatus, why: str) -> None:
        """Sends why there is no other response."""
        self.give(status, f"{why}\n".encode("utf-8"))

    def place(self) -> Optional[str]:
        """The place that is asked for, below the token; where the server or the token is not named, refuses and gives none."""
        if self.headers.get_all("Host") != [self.server.host]:
            self.refuse(HTTPStatus.MISDIRECTED_REQUEST, "The server is asked by another name than its own.")
            return None
        token, _, place = self.path[1:].partition("/")
        if not hmac.compare_digest(token.encode("utf-8", "replace"), self.server.token.encode("ascii")):
            self.refuse(HTTPStatus.NOT_FOUND, "There is nothing at this address. That of the page was written by labask serve.")
            return None
        return place

    def do_GET(self) -> None:
        """Sends the first page, or that of a run."""
        place = self.place()
        if place is None:
            return
        run = RUN.fullmatch(place)
        page = self.server.runs.page(int(run[1])) if run else None if place else self.server.editor
        if page is None:
            self.refuse(HTTPStatus.NOT_FOUND, "There is no such page, or it is forgotten.")
        else:
            self.give(HTTPStatus.OK, page, HTML)

    def do_POST(self) -> None:
        """Plays the world that is sent, and says where the page of its run is."""
        place = self.place()
        if place is None:
            return
        if place != "runs" or self.headers.get("Origin", f"http://{self.server.host}") != f"http://{self.server.host}":
            self.refuse(HTTPStatus.FORBIDDEN, "Worlds are taken from the page of this server alone.")
            return
        world = self.body()
        if world is None:
            return
        try:
            number = self.server.runs.play(world)
        except NoRun as why:
            self.give(why.status, str(why).encode("utf-8"))
        else:
            self.give(HTTPStatus.CREATED, b"", Location=f"/{self.server.token}/runs/{number}")

    def body(self) -> Optional[bytes]:
        """What is sent; where its length is not said, is too large or not kept in time, refuses and gives none."""
        said, limit = self.headers.get("Content-Length", ""), self.server.limits.size
        if not (said.isascii() and said.isdigit()) or "Transfer-Encoding" in self.headers:
            self.refuse(HTTPStatus.LENGTH_REQUIRED, "The length of the world is not said.")
        elif len(said) > 15 or int(said) > limit:
            self.refuse(HTTPStatus.REQUEST_ENTITY_TOO_LARGE, f"A world with its script may have {limit:,} bytes here.")
        else:
            world = self.rfile.read(int(said))
            self.clock.cancel()
            if len(world) == int(said):
                return world
            self.refuse(HTTPStatus.REQUEST_TIMEOUT, "The world did not come whole in time.")
        return None

    def no_method(self) -> None:
        """Refuses a method that the server has not."""
        if self.place() is not None:
            self.give(HTTPStatus.METHOD_NOT_ALLOWED, b"", Allow="GET, POST")

    do_HEAD = do_PUT = do_DELETE = do_PATCH = do_OPTIONS = do_CONNECT = do_TRACE = no_method
