"""Tests the question `serve` without a browser: what it answers to requests, also to hostile ones, and how it ends."""
import http.client
import pathlib
import signal
import socket
import subprocess
import sys
import threading
import time
from typing import Dict, Iterator, Optional, Tuple

import pytest
from support import LABASK, TOP, labask

from labask import page_server
from labask.page_server import HOST, Limits, PageServer
from labask.playing import find_program
from labask.serve import FIRST_WORLD, editor_of

pytestmark = pytest.mark.usefixtures("program")

LESSON = TOP / "examples" / "lesson.txt"
LIMITS = Limits(size=20_000, seconds=30.0, patience=1.0)
Reply = Tuple[int, Dict[str, str], bytes]


@pytest.fixture
def server(request: pytest.FixtureRequest) -> Iterator[PageServer]:
    """A running server, with these limits or those that a test gives."""
    limits = getattr(request, "param", LIMITS)
    with PageServer(editor_of(FIRST_WORLD), find_program(), 0, limits) as made:
        thread = threading.Thread(target=made.serve_forever, daemon=True)
        thread.start()
        yield made
        made.shutdown()
        thread.join()


def ask(server: PageServer, method: str = "GET", place: str = "", body: Optional[bytes] = None, **headers: str) -> Reply:
    """What the server answers: the status, the headers and the body."""
    connection = http.client.HTTPConnection(HOST, server.server_address[1], timeout=60)
    connection.request(method, f"/{server.token}/{place}", body, headers)
    answer = connection.getresponse()
    return answer.status, dict(answer.getheaders()), answer.read()


def send(server: PageServer, data: bytes) -> bytes:
    """What the server answers to these bytes, up to the end of the connection."""
    with socket.create_connection((HOST, server.server_address[1]), timeout=60) as connection:
        connection.sendall(data)
        return b"".join(iter(lambda: connection.recv(4096), b""))


def test_first_world_is_the_first_example() -> None:
    assert FIRST_WORLD == (TOP / "examples" / "read_by_capability.txt").read_bytes()


def test_the_page_of_a_run_is_that_of_labask_page(server: PageServer) -> None:
    status, headers, _ = ask(server, "POST", "runs", LESSON.read_bytes(), Origin=f"http://{server.host}")
    assert status == 201
    status, more, page = ask(server, place=headers["Location"].partition(server.token)[2].lstrip("/"))
    with LESSON.open("rb") as given:
        due = subprocess.run([sys.executable, LABASK, "page", "-"], stdin=given, stdout=subprocess.PIPE, check=True).stdout
    assert (status, page, more["Content-Type"]) == (200, due, "text/html; charset=utf-8")
    assert b"<textarea" in ask(server)[2]


def test_headers(server: PageServer) -> None:
    _, headers, _ = ask(server)
    assert headers["Cache-Control"] == "no-store" and headers["X-Content-Type-Options"] == "nosniff"
    assert "default-src 'none'" in headers["Content-Security-Policy"] and "frame-ancestors 'self'" in headers["Content-Security-Policy"]
    assert not any(name.lower().startswith("access-control") for name in headers)


def test_a_world_that_is_refused(server: PageServer) -> None:
    broken = LESSON.read_bytes().replace(b"\nfile ", b"\ndirectory ", 1)
    status, headers, said = ask(server, "POST", "runs", broken)
    assert (status, headers["Content-Type"]) == (422, "text/plain; charset=utf-8")
    assert b"directory" in said and b"^" in said and b"Traceback" not in said
    for world in (b"", b"\0\xff<script>", b"\n" * 100):
        assert ask(server, "POST", "runs", world)[0] == 422


@pytest.mark.parametrize("path", ["/", "/x/", "/../", "//", "/%2e/", "/x", f"/{'x' * 60_000}/", "/\N{LATIN SMALL LETTER E WITH ACUTE}/", "x"])
def test_no_token(server: PageServer, path: str) -> None:
    for method in ("GET", "POST"):
        answer = send(server, f"{method} {path} HTTP/1.0\r\nHost: {server.host}\r\nContent-Length: 0\r\n\r\n".encode("utf-8"))
        assert b" 404 " in answer and server.token.encode() not in answer


@pytest.mark.parametrize("host", ["localhost:80", "example.org", "127.0.0.1", "[::1]:80", ""])
def test_wrong_host(server: PageServer, host: str) -> None:
    for method, place in (("GET", ""), ("POST", "runs"), ("PUT", "")):
        assert ask(server, method, place, Host=host)[0] == 421


def test_no_host_and_two_hosts(server: PageServer) -> None:
    host = server.host.encode()
    assert b" 421 " in send(server, b"GET /%b/ HTTP/1.0\r\n\r\n" % server.token.encode())
    assert b" 421 " in send(server, b"GET /%b/ HTTP/1.0\r\nHost: %b\r\nHost: example.org\r\n\r\n" % (server.token.encode(), host))


@pytest.mark.parametrize("origin", ["http://example.org", "null", "http://localhost"])
def test_pages_of_other_sites(server: PageServer, origin: str) -> None:
    assert ask(server, "POST", "runs", LESSON.read_bytes(), Origin=origin)[0] == 403


def test_other_places_and_methods(server: PageServer, monkeypatch: pytest.MonkeyPatch) -> None:
    monkeypatch.setattr(server.runs, "_write", lambda world: world)
    assert ask(server, "POST", "runs", b"world")[0] == 201 and ask(server, place="runs/1")[0] == 200
    for place in ("runs", "runs/", "runs/2", "runs/01", "runs/-1", "runs/%31", "runs/1/", "runs/" + "9" * 5000, "1", "../x", "x"):
        assert ask(server, place=place)[0] == 404, place
    assert ask(server, "POST", "")[0] == 403
    for method in ("HEAD", "PUT", "DELETE", "PATCH", "OPTIONS", "TRACE"):
        assert ask(server, method)[0] == 405
    assert ask(server, "BREW")[0] == 501


def test_a_world_that_is_too_large(server: PageServer) -> None:
    assert ask(server, "POST", "runs", b"#" * (LIMITS.size + 1))[0] == 413
    for said, due in (("9" * 400, 413), ("-1", 411), ("+1", 411), ("x", 411), ("1", 408), ("\N{SUPERSCRIPT TWO}", 411)):
        head = f"POST /{server.token}/runs HTTP/1.0\r\nHost: {server.host}\r\nContent-Length: {said}\r\n\r\n".encode("utf-8")
        assert b" %d " % due in send(server, head), said
    head = f"POST /{server.token}/runs HTTP/1.1\r\nHost: {server.host}\r\n"
    assert b" 411 " in send(server, f"{head}\r\n".encode())
    assert b" 411 " in send(server, f"{head}Transfer-Encoding: chunked\r\n\r\n0\r\n\r\n".encode())


def test_slow_requests(server: PageServer) -> None:
    head = f"POST /{server.token}/runs HTTP/1.0\r\nHost: {server.host}\r\nContent-Length: 9\r\n\r\n".encode()
    for beginning, due in ((b"", b""), (b"GET /", b""), (head, b" 408 "), (head + b"world", b" 408 ")):
        assert due in send(server, beginning)
    with socket.create_connection((HOST, server.server_address[1]), timeout=60) as connection:  # a byte now and then is not enough
        begun = time.monotonic()
        with pytest.raises(OSError):
            while time.monotonic() - begun < 30:
                connection.sendall(b"G")
                time.sleep(0.2)
    assert ask(server)[0] == 200


def test_more_connections_than_are_served(server: PageServer) -> None:
    opened = [socket.create_connection((HOST, server.server_address[1]), timeout=60) for _ in range(page_server.CONNECTIONS + 4)]
    time.sleep(LIMITS.patience + 1)
    assert ask(server)[0] == 200
    for connection in opened:
        connection.close()


@pytest.mark.parametrize("server", [Limits(seconds=0.05)], indirect=True)
def test_a_run_that_takes_too_long(server: PageServer) -> None:
    status, _, said = ask(server, "POST", "runs", LESSON.read_bytes())
    assert status == 503 and b"0.05 seconds" in said
    assert ask(server)[0] == 200


def test_pages_are_forgotten(server: PageServer, monkeypatch: pytest.MonkeyPatch) -> None:
    monkeypatch.setattr(server.runs, "_write", lambda world: world)
    for number in range(1, page_server.KEPT + 3):
        assert ask(server, "POST", "runs", b"world %d" % number)[1]["Location"].endswith(f"/runs/{number}")
    assert [ask(server, place=f"runs/{number}")[0] for number in (1, 2, 3)] == [404, 404, 200]


def heed_interrupts() -> None:
    """A shell has the commands that it starts in the background ignore them."""
    signal.signal(signal.SIGINT, signal.SIG_DFL)


@pytest.fixture
def started(tmp_path: pathlib.Path) -> "Iterator[subprocess.Popen[str]]":
    """The command, which is ended after the test, however that ends."""
    run = subprocess.Popen([sys.executable, str(LABASK), "serve", str(LESSON)], cwd=tmp_path, text=True, preexec_fn=heed_interrupts,
                           stdout=subprocess.PIPE, stderr=subprocess.PIPE)
    yield run
    run.kill()
    run.communicate()


def test_command(started: "subprocess.Popen[str]") -> None:
    """It writes its address, answers at once, and ends by Ctrl-C without a word."""
    assert started.stdout is not None
    _, _, host, token, rest = started.stdout.readline().split("/")
    connection = http.client.HTTPConnection(host, timeout=60)
    connection.request("GET", f"/{token}/")
    assert rest == "\n" and len(token) >= 20 and connection.getresponse().status == 200
    port = host.partition(":")[2]
    status, _, messages = labask("serve", "--port", port)
    assert status == 1 and messages.startswith(f"labask: port {port}: ") and messages.count("\n") == 1
    listening = pathlib.Path("/proc/net/tcp").read_text(encoding="ascii")
    assert f"0100007F:{int(port):04X} " in listening and f"00000000:{int(port):04X} 00000000:0000 0A" not in listening
    started.send_signal(signal.SIGINT)
    assert (*started.communicate(timeout=60), started.returncode) == ("", "", 0)


@pytest.mark.parametrize("words", [("/none",), ("--port", "65536"), ("--time", "0"), (LESSON, LESSON)], ids=str)
def test_wrong_words(words: Tuple[object, ...]) -> None:
    status, out, messages = labask("serve", *words)
    assert (status, out) == (1, "") and "Traceback" not in messages
