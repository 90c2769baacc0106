"""The question `serve`: a page with an editor, which plays a world and its script and shows the run. It is for this machine alone."""
import argparse
import contextlib
import sys

from labask.answers import Status, WrongWords, write_json
from labask.command_words import number
from labask.page_parts.document import part
from labask.page_parts.markup import text
from labask.page_server import Limits, PageServer
from labask.playing import Player
from labask.worlds import read_file

LAST_PORT = 65535
FIRST_WORLD = b"""\
# The labels deny this call, and cap_mac_read overrides them.
world 2
levels unc conf sec
categories
bound all
dir / 0777 0 0 unc
file /a 0644 10 10 sec "hello"
proc unc 10 10 - "cap_mac_read=ep"
script
1@unc mac_get_file /a
"""
EDITOR = """\
<!DOCTYPE html>
<html lang="en"><head><meta charset="utf-8">
<meta name="viewport" content="width=device-width,initial-scale=1"><meta name="color-scheme" content="light dark">
<title>labsys: play a world</title>
<style>{style}</style></head>
<body><header><h1>Play a world</h1>
<p>A world and its script are played by <code>labsys</code> on this machine, and nothing leaves it. Below them is their run: each call
with its reply and its records in the trail, and what each label sees.</p></header>
<main><form id="editor"><label for="world">World and script</label>
<textarea id="world" rows="16" spellcheck="false" autocapitalize="off" autocomplete="off">
{world}</textarea>
<p><button id="play">Play</button> <a id="alone" target="_blank" rel="noopener" hidden>The run on a page of its own</a>
<output id="said" for="world" role="status"></output></p></form>
<pre id="refusal" tabindex="0" hidden></pre>
<iframe id="run" title="The run" hidden></iframe></main>
<script>{script}</script>
</body></html>
"""


def seconds(word: str) -> int:
    """A number of seconds, which is not 0."""
    given = number(word)
    if given == 0:
        raise argparse.ArgumentTypeError("no run is done in 0 seconds")
    return given


def add_arguments(parser: argparse.ArgumentParser) -> None:
    """Adds the arguments of the question."""
    parser.add_argument("file", metavar="FILE", nargs="?", help="the world with its script that the editor has first; - is standard input")
    parser.add_argument("--port", metavar="N", type=lambda word: number(word, LAST_PORT), default=0,
                        help="the port; by default one that is free")
    parser.add_argument("--time", metavar="SECONDS", type=seconds, default=int(Limits.seconds),
                        help=f"the most seconds of a run, by default {Limits.seconds:g}")


def editor_of(world: bytes) -> str:
    """The page with the editor, which has a world. A byte of it that is no text of UTF-8 is shown as a sign for it."""
    return EDITOR.format(style=part("page.css") + part("serve.css"), script=part("serve.js"), world=text(world.decode("utf-8", "replace")))


def make_server(world: bytes, player: Player, arguments: argparse.Namespace) -> PageServer:
    """The server, which listens."""
    try:
        return PageServer(editor_of(world), player.program[0], arguments.port, Limits(seconds=arguments.time))
    except OSError as fault:
        raise WrongWords(f"port {arguments.port}: {fault.strerror}") from fault


def answer(arguments: argparse.Namespace, player: Player) -> int:
    """Answers the question: writes the address of the page, and serves it until Ctrl-C."""
    world = FIRST_WORLD if arguments.file is None else read_file(arguments.file)
    with make_server(world, player, arguments) as server, contextlib.suppress(KeyboardInterrupt):
        if arguments.json:
            write_json({"address": server.address})
        else:
            print(server.address)
        sys.stdout.flush()
        server.serve_forever()
    return Status.DONE
