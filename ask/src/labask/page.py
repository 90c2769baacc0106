"""The question `page`: one page of HTML with the run of a world, or with two runs side by side. It needs no network and no other file."""
import argparse
import os
import pathlib
import stat
import sys
from typing import Iterator, List, Optional, Sequence

from labask.answers import Status, WrongWords, write_json
from labask.effort import Effort, add_jobs_argument, default_effort
from labask.page_parts import one_run, two_runs
from labask.page_parts.run import Run, play_run
from labask.page_parts.side import MOST_VIEWS, Side, json_of, labels_of, make_side
from labask.page_parts.views import named_labels
from labask.playing import Player
from labask.worlds import read_file, read_world


def add_arguments(parser: argparse.ArgumentParser) -> None:
    """Adds the arguments of the question."""
    parser.add_argument("file", metavar="FILE", help="the world with its script; - is standard input")
    parser.add_argument("other", metavar="OTHER", nargs="?", help="another world with its script: the page has both runs side by side")
    parser.add_argument("--output", metavar="PAGE.html", help="the file to write; standard output by default")
    parser.add_argument("--label", metavar="LABEL", action="append", default=[], dest="labels",
                        help="a label to see the run as; may be repeated. By default the labels that the world names, up to "
                        f"{MOST_VIEWS}")
    add_jobs_argument(parser)


def write_page(page: str, output: Optional[str]) -> None:
    """Writes a page to a file, or to standard output where none is named."""
    data = page.encode("utf-8")
    if output is None:
        sys.stdout.buffer.write(data)
        sys.stdout.buffer.flush()
    else:
        pathlib.Path(output).write_bytes(data)


def refuse_same_file(file: str, output: str) -> None:
    """Refuses to write the page to the file that is read."""
    try:
        read, written = os.fstat(sys.stdin.fileno()) if file == "-" else os.stat(file), os.stat(output)
    except OSError:
        return
    if stat.S_ISREG(written.st_mode) and os.path.samestat(read, written):
        raise WrongWords(f"{output} is the file that is read, and the page would overwrite it")


def run_of(player: Player, file: str) -> Run:
    """The run of a file."""
    given = read_file(file)
    player.check(given)
    return play_run(player, read_world(given))


def names_of(files: Sequence[str]) -> List[str]:
    """What a page calls the files: by their last names, where these are not the same."""
    short = ["standard input" if file == "-" else pathlib.PurePath(file).name for file in files]
    return short if len(set(short)) == len(files) else list(files)


def runs_of(player: Player, files: Sequence[str], arguments: argparse.Namespace) -> Iterator[Run]:
    """The runs of the files. What is said of a refused line names the argument `file`, which is therefore the one at hand."""
    for file in files:
        arguments.file = file
        yield run_of(player, file)


def sides_of(player: Player, files: Sequence[str], arguments: argparse.Namespace, effort: Effort) -> List[Side]:
    """The runs of the files, each with what the page says of it."""
    runs, labels = list(runs_of(player, files, arguments)), arguments.labels
    named = [label for run in runs for label in named_labels(run)]
    return [make_side(player, name, run, labels_of(run, named, labels), effort) for name, run in zip(names_of(files), runs)]


def answer(arguments: argparse.Namespace, player: Player) -> int:
    """Answers the question."""
    files = [arguments.file] if arguments.other is None else [arguments.file, arguments.other]
    if files == ["-", "-"]:
        raise WrongWords("standard input is read once; name a file for the other run")
    for file in files if arguments.output is not None else ():
        refuse_same_file(file, arguments.output)
    effort = default_effort(arguments.jobs)
    one, *others = sides_of(player, files, arguments, effort)
    if arguments.json:
        write_json(two_runs.json_of_two((one, others[0])) if others else json_of(one))
    else:
        page = two_runs.page_of(player, (one, others[0]), effort) if others else one_run.page_of(player, one, effort)
        write_page("".join(page), arguments.output)
    return Status.DONE
