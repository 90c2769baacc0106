"""The completion of `labask`: bash completes the questions and the options that they have, and zsh has them too."""
import re
import shutil
import subprocess

import pytest
from support import TOP

from labask import main as labask_main

BASH, ZSH = TOP / "completion" / "labask.bash", TOP / "completion" / "_labask"


def options_of(question):
    """The options of a question, or of the program where that is None."""
    parser = labask_main.make_parser()
    if question is not None:
        parser = labask_main.QuestionParser()
        parser.add_question(labask_main.QUESTIONS[question].module)
    return {name for action in parser._actions for name in action.option_strings if name.startswith("--")}


def completed(*words):
    """The words that bash completes for the last one."""
    script = 'source "$1"; shift; COMP_WORDS=("$@"); COMP_CWORD=$(($# - 1)); _labask; printf "%s\\n" "${COMPREPLY[@]}"'
    done = subprocess.run(["bash", "-c", script, "bash", str(BASH), "labask", *words], stdout=subprocess.PIPE, check=True)
    return set(done.stdout.decode().split())


def zsh_options(part):
    """The options that a part of the completion for zsh has, by itself and by the lists that it names."""
    lists = dict(re.findall(r"^(\w+)=\(\n(.*?)^\)$", ZSH.read_text(encoding="ascii"), re.M | re.S))
    named = [lists[name] for name in re.findall(r"\$(\w+)", part) if name in lists]
    return set(re.findall(r"--[\w-]+(?=\[)", "".join([part, *named])))


@pytest.mark.skipif(shutil.which("bash") is None, reason="there is no bash")
@pytest.mark.parametrize("words, due", [
    (("",), {*labask_main.QUESTIONS, *options_of(None)}), (("--l",), {"--labsys"}),
    (("c",), {name for name in labask_main.QUESTIONS if name.startswith("c")}),
    (("--labsys", "check", "w"), {name for name in labask_main.QUESTIONS if name.startswith("w")}), (("--labsys", ""), set()),
    (("who", "f"), set()), (("who", "--process", "--"), set()), (("page", "f", "--json", "--o"), {"--output"}),
    *(((question, "--"), options_of(question)) for question in labask_main.QUESTIONS),
], ids=str)
def test_bash(words, due):
    assert completed(*words) == due


def test_questions_of_zsh():
    assert re.findall(r"^    '([a-z]+):", ZSH.read_text(encoding="ascii"), re.M) == list(labask_main.QUESTIONS)


@pytest.mark.parametrize("question", labask_main.QUESTIONS)
def test_options_of_zsh(question):
    text = ZSH.read_text(encoding="ascii")
    part = re.search(rf"^    {question}\)(.*?);;$", text, re.M | re.S)
    assert part and zsh_options(part[1]) == options_of(question)
