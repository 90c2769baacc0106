#!/usr/bin/env python3
"""Writes what completions and pages have of the commands, from the table of their help: crates/lab_usage/src/commands.rt.

    command_table.py            prints the commands with their help
    command_table.py --write    writes the parts of the files
    command_table.py --check    prints nothing, and fails where a part has another text

These parts are the completions for bash and zsh, the synopsis of the man page, and the table of the README.
"""
import argparse
import sys

import pages

# how zsh completes an argument
COMPLETED = {
    "FILE": "_files",
    "LABEL": "_message LABEL",
    "N": "_message 'N, from 1 to 100000'",
    "SPEC": "_message 'SPEC: all, or pid=PID;label=LABEL;event=WORD;cap=NAME'",
}


def words_with(argument):
    """The words of the commands with an argument."""
    return [command.word for command in pages.table_of_commands() if command.argument == argument]


def lines_of_zsh():
    """The commands with their help."""
    return "".join(f"    '{command.word}:{command.about}'\n" for command in pages.table_of_commands())


def cases_of_zsh():
    """What stands after the word of a command."""
    return "".join(f"    {' | '.join(words_with(argument))}) {action} ;;\n" for argument, action in COMPLETED.items())


def words_of_bash():
    """The words of the commands."""
    return " ".join(pages.commands())


def test_of_bash():
    """The test of the word of a command with a file."""
    return " || ".join(f"${{COMP_WORDS[1]}} = {word}" for word in words_with("FILE"))


def synopsis():
    """The commands with their arguments, in mdoc."""
    return "".join(f".Nm\n.Cm {usage.replace(' ', ' Ar ')}\n" for usage in pages.usages())


def rows_of_readme():
    """The rows of the table."""
    return "".join(f"| `./{command.line}` | {command.about} |\n" for command in pages.table_of_commands())


# a file, the texts around a part of it, and the part
PARTS = [
    ("completion/_labsys", "commands=(\n", "    '--help:", lines_of_zsh),
    ("completion/_labsys", "case $words[2] in\n", "    esac", cases_of_zsh),
    ("completion/labsys.bash", 'compgen -W "', " --help", words_of_bash),
    ("completion/labsys.bash", '-eq 2 ] && [[ ', " ]]; then", test_of_bash),
    ("docs/labsys.1", ".Sh SYNOPSIS\n", ".Nm\n.Fl -help", synopsis),
    ("README.md", "| Command | What it does |\n|---|---|\n", "| `./labsys --help`", rows_of_readme),
]


def written(name):
    """The text of a file with its parts as the table gives them."""
    text = pages.text_of(name)
    for file, begin, end, part in PARTS:
        if file == name:
            head, rest = text.split(begin, 1)
            text = head + begin + part() + rest[rest.index(end):]
    return text


def main():
    parser = argparse.ArgumentParser(description="Writes what completions and pages have of the commands.")
    how = parser.add_mutually_exclusive_group()
    how.add_argument("--write", action="store_true", help="write the parts of the files")
    how.add_argument("--check", action="store_true", help="fail where a part has another text")
    words = parser.parse_args()
    if not words.write and not words.check:
        for command in pages.table_of_commands():
            print(f"{command.line}: {command.about}")
        return
    failed = False
    for name in dict.fromkeys(part[0] for part in PARTS):
        text = written(name)
        if text == pages.text_of(name):
            continue
        if words.write:
            (pages.TOP / name).write_text(text, encoding="utf-8")
        else:
            print(f"{name} differs from the table of commands; tests/command_table.py --write writes it")
            failed = True
    sys.exit(failed)


if __name__ == "__main__":
    main()
