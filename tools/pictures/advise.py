#!/usr/bin/env python3
"""What tools/explain says of a last line of a report besides the sentence of its table.

    tools/pictures/advise.py LINE WORD ..

LINE is the last line, and the words are those that `rvc` was given. Each line that is printed begins with what it is: `at`
(a file and an offset), `spot` (a file and a line), `note`, or `help`, which takes the place of that of the table. Nothing is
printed where nothing more is known.
"""

import os
import resource
import sys

sys.dont_write_bytecode = True
sys.path.insert(0, os.path.dirname(os.path.dirname(os.path.realpath(__file__))))

MOST_MEMORY = 1 << 30


def advise(line, words):
    """The lines that are printed."""
    if line.startswith("refused "):
        found = refusal_help(line, words)
        return [f"help {found}"] if found else []
    from pictures.end_help import end_help
    told = end_help(line, words)
    if not told:
        return []
    place = [f"at {told.offset} {told.file}"] if told.offset >= 0 else [f"spot {told.line} {told.file}"] if told.line else []
    return place + [f"note {each}" for each in told.notes] + ([f"help {told.help}"] if told.help else [])


def refusal_help(line, words):
    from pictures.grammar_help import grammar_help, lexis_help
    from pictures.rule_help import rule_help
    rule, rest = line.split(" ", 2)[1:]
    path, offset = rest.rpartition(" ")[0], int(rest.rpartition(" ")[2])
    text = ""
    if path != "words":
        with open(path, "rb") as file:
            text = file.read(1 << 20).decode("latin-1")
    if rule == "P1":
        from pictures.end_help import port_help
        return port_help(words, offset)
    if rule == "G1":
        return grammar_help(text, offset)
    return lexis_help(rule, text, offset) if rule[0] == "L" else rule_help(rule, path, text, offset, words)


def printable(text):
    """A line without what a terminal might take for a command."""
    return "".join(each if each.isprintable() else "?" for each in text)


def main():
    resource.setrlimit(resource.RLIMIT_AS, (MOST_MEMORY, MOST_MEMORY))
    # An explanation never fails: what can't be found out isn't told.
    try:
        found = [printable(line) for line in advise(sys.argv[1], sys.argv[2:])]
    except Exception:
        return
    sys.stdout.buffer.write("".join(line + "\n" for line in found).encode("utf-8", "replace"))


main()
