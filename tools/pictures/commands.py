"""The words of tools/draw and tools/timeline."""

import os
import sys
from dataclasses import dataclass, field

from pictures.cal_text import ReadError


@dataclass
class Words:
    """Words that were read: those that are no options, ports with their files, options with values, and flags."""
    rest: list = field(default_factory=list)
    ports: dict = field(default_factory=dict)
    values: dict = field(default_factory=dict)
    flags: set = field(default_factory=set)

    @property
    def top(self):
        return self.rest[0]

    def number(self, name, default):
        """The value of an option that is a number."""
        if name not in self.values:
            return default
        if not self.values[name].isdecimal() or len(self.values[name]) > 9:
            raise ReadError(f"`{self.values[name]}` is no number for {name}")
        return int(self.values[name])

    def input_tokens(self, network):
        """How many tokens the files of a network's inputs have."""
        known = {port.name: port for port in network.top.inputs}
        found = {}
        for name, path in self.ports.items():
            if name in known:
                try:
                    found[name] = os.path.getsize(path) // known[name].bytes_per_token()
                except OSError as error:
                    raise ReadError(f"{path}: {error.strerror}") from error
        return found

    def write(self, text):
        """Writes to the file after --output, or to standard output."""
        if "--output" not in self.values:
            sys.stdout.buffer.write(text.encode())
            return
        try:
            with open(self.values["--output"], "wb") as file:
                file.write(text.encode())
        except OSError as error:
            raise ReadError(f"{self.values['--output']}: {error.strerror}") from error


# How deeply what is read may nest, in calls.
MOST_CALLS = 10000


def usage(document):
    sys.exit(document.strip())


def read_words(words, document, values, flags, count=(1, 1)):
    """Reads words. Where they ask for nothing the page that says what can be asked is printed, with status 1."""
    sys.setrecursionlimit(MOST_CALLS)
    found, words = Words(), list(words)
    if words in (["--help"], ["-h"]):
        print(document.strip())
        sys.exit(0)
    while words:
        word = words.pop(0)
        name, mark, value = word.partition("=")
        if name in values:
            if not mark and not words or name in found.values:
                usage(document)
            found.values[name] = value if mark else words.pop(0)
        elif word in flags:
            found.flags.add(word)
        elif word.startswith("-"):
            usage(document)
        elif mark and name:
            found.ports[name] = value
        else:
            found.rest.append(word)
    if not count[0] <= len(found.rest) <= count[1]:
        usage(document)
    return found
