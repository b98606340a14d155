"""Reads traces, round by round (docs/FORMATS.md has their lines)."""

from dataclasses import dataclass, field

from pictures.cal_text import ReadError

ENDS = {b"q": "quiet", b"b": "budget", b"t": "trapped", b"s": "stalled"}


@dataclass
class Round:
    """A delivery and what follows up to the next one: how often each action of each instance fired, and growth of links."""
    number: int
    firings: dict = field(default_factory=dict)
    growth: list = field(default_factory=list)


class Trace:
    """A trace whose head was read. `rounds` gives its rounds once; then `end` says how it ended, or is empty if its end is
    missing."""

    def __init__(self, path):
        self.path = path
        try:
            self.file = open(path, "rb", buffering=1 << 20)
        except OSError as error:
            raise ReadError(f"{path}: {error.strerror}") from error
        self.line_number = 0
        self.end, self.end_parts = "", []
        self.read_head()

    def fail(self, what):
        raise ReadError(f"{self.path}:{self.line_number}: {what}")

    def next_line(self):
        self.line_number += 1
        return self.file.readline().split()

    def read_head(self):
        head = self.next_line()
        if len(head) < 4 or head[0] != b"rvc-trace" or head[1] not in (b"1", b"2"):
            self.fail("this is no trace")
        try:
            numbers = [int(part) for part in head[2:]]
        except ValueError:
            self.fail("this is no trace")
        self.instance_count, self.link_count = numbers[:2]
        self.grows_to = numbers[2] if len(numbers) > 2 else 0
        self.instances = [self.read_instance(number) for number in range(self.instance_count)]

    def read_instance(self, number):
        parts = self.next_line()
        if len(parts) != 4 or parts[0] != b"i" or parts[1] != b"%d" % number:
            self.fail(f"the line of instance {number} should stand here")
        return parts[2].decode("latin-1"), parts[3].decode("latin-1")

    def rounds(self):
        counts, growth, number = {}, [], 0
        for line in self.file:
            # Most lines are firings, and most of these have been seen before.
            if line in counts:
                counts[line] += 1
            elif line[:2] == b"f ":
                counts[line] = 1
            elif line[:1] == b"r":
                if number:
                    yield self.make_round(number, counts, growth)
                counts, growth, number = {}, [], number + 1
            elif line[:2] == b"g ":
                growth.append(tuple(self.numbers(line, 3)))
            elif line[:1] in ENDS:
                self.read_end(line)
            else:
                self.refuse(line)
        if number:
            yield self.make_round(number, counts, growth)

    def refuse(self, line):
        raise ReadError(f"{self.path}: `{line[:40].decode('latin-1').strip()}` is no line of a trace")

    def read_end(self, line):
        """An end with what it names: of a trap or a stall the instance, the action, and the cause or the link."""
        letter, *parts = line.split()
        self.end, self.end_parts = ENDS.get(letter, ""), [part.decode("latin-1") for part in parts]
        numbers = self.end_parts[:{b"t": 2, b"s": 3}.get(letter, 0)]
        is_named = all(part.isdigit() for part in numbers) and len(parts) == (3 if numbers else 0)
        if not self.end or not is_named or letter in b"ts" and not numbers:
            self.refuse(line)
        if numbers and int(numbers[0]) >= self.instance_count:
            self.refuse(line)

    def make_round(self, number, counts, growth):
        firings = {}
        for line, count in counts.items():
            instance, action = self.numbers(line, 3)
            if instance >= self.instance_count:
                self.refuse(line)
            firings[instance, action] = firings.get((instance, action), 0) + count
        return Round(number, firings, growth)

    def numbers(self, line, count):
        parts = line.split()
        if len(parts) != count or not all(part.isdigit() for part in parts[1:]):
            self.refuse(line)
        return [int(part) for part in parts[1:]]

    def end_text(self):
        """How the trace ended, in words."""
        if not self.end:
            return "without an end"
        return " ".join([self.end] + self.end_parts)
