"""What the end of a run, a replay or a certification names: the instance, the state, the action, the link, the line of the
trace, and the words that ask for nothing."""

import difflib
import itertools
import os
from dataclasses import dataclass, field

from pictures.cal_text import ReadError
from pictures.network import Library, read_bytes, read_network
from pictures.rule_help import attributes, listed
from pictures.source_text import PlacedReader
from pictures.trace import Trace

VERBS = ("run", "check", "certify", "replay", "fmt", "gen")
BOUNDS = {"--workers": (1, 64), "--burst": (1, 65536), "--budget": (1, 1000000000000), "--grow": (1, 1048576)}
OPTIONS = ("--trace", "--round", *BOUNDS)


@dataclass
class Told:
    """What is told: a file with an offset or a line, notes, and how to mend it."""
    file: str = ""
    offset: int = -1
    line: int = 0
    notes: list = field(default_factory=list)
    help: str = ""


class Command:
    """The words of a command, with its network if that is asked for and can be read."""

    def __init__(self, words, reads=True):
        self.plain, self.options, self.twice = [], {}, ""
        words = list(words)
        while words:
            word = words.pop(0)
            name, mark, value = word.partition("=")
            if not word.startswith("--"):
                self.plain.append(word)
                continue
            self.twice = self.twice or (name if name in self.options else "")
            self.options[name] = value if mark else words.pop(0) if words and name in OPTIONS else ""
        self.verb, self.top = (self.plain + ["", ""])[:2]
        self.trace = self.options.get("--trace", "")
        self.network, self.instances = None, []
        try:
            if reads and self.top.endswith((".cal", ".xdf")):
                self.network = read_network(self.top)
                self.instances = [(leaf.path, leaf.of_class) for leaf in self.network.leaves]
        except (ReadError, RecursionError, LookupError, ValueError, TypeError, AttributeError):
            self.network = None
        if reads and not self.network:
            self.read_names()

    def read_names(self):
        """The names of instances, if the network can't be read: a lone actor's, or those of the trace."""
        if self.top.endswith(".cal"):
            of_class = self.top[:-4].replace("/", ".")
            self.instances = [(of_class.rpartition(".")[2], of_class)]
        elif os.path.isfile(self.trace):
            try:
                self.instances = Trace(self.trace).instances
            except ReadError:
                self.instances = []

    def named(self, instance):
        """An instance in words."""
        if instance >= len(self.instances):
            return f"instance {instance}"
        path, of_class = self.instances[instance]
        return f"instance {instance} is `{path}`" + (f" ({of_class})" if of_class != path else "")

    def reader(self, instance):
        """The file of an instance's actor, and its parts; nothing where they can't be read."""
        try:
            path = Library.file_of(self.instances[instance][1])
            return path, PlacedReader(path, read_bytes(path).decode("latin-1"))
        except (ReadError, LookupError, RecursionError):
            return "", None


def action_text(reader, number):
    """An action in words: its number, its tag and its line."""
    actions = reader.actions() if reader else []
    if number >= len(actions):
        return f"action {number}"
    line = reader.text.count("\n", 0, actions[number].offset) + 1
    return f"action {number} is " + (f"`{actions[number].name}`, in line {line}" if actions[number].name else f"that of line {line}")


def place_action(told, path, reader, number):
    actions = reader.actions() if reader else []
    if number < len(actions):
        told.file, told.offset = path, actions[number].offset


def end_name(end):
    """An end of a link in words."""
    port = end.named().name
    if end.box.is_network():
        return f"the {'input' if end.is_input else 'output'} `{port}` of the network"
    return f"`{port}` of `{end.box.path}`"


def link_text(command, number, growth=0):
    """A link in words, with its capacity."""
    if not command.network or number >= len(command.network.links):
        return ""
    link = command.network.links[number]
    capacity = max(link.capacity, growth)
    return f"link {number} leads from {end_name(link.source)} to {end_name(link.target)}, and holds {capacity} tokens"


def takes_text(command, instance, first, second):
    """The ports from which two actions take different numbers of tokens, in words."""
    leaves = command.network.leaves if command.network else []
    if instance >= len(leaves) or max(first, second) >= len(leaves[instance].actions):
        return []
    leaf, found = leaves[instance], []
    actions = [leaf.actions[number] for number in (first, second)]
    for port in range(len(leaf.inputs)):
        counts = [action.takes.get(port, 0) for action in actions]
        if counts[0] != counts[1]:
            found.append(f"from `{leaf.inputs[port].name}` action {first} takes {counts[0]}, and action {second} takes {counts[1]}")
    return found


def uncertified(command, instance, state, first, second, reason):
    told = Told()
    path, reader = command.reader(instance)
    place_action(told, path, reader, first)
    told.notes.append(command.named(instance))
    states = reader.states if reader else []
    if state < len(states):
        told.notes.append(f"state {state} is `{states[state]}`")
    told.notes += [action_text(reader, number) for number in dict.fromkeys((first, second))]
    if reason == "C1":
        told.notes += takes_text(command, instance, first, second)
    return told


def trapped(command, instance, action, _trap):
    told = Told()
    path, reader = command.reader(instance)
    place_action(told, path, reader, action)
    told.notes += [command.named(instance), action_text(reader, action)]
    return told


def stalled(command, instance, action, link):
    told = Told()
    path, reader = command.reader(instance)
    place_action(told, path, reader, action)
    growth = int(command.options["--grow"]) if command.options.get("--grow", "").isdigit() else 0
    found = link_text(command, link, growth)
    told.notes += [command.named(instance), action_text(reader, action)] + ([found] if found else [])
    if not found:
        return told
    full = command.network.links[link]
    reader_name = "the output" if full.target.box.is_network() else f"`{full.target.box.path}`"
    more = "a greater `--grow`" if growth else "`--grow N` for all links"
    place = place_connection(command, full)
    size = max(full.capacity, growth)
    if place:
        told.file, told.offset = place
        told.help = f"give this `Connection` a `bufferSize` above {size}, or the run {more}; if {reader_name} " \
                    "never takes again, let it take what isn't wanted"
    else:
        told.help = f"give the run {more}; if {reader_name} never takes again, let it take what isn't wanted"
    return told


def place_connection(command, link):
    """The file and the offset of the `Connection` at the reader's end of a link."""
    if not command.top.endswith(".xdf") or not link.connections:
        return None
    wanted = max(link.connections, key=lambda each: each.size)
    boxes = [command.network.top]
    while boxes:
        box = boxes.pop()
        if any(each is wanted for each in box.connections):
            path = command.top if box is command.network.top else Library.file_of(box.of_class)
            return find_connection(path, ends_of(wanted))
        boxes += [part for part in box.parts if part.is_network()]
    return None


def ends_of(connection):
    return {side + part: value for side, end in (("src", connection.source), ("dst", connection.target))
            for part, value in (("", "" if end.is_own else end.box.name), ("-port", end.named().name))}


def find_connection(path, ends):
    text, at = read_bytes(path).decode("latin-1"), -1
    while True:
        at = text.find("<Connection", at + 1)
        if at < 0:
            return None
        found = attributes(text, at)
        if all(found.get(name) == value for name, value in ends.items()):
            return path, at


# Replays.

def no_run(command, line, cause):
    told = Told(command.trace, -1, line)
    text = line_of(command.trace, line)
    if text:
        told.notes.append(f"line {line} is `{text}`")
    if cause == "Header":
        told.notes += due(command, line)
    else:
        told.notes += event_notes(command, text.split())
    return told


def line_of(path, number):
    """A line of a trace, as text that can be printed."""
    if not path or not os.path.isfile(path):
        return ""
    with open(path, "rb") as file:
        found = next(itertools.islice(file, number - 1, number), b"")
    return "".join(chr(byte) if 32 <= byte < 127 else "?" for byte in found.rstrip(b"\n")[:60])


def due(command, line):
    """The line of the head that is due."""
    if not command.network or line > len(command.network.leaves) + 1:
        return []
    if line > 1:
        leaf = command.network.leaves[line - 2]
        return [f"`i {line - 2} {leaf.path} {leaf.of_class}` is due"]
    sizes = f"{len(command.network.leaves)} {len(command.network.links)}"
    grow = command.options.get("--grow")
    return [f"`rvc-trace 2 {sizes} {grow}` is due" if grow else f"`rvc-trace 1 {sizes}` is due"]


def event_notes(command, parts):
    """What a line of a trace names."""
    if not parts or not all(part.isdigit() for part in parts[1:3]):
        return []
    numbers = [int(part) for part in parts[1:] if part.isdigit() and len(part) < 10]
    if parts[0] in ("f", "t", "s") and len(numbers) > 1:
        _, reader = command.reader(numbers[0])
        notes = [command.named(numbers[0]), action_text(reader, numbers[1])]
        return notes + ([link_text(command, numbers[2])] if parts[0] == "s" and len(numbers) > 2 else [])
    if parts[0] == "g" and numbers and link_text(command, numbers[0]):
        return [link_text(command, numbers[0])]
    return []


# Words.

def usage(command, cause):
    told = Told()
    told.help = {"words": wrong_words, "verb": wrong_verb, "top": wrong_top, "number": wrong_number, "round": wrong_round,
                 "port": wrong_port, "trace": lacking_trace}[cause](command)
    return told


def near(word, known):
    """A known word that is written almost alike, or all of them."""
    found = difflib.get_close_matches(word, known, 1, 0.5)
    return f": is `{found[0]}` meant?" if found else f"; there are {listed(known)}"


def wrong_words(command):
    for name in command.options:
        if name not in OPTIONS:
            return f"there is no option `{name}`" + near(name, OPTIONS)
    if command.twice:
        return f"`{command.twice}` is given twice"
    dashed = next((word for word in command.plain if word.startswith("-") and len(word) > 1), "")
    if dashed:
        return f"`{dashed}` is no word here; a value that begins with `-` stands behind `=`, as `--trace={dashed}`"
    if len(command.plain) == 1 and command.plain[0] in VERBS:
        return f"write the top behind `{command.plain[0]}`" + (", a number" if command.plain[0] == "gen" else ", as `NAME.cal`")
    empty = next((name for name, value in command.options.items() if not value), "")
    return f"write the value of `{empty}` behind it" if empty else ""


def wrong_verb(command):
    return f"there is no verb `{command.verb}`" + near(command.verb, VERBS)


def wrong_top(command):
    if command.verb == "gen":
        return "the top of `gen` is a number from 1 to 1000"
    ends = "`.cal`" if command.verb == "fmt" else "`.cal` or `.xdf`"
    found = f"the top is a path below the current folder, of names with `/` between them, and ends in {ends}"
    if command.top.startswith("./"):
        return f"{found}: leave the `./` out"
    if command.top.startswith(("/", "../")):
        return f"{found}: call `rvc` in the folder in which its classes begin"
    return found


def wrong_number(command):
    for name, (least, most) in BOUNDS.items():
        value = command.options.get(name)
        if value is not None and not (value.isascii() and value.isdigit() and len(value) <= 20 and least <= int(value) <= most):
            return f"the value of `{name}` is a whole number from {least} to {most}, in digits alone"
    return ""


def wrong_round(_command):
    return "write `--round all`, `--round turn`, or `--round seed:7` with a number of your own"


def wrong_port(command):
    for word in command.plain[2:]:
        name, mark, file = word.partition("=")
        if not name or not mark or not file:
            return f"the word `{word}` isn't of the form `PORT=FILE`"
    return ""


def lacking_trace(command):
    if not command.verb:
        return ""
    return f"add `--trace FILE`, the file that `{command.verb}` {'reads' if command.verb == 'replay' else 'writes the trace to'}"


def port_help(words, number):
    """P1: the ports that the command opens."""
    command = Command(words)
    port_words = [word for word in command.plain[2:] if "=" in word]
    name = port_words[number].partition("=")[0] if number < len(port_words) else ""
    if command.verb in ("check", "certify", "fmt"):
        return f"`{command.verb}` opens no port: leave the word out"
    if command.verb == "gen":
        return "the network of `gen` has the output `Out` alone"
    if not command.network or not name:
        return ""
    inputs, outputs = ([port.name for port in ports] for ports in (command.network.top.inputs, command.network.top.outputs))
    if command.verb == "replay" and name in outputs:
        return f"`replay` opens inputs alone: leave `{port_words[number]}` out"
    known = inputs if command.verb == "replay" else inputs + outputs
    return f"there is no port `{name}`" + (near(name, known) if known else "")


ENDS = {"uncertified": (uncertified, 5), "trapped": (trapped, 3), "stalled": (stalled, 3), "usage": (usage, 1)}


def end_help(line, words):
    """What is told of a last line."""
    parts = line.split()
    if parts[:3] == ["not", "a", "run"]:
        return no_run(Command(words), int(parts[3]), parts[4])
    tell, count = ENDS[parts[0]]
    arguments = [int(part) if part.isdigit() else part for part in parts[1:]]
    return tell(Command(words, tell is not usage), *arguments) if len(arguments) == count else None
