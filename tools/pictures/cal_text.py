"""Reads files of actors and units as far as pictures need them: headers, constants, functions, and how many tokens each
action takes and gives. What conforms is read; whether a file conforms is said by `rvc check`."""

import re
from dataclasses import dataclass, field

TOKEN = re.compile(r"""(?P<blank>[ \t\r\n\f]+|//[^\n]*|/\*.*?\*/)
    |(?P<name>[A-Za-z_][A-Za-z0-9_]*)
    |(?P<number>0x[0-9A-Fa-f]+|[0-9]+)
    |(?P<symbol>==>|-->|:=|\.\.|<=|>=|!=|<<|>>|&&|\|\||[()\[\],;:.+*/=<>&|^~-])""", re.VERBOSE | re.DOTALL)

# Binary operators from the loosest level to the tightest.
LEVELS = [["or", "||"], ["and", "&&"], ["|"], ["^"], ["&"], ["=", "!="], ["<", "<=", ">", ">="], ["<<", ">>"], ["+", "-"],
          ["*", "/", "div", "mod"]]

# Words that begin what an `end` closes, inside actions, functions and procedures.
OPENING = {"if", "while", "foreach", "begin"}


class ReadError(Exception):
    """A file that can't be read: what is wrong, and where."""


@dataclass
class Type:
    """The type of a port, a variable or a formal: `bool`, `int`, `uint` or `List`, and the expression of its size."""
    name: str
    size: object = None
    item: object = None


@dataclass
class Variable:
    """A variable, a constant, a parameter or a formal."""
    name: str
    type: Type
    value: object = None


@dataclass
class Function:
    name: str
    formals: list
    variables: list
    body: object


@dataclass
class Pattern:
    """What an action takes from a port or gives to one: how many names or expressions, and how often."""
    port: str
    count: int
    repeat: object


@dataclass
class Action:
    tag: str
    inputs: list
    outputs: list


@dataclass
class CalFile:
    """A file: its package, its imports, and its actor or unit."""
    path: str
    package: str = ""
    imports: list = field(default_factory=list)
    kind: str = ""
    name: str = ""
    parameters: list = field(default_factory=list)
    inputs: list = field(default_factory=list)
    outputs: list = field(default_factory=list)
    variables: list = field(default_factory=list)
    functions: list = field(default_factory=list)
    actions: list = field(default_factory=list)


def place_of(text, offset):
    """The line and the column of an offset, both from 1."""
    line = text.count("\n", 0, offset) + 1
    return line, offset - (text.rfind("\n", 0, offset) + 1) + 1


def tokens_of(path, text):
    """The tokens of a text with their offsets, and an empty one at its end."""
    tokens, offset = [], 0
    while offset < len(text):
        match = TOKEN.match(text, offset)
        if not match:
            raise ReadError("%s:%d:%d: what stands here is no token" % ((path,) + place_of(text, offset)))
        if match.lastgroup != "blank":
            tokens.append((match.group(), match.start()))
        offset = match.end()
    return tokens + [("", len(text))]


class CalReader:
    """Reads the tokens of one file from the front."""

    def __init__(self, path, text):
        self.path, self.text = path, text
        self.tokens = tokens_of(path, text)
        self.at = 0

    def fail(self, wanted):
        word, offset = self.tokens[self.at]
        line, column = place_of(self.text, offset)
        raise ReadError(f"{self.path}:{line}:{column}: found `{word}` where {wanted} should stand")

    def peek(self, ahead=0):
        return self.tokens[min(self.at + ahead, len(self.tokens) - 1)][0]

    def take(self):
        word = self.peek()
        if not word:
            self.fail("more")
        self.at += 1
        return word

    def takes(self, word):
        """Takes this word if it is next."""
        if self.peek() != word:
            return False
        self.at += 1
        return True

    def expect(self, word):
        if not self.takes(word):
            self.fail(f"`{word}`")

    def name(self):
        word = self.peek()
        if not re.fullmatch(r"[A-Za-z_]\w*", word):
            self.fail("a name")
        return self.take()

    def listed(self, read, closing):
        """What stands between commas up to a closing word, which is taken, too."""
        found = []
        while not self.takes(closing):
            if found:
                self.expect(",")
            found.append(read())
        return found

    # Files.

    def file(self):
        found = CalFile(self.path)
        if self.takes("package"):
            found.package = self.tag()
            self.expect(";")
        while self.takes("import"):
            found.imports.append(self.imported())
        found.kind = self.peek()
        if found.kind not in ("actor", "unit"):
            self.fail("an actor or a unit")
        self.take()
        found.name = self.name()
        if found.kind == "actor":
            self.header(found)
        self.expect(":")
        while not self.ends(found.kind):
            self.member(found)
        return found

    def tag(self):
        names = [self.name()]
        while self.takes("."):
            names.append(self.name())
        return ".".join(names)

    def imported(self):
        """The class of a unit, and the name that is imported from it, or `*`."""
        names = [self.name()]
        while self.takes("."):
            names.append("*" if self.takes("*") else self.name())
        self.expect(";")
        return ".".join(names[:-1]), names[-1]

    def header(self, found):
        self.expect("(")
        found.parameters = self.listed(self.variable, ")")
        found.inputs = self.ports("==>")
        found.outputs = self.ports(":")
        self.at -= 1

    def ports(self, closing):
        return self.listed(lambda: Variable(type=self.type(), name=self.name()), closing)

    def ends(self, kind):
        return self.takes("end") or self.takes("end" + kind)

    def member(self, found):
        word = self.peek()
        if word == "function":
            found.functions.append(self.function())
        elif word == "procedure":
            self.skip_procedure()
        elif word in ("schedule", "priority"):
            self.skip_to_end()
        elif word in ("action", "initialize") or self.is_tagged():
            found.actions.append(self.action())
        else:
            found.variables.append(self.variable())
            self.expect(";")

    # Types, variables, functions.

    def type(self):
        found = Type(self.name())
        if self.takes("("):
            for key, value in self.listed(self.type_argument, ")"):
                setattr(found, key, value)
        return found

    def type_argument(self):
        key = self.name()
        if self.takes(":"):
            return "item", self.type()
        self.expect("=")
        return ("size" if key == "size" else key), self.expression()

    def variable(self):
        found = Variable(type=self.type(), name=self.name())
        if self.takes(":=") or self.takes("="):
            found.value = self.expression()
        return found

    def function(self):
        self.expect("function")
        name = self.name()
        self.expect("(")
        formals = self.listed(lambda: Variable(type=self.type(), name=self.name()), ")")
        self.expect("-->")
        self.type()
        variables = []
        if self.takes("var"):
            variables.append(self.variable())
            while self.takes(","):
                variables.append(self.variable())
        self.expect(":")
        body = self.expression()
        if not self.ends("function"):
            self.fail("`end`")
        return Function(name, formals, variables, body)

    def skip_procedure(self):
        depth = 0
        while depth or self.peek() != "begin":
            depth += self.depth_change(self.take())
        self.take()
        self.skip_to_end()

    def skip_to_end(self):
        """Skips up to the `end` that closes what is open, and that `end`."""
        depth = 1
        while depth:
            depth += self.depth_change(self.take())

    @staticmethod
    def depth_change(word):
        if word in OPENING:
            return 1
        return -1 if word == "end" or word.startswith("end") and word[3:] in CLOSED else 0

    # Actions.

    def is_tagged(self):
        """Whether a tag and a colon come next, as before an action."""
        ahead = 1
        while self.peek(ahead) == ".":
            ahead += 2
        return self.peek(ahead) == ":"

    def action(self):
        tag = ""
        if self.is_tagged():
            tag = self.tag()
            self.expect(":")
        self.take()
        inputs = self.listed(self.pattern, "==>")
        outputs = []
        if self.peek() not in ("guard", "var", "do", "end", "endaction", "endinitialize"):
            outputs.append(self.pattern())
            while self.takes(","):
                outputs.append(self.pattern())
        self.skip_to_end()
        return Action(tag, inputs, outputs)

    def pattern(self):
        port = ""
        if self.peek() != "[":
            port = self.name()
            self.expect(":")
        self.expect("[")
        count = len(self.listed(self.expression, "]"))
        repeat = self.expression() if self.takes("repeat") else None
        return Pattern(port, count, repeat)

    # Expressions, as tuples whose first part says what they are.

    def expression(self, level=0):
        if level == len(LEVELS):
            return self.prefixed()
        left = self.expression(level + 1)
        while self.peek() in LEVELS[level]:
            operator = self.take()
            left = ("binary", operator, left, self.expression(level + 1))
        return left

    def prefixed(self):
        if self.peek() in ("not", "-", "~"):
            return ("prefix", self.take(), self.prefixed())
        found = self.primary()
        while self.takes("["):
            found = ("index", found, self.expression())
            self.expect("]")
        return found

    def primary(self):
        word = self.peek()
        if self.takes("("):
            found = self.expression()
            self.expect(")")
            return found
        if self.takes("["):
            return self.list()
        if self.takes("if"):
            return self.conditional()
        if self.takes("true") or self.takes("false"):
            return ("literal", word == "true")
        if word[:1].isdigit():
            return ("literal", number_of(self.take()))
        name = self.name()
        if self.takes("("):
            return ("call", name, self.listed(self.expression, ")"))
        return ("name", name)

    def conditional(self):
        condition = self.expression()
        self.expect("then")
        yes = self.expression()
        self.expect("else")
        no = self.expression()
        if not self.ends("if"):
            self.fail("`end`")
        return ("if", condition, yes, no)

    def list(self):
        if self.takes("]"):
            return ("list", [])
        items = [self.expression()]
        if self.takes(":"):
            return ("comprehension", items[0], self.listed(self.generator, "]"))
        while self.takes(","):
            items.append(self.expression())
        self.expect("]")
        return ("list", items)

    def generator(self):
        self.expect("for")
        self.type()
        name = self.name()
        self.expect("in")
        low = self.expression()
        self.expect("..")
        return name, low, self.expression()


CLOSED = {"action", "initialize", "function", "procedure", "if", "while", "foreach", "begin", "schedule", "priority"}


def number_of(word):
    return int(word[2:], 16) if word.startswith("0x") else int(word)


def read_cal(path, text):
    try:
        return CalReader(path, text).file()
    except RecursionError as error:
        raise ReadError(f"{path}: expressions nest too deeply") from error
