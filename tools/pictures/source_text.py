"""A source that may break rules, as explanations read it: its tokens, what is open at one of them, and what its names are."""

import re
from bisect import bisect_right
from dataclasses import dataclass

from pictures.cal_text import TOKEN, CalReader, ReadError

RESERVED = set("""actor unit package import action initialize function procedure guard var do begin end if then elsif else
    while foreach for in repeat schedule fsm priority true false not and or div mod endactor endunit endaction endinitialize
    endfunction endprocedure endif endwhile endforeach endbegin endschedule endpriority""".split())

ENDS = {word for word in RESERVED if word.startswith("end")}

NAME = re.compile(r"[A-Za-z_][A-Za-z0-9_]*")
MOST_WORDS = 3000


@dataclass
class Opened:
    """What is open: its word, the number of its token, and the part of it that was reached."""
    word: str
    token: int
    part: str

    def has_statements(self):
        return self.part == "do" or self.word == "if" and self.part in ("then", "else", "elsif then")


class Source:
    """The tokens of a text. What is no token counts as one of a single character."""

    def __init__(self, text):
        self.text = text
        # Where each line begins.
        self.lines = [0] + [match.end() for match in re.finditer("\n", text)]
        self.tokens = []
        offset = 0
        while offset < len(text):
            match = TOKEN.match(text, offset)
            end = match.end() if match else offset + 1
            if not match or match.lastgroup != "blank":
                self.tokens.append((text[offset:end], offset))
            offset = end

    def line(self, offset):
        """The number of a line, from 1."""
        return bisect_right(self.lines, offset)

    def column(self, offset):
        """The number of a column, from 1."""
        return offset - self.lines[self.line(offset) - 1] + 1

    def token_at(self, offset):
        """The number of the first token from an offset on."""
        for number, (_, start) in enumerate(self.tokens):
            if start >= offset:
                return number
        return len(self.tokens)

    def word(self, number):
        return self.tokens[number][0] if 0 <= number < len(self.tokens) else ""

    def is_joined(self, number):
        """Whether a token follows the one before it without a blank."""
        if not 0 < number < len(self.tokens):
            return False
        word, start = self.tokens[number - 1]
        return start + len(word) == self.tokens[number][1]

    def opened(self, number):
        """What is open in front of a token of this number, the outermost first. Up to there the text follows the grammar."""
        stack = []
        for at in range(number):
            self.step(stack, at)
        return stack

    def step(self, stack, at):
        word, top = self.word(at), stack[-1] if stack else None
        if word in ("actor", "unit"):
            stack.append(Opened(word, at, "head" if word == "actor" else "name"))
        elif word in ("action", "initialize"):
            stack.append(Opened(word, at, "inputs"))
        elif word in ("function", "procedure", "while", "foreach"):
            stack.append(Opened(word, at, "head"))
        elif word in ("schedule", "priority"):
            stack.append(Opened(word, at, "body"))
        elif word == "begin" and top and top.word == "procedure" and top.part != "do":
            top.part = "do"
        elif word == "begin":
            stack.append(Opened(word, at, "do"))
        elif word == "if":
            is_statement = bool(top) and top.has_statements() and self.begins_statement(at)
            stack.append(Opened(word, at, "if" if is_statement else "value if"))
        elif word in ("(", "["):
            stack.append(Opened(word, at, ""))
        elif word in (")", "]") or word in ENDS:
            if stack:
                stack.pop()
        elif top:
            top.part = next_part(top, word)

    def begins_statement(self, number):
        before = self.word(number - 1)
        return before in (";", "do", "then", "else", "begin") or before in ENDS

    def name_of_opened(self, opened):
        """What is open, in words."""
        line = self.line(self.tokens[opened.token][1])
        return f"the `{opened.word}` of line {line}"


def next_part(top, word):
    """The part of what is open that a word leads to."""
    if top.word == "actor":
        if word == "==>" and top.part == "head":
            return "outputs"
        return "body" if word == ":" and top.part == "outputs" else top.part
    if top.word == "unit":
        return "body" if word == ":" else top.part
    if top.word in ("action", "initialize"):
        return {"==>": "outputs", "guard": "guard", "var": "var", "do": "do"}.get(word, top.part)
    if top.word == "function":
        return {"-->": "type", "var": "var", ":": "body"}.get(word, top.part)
    if top.word == "procedure":
        return "var" if word == "var" else top.part
    if top.word in ("while", "foreach", "begin"):
        return {"var": "var", "do": "do"}.get(word, top.part)
    if top.word == "if":
        if top.part.startswith("value"):
            return {"then": "value then", "else": "value else"}.get(word, top.part)
        return {"then": "then", "elsif": "if", "else": "else"}.get(word, top.part)
    return top.part


@dataclass
class Member:
    """A part of an actor or unit: its kind, its name or tag, how it is declared (`:=`, `=` or nothing), and its tokens."""
    kind: str
    name: str
    mark: str
    first: int
    last: int
    offset: int


@dataclass
class Meaning:
    """What a name is at a place, and where that is said."""
    kind: str
    mark: str = ""
    offset: int = -1


class PlacedReader(CalReader):
    """Reads a file that follows the grammar, and keeps where its parts are, and the states of its schedule."""

    def __init__(self, path, text):
        super().__init__(path, text)
        self.members, self.states, self.initial = [], [], ""
        self.found = self.file()

    def member(self, found):
        start, kind = self.at, self.peek()
        counts = len(found.variables), len(found.functions), len(found.actions)
        super().member(found)
        name, mark = "", ""
        if kind in ("function", "procedure"):
            name = self.tokens[start + 1][0]
        elif kind == "schedule":
            self.read_states(start, self.at)
        elif len(found.actions) > counts[2]:
            kind, name = "action", found.actions[-1].tag
        elif len(found.variables) > counts[0]:
            kind, name = "variable", found.variables[-1].name
            at = name_token(self.tokens, start, self.at, name)
            mark = self.tokens[at + 1][0] if self.tokens[at + 1][0] in (":=", "=") else ""
        self.members.append(Member(kind, name, mark, start, self.at, self.tokens[start][1]))

    def read_states(self, first, last):
        """The names of states in the order in which the schedule names them."""
        words = [word for word, _ in self.tokens[first:last]]
        names = [words[2]]
        for at in range(3, len(words) - 1):
            if words[at + 1] == "(" or words[at - 1] == "-->":
                names.append(words[at])
        self.states = list(dict.fromkeys(names))

    def actions(self):
        return [member for member in self.members if member.kind == "action"]

    def member_at(self, offset):
        """The last member that begins at an offset or before it."""
        found = None
        for member in self.members:
            if member.offset <= offset:
                found = member
        return found

    def meaning(self, name, offset):
        """What a name is where it stands at this offset."""
        member = self.member_at(offset)
        inner = self.inner_meaning(member, name, offset) if member else None
        if inner:
            return inner
        for each in self.members:
            if each.kind in ("variable", "function", "procedure") and each.name == name:
                return Meaning(each.kind, each.mark, each.offset)
        for kind, names in (("parameter", self.found.parameters), ("input", self.found.inputs), ("output", self.found.outputs)):
            if any(each.name == name for each in names):
                return Meaning(kind)
        if any(each in (name, "*") for _, each in self.found.imports):
            return Meaning("import")
        return Meaning("")

    def inner_meaning(self, member, name, offset):
        """What a name is by a declaration within a member."""
        words = [word for word, _ in self.tokens[member.first:member.last]]
        places = [place for _, place in self.tokens[member.first:member.last]]
        found = None
        for at, word in enumerate(words):
            if word != name or places[at] > offset and found:
                continue
            before, after = words[at - 1] if at else "", words[at + 1] if at + 1 < len(words) else ""
            if after == "in" and is_behind(words, at, ("foreach", "for")) and places[at] < offset:
                found = Meaning("turn", "", places[at])
            elif member.kind == "action" and "==>" in words and at < words.index("==>") and before in ("[", ","):
                found = found or Meaning("token", "", places[at])
            elif before not in (".", ":") and is_type_end(words, at) and in_declarations(words, at):
                kind = "formal" if member.kind in ("function", "procedure") and in_formals(words, at) else "local"
                found = found or Meaning(kind, after if after in (":=", "=") else "", places[at])
        return found

    def known_names(self, offset):
        """All names that are known somewhere in the file, and those within the part at an offset, if it isn't too long."""
        names = [member.name for member in self.members if member.name and "." not in member.name]
        for declared in (self.found.parameters, self.found.inputs, self.found.outputs):
            names += [each.name for each in declared]
        names += [name for _, name in self.found.imports if name != "*"]
        member = self.member_at(offset)
        if member and member.last - member.first < MOST_WORDS:
            words = dict.fromkeys(word for word, _ in self.tokens[member.first:member.last])
            names += [word for word in words if NAME.fullmatch(word) and word not in RESERVED
                      and self.inner_meaning(member, word, offset)]
        return list(dict.fromkeys(names))


def name_token(tokens, first, last, name):
    """The number of the token of a declared name: the last one of this name outside of brackets, before its value."""
    depth = 0
    for at in range(first, last):
        word = tokens[at][0]
        depth += (word in "([") - (word in ")]") if word else 0
        if depth == 0 and at > first and word == name:
            return at
    raise ReadError("the name isn't there")


def is_behind(words, at, wanted):
    """Whether one of these words begins the declaration of a turn whose name is here: the word, a type, the name."""
    depth = 0
    for before in range(at - 1, -1, -1):
        word = words[before]
        depth += (word == ")") - (word == "(")
        if depth == 0 and word in wanted:
            return True
        if depth == 0 and word in (";", "do", "then", ",") or before < at - 40:
            return False
    return False


def is_type_end(words, at):
    """Whether a type may end in front of a name: a name, or the parenthesis of its size."""
    before = words[at - 1] if at else ""
    if before == ")":
        return True
    return bool(NAME.fullmatch(before)) and before not in RESERVED


def in_declarations(words, at):
    """Whether a place is among formals or behind `var`, in a member."""
    if in_formals(words, at):
        return True
    for before in range(at - 1, -1, -1):
        if words[before] == "var":
            return True
        if words[before] in ("do", ";", "then", "else", "guard", "==>") or words[before] in ("begin", "-->"):
            return False
    return False


def in_formals(words, at):
    """Whether a place is in the parentheses behind the name of a function or procedure."""
    if words[0] not in ("function", "procedure"):
        return False
    depth = 0
    for word in words[2:at]:
        depth += (word == "(") - (word == ")")
        if depth == 0:
            return False
    return True
