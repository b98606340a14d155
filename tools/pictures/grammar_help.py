"""How to mend what breaks the lexis or the grammar, where the tokens at the place tell it."""

from pictures.source_text import ENDS, NAME, RESERVED, Source

TYPES = {"int", "uint", "bool", "List", "float", "half", "String"}
OPERATORS = set("or || and && | ^ & = != < <= > >= << >> + - * / div mod not ~".split())
HEADS = ("action", "initialize")

FOREIGN = {
    "%": "write `mod` for the remainder",
    "?": "write `if c then a else b end` for a choice between values",
    "{": "there are no braces: write `then` or `do` in front of statements, and `end` behind them",
    "}": "there are no braces: write `end` behind statements",
    "!": "write `not`; only `!=` has a `!`",
    "'": "there are no characters: write the number, as 65 for A",
    "#": "there is no length of a list: write the number that its type says",
    "@": "there are no annotations: leave it out",
    "\\": "leave it out: lines go on without a mark",
}

# Operators and words of other languages, with what is written for them.
ELSEWHERE = {
    "xor": "write `^` for the exclusive or of bits, and `!=` for that of truth values",
    "rem": "write `mod` for the remainder",
    "sll": "write `<<`", "srl": "write `>>`", "sla": "write `<<`", "sra": "write `>>`",
    "nand": "write `not (a and b)`", "nor": "write `not (a or b)`",
}

OTHER_ELSIF = {"elseif", "elif", "elsf"}
LIST_TYPE = "the type of a list is written `List(type:int, size=4)`"


def lexis_help(rule, text, offset):
    """Help on a rule of the lexis."""
    here, rest = text[offset:offset + 1], text[offset:offset + 40]
    if rule == "L1":
        if text[offset:offset + 3] == "\xef\xbb\xbf":
            return "save the file without a mark of its encoding (BOM) at the start"
        if here > "\x7f":
            return "outside of comments a file has ASCII alone: write the character anew, or remove it"
        if here == "{" and text[:offset].rstrip().endswith(("=", ",", "{")):
            return "the items of a list stand in brackets, as `[1, 2, 3]`"
        return FOREIGN.get(here)
    if rule == "L4":
        if rest[:2] in ("0b", "0B"):
            return "there are no binary numbers: write a decimal number, or a hexadecimal one as `0x1F`"
        digits = rest.lstrip("0123456789") if rest[:2] not in ("0x", "0X") else rest[2:].lstrip("0123456789abcdefABCDEF")
        if digits[:1].isalpha():
            return "leave the letters behind the number out: its type is that of the variable"
        if digits[:1] == "_":
            return "leave the `_` out of the number"
        if digits[:1] == ".":
            return "write a whole number; in a range put a blank in front of `..`" if digits[:2] == ".." else "write a whole number"
    return None


class Place:
    """A token that can't follow, with what is around it."""

    def __init__(self, text, offset):
        self.source = Source(text)
        self.at = self.source.token_at(offset)
        self.stack = self.source.opened(self.at)
        self.word, self.after = self.source.word(self.at), self.source.word(self.at + 1)
        self.before, self.second, self.third = (self.source.word(self.at - k) for k in (1, 2, 3))
        self.top = self.stack[-1] if self.stack else None
        self.frame = next((each for each in reversed(self.stack) if each.word not in ("(", "[")), None)

    def is_in(self, *words):
        return bool(self.frame) and self.frame.word in words

    def is_joined(self, ahead=0):
        return self.source.is_joined(self.at + ahead)

    def in_statements(self):
        return bool(self.top) and self.top.has_statements()

    def in_body(self):
        return bool(self.top) and self.top.word in ("actor", "unit") and self.top.part == "body"

    def begins_statement(self, back):
        """Whether a statement begins so many tokens before the place."""
        return self.in_statements() and self.source.begins_statement(self.at - back)


def is_name(word):
    return bool(NAME.fullmatch(word)) and word not in RESERVED


def is_operand_end(word):
    return is_name(word) or word[:1].isdigit() or word in (")", "]", "true", "false") or word in ENDS


def grammar_help(text, offset):
    """Help on tokens that spell no file, or nothing."""
    place = Place(text, offset)
    for ask in ASKED:
        found = ask(place)
        if found:
            return found
    return None


def whole_file(p):
    if not p.stack and p.before == "end" and p.word in ("actor", "unit"):
        return f"the long end is one word: `end{p.word}`"
    if not p.stack and p.at and p.before in ENDS:
        return "the actor or unit has ended in front of this: an `end` stands too early, or too often"
    if not p.stack and p.word in ("actor", "unit", "import", "package") and (is_operand_end(p.before) or p.before == "*"):
        return "a `;` is missing in front of this"
    if not p.stack and p.before in ("", ";") and p.word not in ("", "package", "import", "actor", "unit"):
        return "a file begins with `package`, `import`, `actor` or `unit`"
    return None


def end_of_file(p):
    if p.word or not p.stack:
        return None
    first = wrong_end(p.source) or double_if(p.source)
    inner = p.source.name_of_opened(p.top)
    if p.top.word in ("(", "["):
        return f"write what is missing behind it: {inner} isn't closed"
    return f"an `end` is missing: {inner} is open at the end of the file" + (f"; {first}" if first else "")


def wrong_end(source, last=None):
    """The first `end` at the front of a line that closes what begins a line at another column."""
    stack = []
    for at in range(len(source.tokens) if last is None else last):
        word, offset = source.tokens[at]
        if word in ENDS and stack and stack[-1].word not in ("(", "["):
            opener = source.tokens[stack[-1].token][1]
            if is_first(source, at) and begins_line(source, stack[-1].token) is not None:
                if source.column(offset) != begins_line(source, stack[-1].token):
                    return f"the `{word}` of line {source.line(offset)} closes the `{stack[-1].word}` of line {source.line(opener)}"
        source.step(stack, at)
    return None


def begins_line(source, at):
    """The column of the first token in the line of a token, if what is in front of the token is its tag alone."""
    line = source.line(source.tokens[at][1])
    first = at
    while first > 0 and source.line(source.tokens[first - 1][1]) == line:
        first -= 1
    between = [source.word(k) for k in range(first, at)]
    is_tag = not between or between[-1] == ":" and all(is_name(word) or word in (".", ":") for word in between)
    return source.column(source.tokens[first][1]) if is_tag else None


def is_first(source, at):
    return at == 0 or source.line(source.tokens[at - 1][1]) != source.line(source.tokens[at][1])


def double_if(source):
    """The first `else if` that is a statement."""
    stack = []
    for at in range(len(source.tokens)):
        word, offset = source.tokens[at]
        if word == "if" and source.word(at - 1) == "else" and stack and stack[-1].has_statements():
            return f"the `else if` of line {source.line(offset)} needs an `end` of its own, so write `elsif`"
        source.step(stack, at)
    return None


def unclosed(p):
    """A part of the actor in the place of a statement: an `end` is missing in front of it."""
    begins = p.word in ("action", "initialize", "function", "procedure", "schedule", "priority")
    begins = begins or p.word == ":" and p.begins_statement(1) and p.after in ("action", "initialize")
    if not begins or not p.in_statements():
        return None
    opened = p.source.name_of_opened(p.top)
    first = wrong_end(p.source, p.at) or double_if(p.source)
    return f"an `end` is missing in front of this: {opened} is open" + (f"; {first}" if first else "")


def joined_signs(p):
    """Operators of other languages, of which the first sign alone was read."""
    if not p.is_joined():
        return None
    pair = p.before + p.word
    if pair == "==" and p.in_body():
        return "the value of a constant stands behind one `=`, that of a variable behind `:=`"
    if pair == "==":
        return "equality is `=`"
    if pair in ("<>", "/="):
        return "inequality is `!=`"
    if pair == "**":
        return "there is no power: multiply, or write `1 << n`"
    if pair == ">>>":
        return "write `>>`"
    return None


def wrong_arrow(p):
    arrow = p.word + p.after if p.is_joined(1) else p.word
    if arrow not in ("=>", "->", "==>", "-->") or p.word in ("=", "-") and arrow not in ("=>", "->"):
        return None
    if p.is_in("schedule", "function") and p.word != "-->":
        return "write `-->` here"
    if p.is_in("actor", *HEADS) and p.frame.part in ("head", "inputs") and p.word != "==>":
        if not (p.is_in("actor") and is_name(p.before) and not is_type_before(p)):
            return "write `==>` between inputs and outputs"
    return None


def is_type_before(p):
    return p.second in TYPES or p.second == ")"


def reserved_name(p):
    """A reserved word where a name is wanted."""
    if p.word not in RESERVED:
        return None
    is_wanted = p.before in ("actor", "unit", "function", "procedure", "package", "import", ".", "fsm")
    is_wanted = is_wanted or p.in_body() and p.after == ":" and p.before != "var"
    is_wanted = is_wanted or p.is_in("schedule") and (p.before in ("(", "-->", ",") or p.after == "(")
    is_wanted = is_wanted or p.is_in("priority") and (p.before == ">" or p.after == ">")
    is_wanted = is_wanted or p.is_in("actor") and p.frame.part in ("head", "outputs") and p.before in TYPES
    is_wanted = is_wanted or is_declared_here(p) and p.after in (":=", "=", ";", ",", ")", "==>", ":", "in")
    is_wanted = is_wanted or p.is_in(*HEADS) and p.before in ("[", ",") and p.after in ("]", ",") and p.frame.part == "inputs"
    is_wanted = is_wanted or p.before in OPERATORS | {":=", "(", "["} and p.after in OPERATORS | {";", ")", "]"} and p.word not in ENDS
    if not is_wanted or p.before == "=" and p.word in ("then", "do"):
        return None
    return f"`{p.word}` is a reserved word of the language: take another name"


def is_declared_here(p):
    """Whether a type ends in front of the place, so that a declared name is to come."""
    if is_name(p.before):
        return p.second in ("", ";", ":", "(", ",", "var", "==>", "foreach", "for") or p.second in ENDS
    return p.before == ")" and p.top is not None and ends_type(p)


def ends_type(p):
    """Whether the parenthesis in front of the place closes that of a type."""
    depth, at = 0, p.at - 1
    while at >= 0:
        depth += (p.source.word(at) == ")") - (p.source.word(at) == "(")
        if depth == 0:
            return p.source.word(at - 1) in TYPES
        at -= 1
    return False


def file_parts(p):
    if p.word == "import" and p.stack:
        return "imports stand in front of `actor` or `unit`"
    if p.in_body() and p.word == "schedule" and p.after == "fsm":
        return "an actor has one schedule: put all transitions into it"
    if p.second == "end" and "end" + p.before in ENDS and p.word in ENDS:
        return f"the long end is one word: `end{p.before}`"
    if p.word == ";" and (p.before in ENDS or p.second == "end" and "end" + p.before in ENDS):
        return "no `;` stands behind an `end`"
    if p.word == ";" and p.before in (";", "do", "then", "else", "begin", ":"):
        return "leave this `;` out"
    if p.top and p.top.word == "unit" and p.top.part == "name" and p.word == "(":
        return "a unit has no parameters: write `unit NAME :`"
    if p.top and p.top.word == "unit" and p.word in ("procedure", "action", "initialize", "schedule", "priority"):
        return "a unit has constants and functions alone"
    if p.word in ENDS and p.word != "end" and p.frame and p.word != "end" + p.frame.word:
        if not (is_operand_end(p.before) and p.in_statements() and not p.before in ENDS):
            return f"what is open here is {p.source.name_of_opened(p.frame)}: close it by `end` or `end{p.frame.word}`"
    return None


def brackets(p):
    if p.word in (")", "]") and (not p.top or p.top.word not in ("(", "[")):
        return f"no parenthesis or bracket is open that this `{p.word}` could close"
    if p.word in (")", "]") and {p.top.word, p.word} in ({"(", "]"}, {"[", ")"}):
        return f"close the `{p.top.word}` first"
    if p.word in (";", "then", "do", "guard", "var") and p.top and p.top.word in ("(", "[") and is_operand_end(p.before):
        line = p.source.line(p.source.tokens[p.top.token][1])
        return f"the `{p.top.word}` of line {line} isn't closed"
    return None


def types(p):
    if p.second in OTHER_WORDS and is_name(p.before) and p.second not in TYPES:
        found = OTHER_WORDS[p.second]
        if found:
            return found
    if p.word == "[" and (p.before in TYPES or p.second in TYPES and is_name(p.before) and not p.in_statements()):
        return LIST_TYPE
    if p.before == "[" and p.second == "List":
        return LIST_TYPE
    in_type = p.top and p.top.word == "(" and p.source.word(p.top.token - 1) in TYPES
    if in_type and p.second == "=" and is_name(p.word):
        return "the `)` of the type is missing in front of this"
    if in_type and p.source.word(p.top.token - 1) == "List":
        return LIST_TYPE
    if p.before == "size" and p.second in TYPES:
        return f"the size of a type is written `{p.second}(size=8)`"
    if p.word in ("==>", ",", ")") and (p.before in TYPES and p.is_in("actor", "function", "procedure") or p.before == ")" and ends_type(p)):
        return "a name is missing behind the type"
    if in_type and (p.before == "(" or p.before == ":"):
        return f"the size of a type is written `{p.source.word(p.top.token - 1)}(size=8)`"
    if p.word == "<" and p.before in ("int", "uint"):
        return f"the size of a type is written `{p.before}(size=8)`"
    return None


# Words in front of a type that other tools have.
OTHER_WORDS = {
    "const": "leave `const` out: a constant is declared as `int c = 1;`",
    "constant": "leave `constant` out: a constant is declared as `int c = 1;`",
    "mutable": "leave `mutable` out: a variable is declared as `int x := 1;`",
    "signal": "leave `signal` out: a variable is declared as `int x := 1;`",
    "static": "leave `static` out: variables of an actor keep their values",
    "multi": "there are no ports of several channels: declare each port",
    "unsigned": "the type of numbers without sign is `uint(size=8)`",
    "signed": "the type of numbers with sign is `int(size=8)`",
}


def header(p):
    if p.before in TYPES or not p.is_in("actor") or p.frame.part == "body":
        return None
    if p.second == "actor" and p.word == "[":
        return "there are no parameters of types: leave them out"
    if p.second == "actor" and p.word != "(":
        return "behind the name of an actor stand its parameters, `()` if it has none"
    if p.top.word == "(" and p.word == ":=":
        return "the value that a parameter has if none is given stands behind `=`"
    if p.word in ("==>", ",", ":") and is_name(p.before) and p.second in (")", "==>", ","):
        return f"a port has a type, as in `int {p.before}`"
    if p.frame.part == "outputs" and p.word not in (",", ":") and p.top.word == "actor":
        return "the head of an actor ends with `:`"
    return None


def declarations(p):
    if p.in_body() and p.word == "var":
        return "variables of an actor are declared without `var`, each with a `;` behind it"
    if p.in_body() and p.word == "fsm":
        return "a schedule begins with `schedule fsm NAME :`"
    if p.before == "schedule":
        return "a schedule begins with `schedule fsm NAME :`"
    if p.in_body() and p.word == "," and is_operand_end(p.before):
        return "declare each variable by itself, with its type and a `;`"
    if p.in_body() and p.word == "(" and is_name(p.before) and is_name(p.second):
        return f"a function is declared as `function {p.before}(int x) --> int : x end`"
    if p.in_body() and p.word in ("action", "initialize") and is_name(p.before) and (p.second in (";", ":") or p.second in ENDS):
        return f"a `:` is missing behind the tag `{p.before}`"
    if p.in_body() and p.word == ":" and is_name(p.before) and is_name(p.second) and p.after not in ("action", "initialize"):
        return "the value of a constant stands behind `=`, that of a variable behind `:=`"
    if p.in_body() and p.before == ":" and is_name(p.second) and (p.word in TYPES or p.after in (";", ":=", "=")):
        return f"a variable is declared with its type in front of its name, as `int {p.second} := 1;`"
    if p.in_body() and p.before == ":" and is_name(p.second) and is_name(p.word):
        return "behind a tag and its `:` stands `action`"
    if p.in_body() and p.before == "return":
        return "there is no `return`: an action sends in its head, and the value of a function is its expression"
    if p.in_body() and p.word in (":=", "(", "[") and is_name(p.before) and (p.second in (";", ":") or p.second in ENDS):
        return "statements stand behind the `do` of an action; a variable is declared with its type in front of its name"
    if p.in_body() and p.word in ("if", "while", "foreach", "begin", "do", "guard") and (p.before in ENDS | {";", ":"}):
        return "statements and guards stand in an action"
    if p.in_body() and (p.word in RESERVED or is_name(p.word)) and is_operand_end(p.before) and p.before not in ENDS:
        return "a `;` is missing in front of this"
    return None


def statements(p):
    if not p.in_statements():
        return None
    if p.begins_statement(1) and (p.before in OTHER_ELSIF or p.before == "else"):
        return "write `elsif`"
    if p.begins_statement(1) and p.before == "return":
        return "there is no `return`: an action sends in its head, and the value of a function is its expression"
    if p.begins_statement(1) and p.before in ("switch", "case"):
        return "there is no `case`: write `if .. then .. elsif .. end`"
    if p.begins_statement(1) and p.before in ("let", "int", "uint", "bool", "List") or p.begins_statement(2) and is_name(p.word):
        return "variables of an action are declared in front of `do`, behind `var` and without `;`"
    if p.begins_statement(1) and is_name(p.before) and (is_name(p.word) or p.word[:1].isdigit()):
        return "a statement assigns, as `x := ..;`, or calls a procedure, as `p(..);`"
    if p.word in ("+", "-", "<<", ">>", "*", "&", "|", "^") and p.before == "]" and p.after in ("=", "+", "-"):
        return f"there is no such assignment: write `x[i] := x[i] {p.word} 1;`"
    if p.word == "for":
        return "write `foreach int k in 0 .. 3 do .. end`"
    if p.begins_statement(1) and p.word in ("=", "<="):
        return "a statement assigns with `:=`"
    if p.begins_statement(1) and p.word in ("+", "-", "*", "/", "&", "|", "^", "<<", ">>"):
        return f"there is no such assignment: write `{p.before} := {p.before} {p.word} 1;`"
    if p.word == "=" and p.before == "]":
        return "a statement assigns with `:=`"
    if p.word in ("guard", "var") and p.is_in(*HEADS):
        return "`guard` and then `var` stand in front of `do`"
    if p.word in ("elsif", "else") and p.is_in("if") and p.frame.part == "else":
        return "`elsif` stands in front of `else`, and an `if` has one `else`"
    if p.word in ("elsif", "else") and not p.is_in("if"):
        return "no `if` is open here: its `end` stands too early"
    if is_operand_end(p.before) and (is_name(p.word) or p.word in RESERVED) and p.word not in OPERATORS:
        return "a `;` is missing in front of this"
    return None


def values(p):
    if not p.frame or not p.frame.part.startswith("value"):
        return None
    if p.word == "elsif":
        return "in an expression write `else if .. end`, with an `end` for each `if`"
    if p.word in ENDS and p.frame.part == "value then" and is_operand_end(p.before):
        return "an `if` in an expression needs an `else`"
    if p.frame.part == "value else" and p.word not in OPERATORS and is_operand_end(p.before):
        return f"an `end` is missing: each `if` of an expression has its own, and {p.source.name_of_opened(p.frame)} is open"
    if p.frame.part == "value if" and is_operand_end(p.before):
        return "write `then` behind the condition"
    return None


def controls(p):
    """Heads of `if`, `while` and `foreach`, and of lists that are computed."""
    if p.word == "in" and is_name(p.before) and p.second in ("foreach", "for"):
        return f"the variable has a type, as in `{p.second} int {p.before} in 0 .. 3`"
    if p.word == "for" and p.top and p.top.word == "[" and is_operand_end(p.before):
        return "a list is computed by `[E : for int k in 0 .. 3]`"
    if p.is_in("foreach") and p.frame.part == "head" and p.word in ("to", "downto", ":"):
        return "bounds are written `0 .. 3`, the lower one first"
    if p.is_in("foreach") and p.frame.part == "head" and (p.word == "(" or p.before == "("):
        return "write `foreach int k in 0 .. 3 do .. end`"
    if p.is_in("foreach") and p.frame.part == "head" and is_name(p.before) and p.source.word(p.frame.token + 2) == p.before:
        return f"write `in` behind `{p.before}`"
    if p.is_in("foreach") and p.frame.part == "head" and (p.word == "do" or p.before == ".."):
        return "bounds are written `0 .. 3`, the lower one first"
    if p.word == ":=" and (p.is_in("if", "while") and p.frame.part in ("if", "head") or p.is_in(*HEADS) and p.frame.part == "guard"):
        return "equality is `=`"
    if not is_operand_end(p.before) or p.word in ELSEWHERE:
        return None
    if p.is_in("if") and p.frame.part == "if" and p.top is p.frame:
        return "write `then` behind the condition"
    if p.is_in("while") and p.frame.part == "head" and p.top is p.frame:
        return "write `do` behind the condition"
    if p.is_in("foreach") and p.frame.part == "head" and p.top is p.frame and ".." in [p.source.word(p.at - k) for k in range(1, 8)]:
        return "write `do` behind the bounds"
    return None


def heads(p):
    """Heads of actions."""
    if not p.is_in(*HEADS) or p.frame.part == "do":
        return None
    if p.frame.part == "inputs" and p.word in ("guard", "var", "do"):
        return f"`{p.word}` stands behind `==>` and the outputs"
    if p.before == "initialize" and p.word != "==>":
        return "an `initialize` takes no tokens: `==>` follows it"
    is_tagged = p.second == "action" or p.before == ":" and p.third == "action"
    if p.frame.part == "inputs" and is_name(p.word) and p.after == ":" and is_tagged:
        tag = p.before if p.before != ":" else p.second
        return f"a tag stands in front of `action`, as in `{tag}: action {p.word}:[..] ==> .. end`"
    if p.frame.part == "inputs" and p.top.word == "[" and p.before in TYPES | {")"}:
        return "tokens are named without a type: it is that of the port"
    if p.frame.part == "inputs" and p.top.word == "[" and p.word == "|":
        return "how many tokens are taken is fixed: name each, or write `repeat`"
    if p.frame.part == "inputs" and p.top.word == "[" and p.word not in ("]", ",", ";"):
        return "here stand names alone: what is asked of their values stands behind `guard`"
    if p.frame.part == "inputs" and p.word in ENDS:
        return "`==>` is missing, which stands there also if nothing is sent"
    if p.frame.part in ("inputs", "outputs") and p.before == "]" and is_name(p.word) and p.after in (":", "["):
        return "a `,` is missing in front of this"
    if p.frame.part in ("inputs", "outputs") and p.word == "(" and is_name(p.before) and p.top is p.frame:
        return f"write `{p.before}:[..]`, with a `:` and brackets"
    if p.word == ";" and p.frame.part == "var":
        return "variables behind `var` have a `,` between them, and no `;`"
    if p.word == ";" and p.frame.part == "guard":
        return "no `;` stands here; several guards have a `,` between them"
    if p.word == ";":
        return "no `;` stands here: `guard`, `var`, `do` or `end` follows"
    if p.word == "]" and p.before == "[" and not is_operand_end(p.second):
        return "a port from which nothing is taken, or to which nothing is sent, isn't named"
    if p.frame.part in ("inputs", "outputs") and p.word == "[" and is_name(p.before) and p.top is p.frame:
        return f"write `{p.before}:[..]`, with a `:`"
    if p.frame.part in ("inputs", "outputs") and p.before == ":" and is_name(p.second):
        return f"what goes through a port stands in brackets: `{p.second}:[..]`"
    if p.before == "repeat":
        return "`repeat` needs a constant number behind it"
    if p.before == "guard" and (p.word in ENDS or p.word in ("do", "var")):
        return "a guard needs an expression; leave the word `guard` out if there is none"
    if p.word == "guard":
        return "`guard` stands in front of `var`, and several guards have a `,` between them"
    if p.word == "begin":
        return "the statements of an action stand behind `do`"
    if p.frame.part in ("guard", "var") and p.top is p.frame and p.after in (":", "[") and is_operand_end(p.before):
        return "the outputs stand in front of `guard` and `var`"
    if p.word == "delay":
        return "there are no delays: leave it out"
    return None


def functions(p):
    if p.is_in("function"):
        if p.second == "function" and p.before in TYPES:
            return f"the type of a function stands behind its formals: `function {p.word}(int x) --> {p.before} : x end`"
        if p.frame.part == "head" and p.word in (",", ")") and is_name(p.before) and p.second in ("(", ","):
            return f"a formal has a type, as in `int {p.before}`"
        if p.frame.part == "head" and p.before == ")" and p.top is p.frame:
            return "a function has a type: `function f(int x) --> int : x end`"
        if p.frame.part in ("type", "var") and is_operand_end(p.before) and p.top is p.frame:
            return "behind the type of a function stand `:` and one expression, as in `function f(int x) --> int : x end`"
    if p.is_in("function") and p.frame.part == "body" and p.top is p.frame and is_operand_end(p.before) and p.before not in ENDS:
        return "the value of a function is one expression, and `end` follows it"
    if p.is_in("function") and p.frame.part == "body" and p.top is p.frame and p.before in ENDS:
        return f"an `end` is missing: {p.source.name_of_opened(p.frame)} is open"
    if p.is_in("procedure") and p.frame.part == "head" and p.word == "-->":
        return "a procedure has no type and gives no value: write a function"
    if p.is_in("procedure") and p.frame.part != "do" and p.top is p.frame and p.word in (":", "do"):
        return "the statements of a procedure stand between `begin` and `end`"
    return None


def schedules(p):
    if p.is_in("schedule") and p.second == "fsm":
        return "a schedule begins with `schedule fsm NAME :`"
    if p.is_in("schedule") and p.second == "-->" and p.word == ",":
        return "each transition ends with a `;`"
    if p.is_in("schedule") and (p.word == "-->" and p.before != ")" or p.word == "(" and p.before in (":", ";")):
        return "a transition is written `state (tag) --> state;`"
    if p.is_in("schedule") and is_name(p.before) and p.word not in ("-->", ";", ")", ",", ".", ":"):
        return "a transition is written `state (tag) --> state;`"
    if p.is_in("priority") and p.word in (",", ">>", "<", ">="):
        return "a priority is written `higher > lower;`"
    if p.is_in("schedule", "priority") and is_name(p.before):
        return "a `;` is missing in front of this"
    return None


def words_elsewhere(p):
    """Words that other languages have within expressions."""
    if p.word in ELSEWHERE and is_operand_end(p.before):
        return ELSEWHERE[p.word]
    if p.before == "old" and is_name(p.word):
        return "leave `old` out"
    if p.before == "native" and p.word in ("function", "procedure"):
        return "there are no native functions and procedures: write it in this language"
    if p.before in ("and", "or") and p.word in ("then", "else"):
        return f"write `{p.before}` alone: its right side is evaluated only if the left one doesn't decide"
    if p.word == ";" and p.before in ("break", "continue", "return", "exit"):
        return f"there is no `{p.before}`: let the condition of an `if` or a `while` decide"
    if p.before == ")" and p.second in TYPES and p.third == "(" and is_name(p.word):
        return "numbers aren't cast: what is stored keeps the lowest bits of its type"
    if p.word == "." and is_operand_end(p.before) and not p.in_body():
        return "there are no parts of values and no methods; tokens come and go in the head of the action"
    if p.before == "let":
        return "there is no `let`: declare a variable behind `var`, in front of `do`"
    if p.second == "lambda" and p.top and p.source.word(p.top.token - 1) == "lambda" or p.third == "lambda":
        return "there is no `lambda`: declare a function"
    return None


def expressions(p):
    if (p.before in OPERATORS or p.before == ":=") and (p.word in OPERATORS or p.word in (";", ")", "]", ",") or p.word in ENDS):
        return f"an expression is missing behind `{p.before}`"
    if p.word == ".." and p.top and p.top.word == "[":
        return "an index is one number: write a loop"
    if p.word == "]" and p.before == "[":
        return "an index is missing"
    if p.word == "," and p.before in (",", "[", "("):
        return "leave this `,` out, or write what is missing in front of it"
    if p.before == "," and p.word in ("==>", ":", ")", "]", ";"):
        return "something is missing behind the `,`"
    if p.word and p.word == p.before:
        return f"`{p.word}` stands here twice"
    if is_operand_end(p.before) and (is_name(p.word) or p.word[:1].isdigit()) and p.top and not p.in_body():
        return f"between `{p.before}` and `{p.word}` an operator, a `,` or a `;` is missing"
    return None


ASKED = (whole_file, end_of_file, joined_signs, words_elsewhere, unclosed, reserved_name, wrong_arrow, file_parts, types, header, declarations, functions,
         schedules, heads, values, controls, statements, brackets, expressions)
