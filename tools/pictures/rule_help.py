"""How to mend what breaks a rule of names, types, networks or words, where the place tells it."""

import difflib
import os
import re

from pictures.cal_text import ReadError
from pictures.source_text import ENDS, NAME, RESERVED, PlacedReader, Source

TYPES = "types are `bool`, `int(size=8)`, `uint(size=8)` and `List(type:int, size=4)`"

# Functions of other tools that have operators here.
OPERATOR_CALLS = {"bitand": "&", "bitor": "|", "bitxor": "^", "bitnot": "~", "lshift": "<<", "rshift": ">>", "mod": "mod"}
PRINTING = {"print", "println", "printf", "report", "putc"}
TYPE_WORDS = {"integer", "natural", "boolean", "char", "byte", "short", "long", "double", "unsigned", "signed", "string",
              "logic", "std_logic", "std_logic_vector", "Int", "Bool", "list", "array", "void", "uint8_t", "int8_t", "uint16_t",
              "int16_t", "uint32_t", "int32_t", "uint64_t", "int64_t"}
MOST_FILES = 4000
MOST_BYTES = 1 << 20

ATTRIBUTES = {
    "XDF": ("name",), "Port": ("kind", "name"), "Instance": ("id",), "Class": ("name",), "Parameter": ("name",),
    "Connection": ("src", "src-port", "dst", "dst-port"), "Attribute": ("name",), "Type": ("name",), "Entry": ("kind", "name"),
    "Expr": ("kind",), "Op": ("name",), "Decl": ("kind", "name"),
}


def nearest(name, names):
    """A known name that is written almost alike."""
    names = [each for each in names if each != name]
    same = [each for each in names if each.lower() == name.lower()]
    found = same or difflib.get_close_matches(name, names, 1, 0.65)
    return found[0] if found else ""


def name_in(text, offset):
    """The name or the reserved word at an offset."""
    match = NAME.match(text, offset)
    return match.group() if match else ""


class Here:
    """A place in an actor or unit that follows the grammar."""

    def __init__(self, path, text, offset):
        self.path, self.text, self.offset = path, text, offset
        self.reader = PlacedReader(path, text)
        self.name = name_in(text, offset)
        self.at = next((k for k, (_, start) in enumerate(self.reader.tokens) if start >= offset), len(self.reader.tokens) - 1)

    def word(self, ahead=0):
        at = self.at + ahead
        return self.reader.tokens[at][0] if 0 <= at < len(self.reader.tokens) else ""

    def meaning(self, name=None):
        return self.reader.meaning(name or self.name, self.offset)

    def line_of(self, offset):
        return self.text.count("\n", 0, offset) + 1

    def first_member(self):
        """The token behind those of package and imports."""
        return next((k for k, (word, _) in enumerate(self.reader.tokens) if word in ("actor", "unit")), 0)

    def begins_statement(self):
        return self.word(-1) in (";", "do", "then", "else", "begin") or self.word(-1) in ENDS

    def is_called(self):
        return self.word(1) == "("

    def names_a_port(self):
        """Whether the name stands in front of the `:` of a pattern or an output."""
        return self.word(1) == ":" and self.word(2) == "["


# Names.

def unknown_name(here):
    meaning = here.meaning()
    if here.word(-1) == "=" and here.word(-2) == "type":
        return f"the type of items stands behind a `:`, as in `List(type:{here.name}, size=4)`"
    if here.at < here.first_member() and here.word(-1) == ".":
        return f"the unit declares no `{here.name}`"
    if meaning.kind == "token" and not here.names_a_port():
        return f"the token `{here.name}` isn't known here: how many there are is a constant"
    if meaning.kind in ("local", "turn") and meaning.offset > here.offset:
        return f"`{here.name}` is declared behind this: put its declaration in front"
    if meaning.kind == "output":
        return f"an output is no variable: what is sent stands in the head of the action, as `{here.name}:[..]`"
    if meaning.kind == "input":
        return f"an input is no variable: an action takes tokens in its head, as `{here.name}:[x]`, and calls them by these names"
    if here.is_called() and here.name in ("int", "uint", "bool"):
        return "numbers aren't cast: what is stored keeps the lowest bits of its type"
    if here.is_called() and here.name in OPERATOR_CALLS:
        return f"there is no such function: write the operator `{OPERATOR_CALLS[here.name]}`"
    if here.is_called() and here.name in PRINTING:
        return "actors print nothing: send it to an output, or look at the trace"
    if here.name.lower() in ("true", "false"):
        return f"write `{here.name.lower()}`"
    if is_type_place(here):
        return TYPES if here.name in TYPE_WORDS or not near_type(here) else f"is `{near_type(here)}` meant? {TYPES}"
    return unknown_value(here)


def unknown_value(here):
    known = nearest(here.name, here.reader.known_names(here.offset))
    is_port = here.names_a_port()
    if is_port:
        ports = [each.name for each in here.reader.found.inputs + here.reader.found.outputs]
        known = nearest(here.name, ports)
        found = f"the actor has no port `{here.name}`"
        return f"{found}: is `{known}` meant?" if known else found + (f"; it has {listed(ports)}" if ports else "")
    if known:
        return f"is `{known}` meant?"
    what = "a function or procedure" if here.is_called() else "a variable"
    return f"nothing is called `{here.name}` here: declare {what} of this name, import it, or mend the name"


def is_type_place(here):
    """Whether a declaration begins at the place: a type, perhaps with its size, and a name."""
    after = here.word(1)
    if NAME.fullmatch(after) and after not in RESERVED:
        return True
    return here.word(-1) == ":" and here.word(-2) == "type" or after == "(" and here.word(2) in ("size", "type")


def near_type(here):
    return nearest(here.name, ["bool", "int", "uint", "List"])


def listed(names):
    return ", ".join(f"`{name}`" for name in names)


def wrong_use(here):
    """S5 at a name that is used as what it isn't."""
    kind, name = here.meaning().kind, here.name
    if here.word(-1) == "import" or not name:
        return None
    if kind == "procedure" and not here.is_called():
        return f"`{name}` is a procedure, and has no value: call it as a statement, `{name}(..);`"
    if kind == "procedure":
        return f"`{name}` is a procedure, and gives no value: call it as a statement, and read what it changed, or write a function"
    if kind == "function" and here.begins_statement() and here.is_called():
        return f"`{name}` is a function, and its value is dropped here: assign it, `x := {name}(..);`, or write a procedure"
    if kind == "function" and here.word(1) == ":=":
        return f"`{name}` is a function, and isn't assigned: its value is the expression behind its `:`"
    if kind == "function":
        return f"`{name}` is a function: call it with arguments in parentheses, `{name}(..)`"
    if kind in ("input", "output") and here.names_a_port():
        side = "in front of" if kind == "input" else "behind"
        return f"`{name}` is an {kind}: {kind}s stand {side} `==>`"
    if kind == "import" and here.begins_statement() and here.is_called():
        return f"`{name}` is imported, and what is imported is no procedure: use its value, or declare a procedure in the actor"
    if kind == "import":
        used = "an imported constant isn't called" if here.is_called() else "an imported function is called with its arguments"
        return f"`{name}` is imported: {used}"
    if kind and here.is_called():
        what = {"token": "a token", "input": "an input", "output": "an output"}.get(kind, "a variable")
        return f"`{name}` is {what} and isn't called: items of lists stand in brackets, `{name}[..]`"
    return "use the name as what it is declared to be: a function gives a value, a procedure is called as a statement"


# Types and constants.

def assigned_constant(here):
    meaning, name = here.meaning(), here.name
    if meaning.kind == "token":
        return f"`{name}` is a token, and keeps its value: declare a variable behind `var`, with `:= {name}` as its start, and change that"
    if meaning.kind == "parameter":
        return f"`{name}` is a parameter, and keeps its value: declare a variable with `:= {name}` as its start, and change that"
    if meaning.kind == "turn":
        return f"`{name}` is the variable of a `foreach`, which counts by itself: use a `while`, or a variable of your own"
    if meaning.kind == "import":
        return f"`{name}` is imported, and so a constant: declare a variable with `:= {name}` as its start, and change that"
    if meaning.offset >= 0:
        return f"declare `{name}` with `:=` (line {here.line_of(meaning.offset)}), so that it changes"
    return None


def not_constant(here):
    """T9: the first name of the expression that has no value before the actor runs."""
    depth = 0
    for at in range(here.at, len(here.reader.tokens)):
        word, offset = here.reader.tokens[at]
        depth += (word in ("(", "[")) - (word in (")", "]"))
        if depth < 0 or depth == 0 and word in (";", ",", "") or word in RESERVED - {"and", "or", "not", "div", "mod", "if", "then", "else"}:
            break
        if not NAME.fullmatch(word) or word in RESERVED:
            continue
        meaning = here.reader.meaning(word, offset)
        inside = here.reader.member_at(offset)
        if not inside:
            return f"`{word}` isn't known in the head of the actor: parameters and imported constants are"
        if meaning.kind == "function":
            word, meaning = used_behind(here, word, inside) or (word, meaning)
        if meaning.kind == "variable" and meaning.offset >= inside.offset and inside.kind == "variable":
            line = here.line_of(meaning.offset)
            return f"`{word}` is declared in line {line}: put its declaration in front of this one"
        if meaning.kind == "variable" and meaning.mark != "=":
            return f"`{word}` changes: declare it with `=`, as a constant, or write a number"
        if meaning.kind in ("token", "formal", "local", "turn"):
            return f"`{word}` is known only when the actor runs: write a number or a constant, as large as it may come to be"
    return None


def used_behind(here, function, inside):
    """A variable that a function uses and that is declared behind a place, with its meaning."""
    found = next((each for each in here.reader.members if each.kind == "function" and each.name == function), None)
    for at in range(found.first, found.last) if found else ():
        word, offset = here.reader.tokens[at]
        meaning = here.reader.meaning(word, offset) if NAME.fullmatch(word) and word not in RESERVED else None
        if meaning and meaning.kind == "variable" and meaning.offset >= inside.offset:
            return word, meaning
    return None


def type_arguments(here):
    """T2: what the arguments of a type should be."""
    inside, depth = [], 0
    for at in range(here.at + 1, len(here.reader.tokens)):
        word = here.reader.tokens[at][0]
        depth += (word == "(") - (word == ")")
        if depth <= 0:
            break
        if depth == 1 and here.reader.tokens[at + 1][0] in ("=", ":"):
            inside.append(word)
    if here.name == "bool":
        return "`bool` has no size: leave the argument out"
    if here.name in ("int", "uint"):
        wrong = [word for word in inside if word != "size"]
        if wrong:
            return f"`{here.name}` has no `{wrong[0]}`: write `{here.name}(size=8)`"
        return "write a `size` from 1 to 64"
    if here.name == "List":
        wrong = [word for word in inside if word not in ("size", "type")]
        lacking = [word for word in ("type", "size") if word not in inside]
        if wrong:
            return f"a list has no `{wrong[0]}`: write `List(type:int, size=4)`"
        if lacking:
            return f"the `{lacking[0]}` of the list is missing: write `List(type:int, size=4)`"
        return "a list has a `size` of at least 1 and at most 16,384 scalars"
    return None


def unknown_tag(here):
    """A3: the action's tag that is nearest."""
    tags = [tag for member in here.reader.actions() if member.name for tag in prefixes(member.name)]
    tag = re.compile(r"[A-Za-z0-9_.]+").match(here.text, here.offset).group()
    found = nearest(tag, tags)
    if found:
        return f"is `{found}` meant?"
    if not tags:
        return f"no action has a tag: write `{tag}:` in front of the action"
    return f"no action is tagged `{tag}`; tags are {listed(list(dict.fromkeys(tags))[:8])}"


def prefixes(tag):
    parts = tag.split(".")
    return [".".join(parts[:count]) for count in range(1, len(parts) + 1)]


# Files and folders.

def stem(path):
    return path[:-4] if path.endswith((".cal", ".xdf")) else path


def folder_help(path):
    """What is said of a file that isn't found below the current folder, by where a file of its name is."""
    below = "classes are looked for below the current folder"
    wanted = [path] if path.endswith((".cal", ".xdf")) else [path + ".cal", path + ".xdf"]
    name = f"{below}, and there is no {' or '.join(f'`{each}`' for each in wanted)}"
    folders = os.path.dirname(path).split("/") if "/" in path else []
    here = os.getcwd().split("/")
    # The current folder is one of those that the class names.
    for count in range(1, len(folders) + 1):
        if here[-count:] == folders[:count] and any(os.path.isfile("/".join([".."] * count + [each])) for each in wanted):
            return f"{name}: call `rvc` {upwards(count)}"
    # A file of this name is elsewhere.
    found = [each for each in find_files({os.path.basename(each) for each in wanted}) if each not in wanted]
    if not found:
        return name
    is_top = path.endswith((".cal", ".xdf"))
    return f"{name}; there is `{found[0]}`" + ("" if is_top else f", whose class is `{stem(found[0]).replace('/', '.')}`")


def upwards(count):
    return "in the folder above" if count == 1 else f"{count} folders above"


def find_files(names):
    """Files of these names below the current folder, of the first few thousand."""
    seen = 0
    for folder, inner, files in os.walk("."):
        inner[:] = sorted(each for each in inner if not each.startswith("."))
        seen += len(files) + len(inner)
        for each in sorted(files):
            if each in names:
                yield os.path.normpath(os.path.join(folder, each))
        if seen > MOST_FILES:
            return


def top_help(words):
    """N1 of the top."""
    top = next((word for word in words[1:2]), "")
    if os.path.isabs(top) or ".." in top.split("/"):
        return "name the top by a path below the current folder"
    other = stem(top) + (".xdf" if top.endswith(".cal") else ".cal")
    found = folder_help(top)
    return f"{found}; there is `{other}`" if os.path.isfile(other) and f"`{other}`" not in found else found


def class_help(path, text, offset):
    """N1 of a class in a network."""
    named = attributes(text, offset).get("name", "")
    if not named:
        return None
    folder = os.path.dirname(path)
    beside = os.path.join(folder, named.replace(".", "/"))
    if folder and os.path.isfile(beside + ".cal") and package_of(beside + ".cal") == ".".join(named.split(".")[:-1]):
        return f"classes are looked for below the current folder: call `rvc` in the folder `{folder}`, with `{os.path.basename(path)}`"
    if folder and any(os.path.isfile(beside + end) for end in (".cal", ".xdf")):
        return f"write the class with its package, `{beside.replace('/', '.')}`: classes are looked for below the current folder"
    return folder_help(named.replace(".", "/"))


def package_of(path):
    """The package that a file declares, or nothing."""
    with open(path, "rb") as file:
        source = Source(file.read(MOST_BYTES).decode("latin-1"))
    words = [word for word, _ in source.tokens]
    return "".join(words[1:words.index(";")]) if words[:1] == ["package"] and ";" in words else ""


def import_help(path, text, offset):
    """S3: the unit that an import asks for."""
    match = re.compile(r"import\s+([A-Za-z0-9_.\s]+?)\s*\.\s*(\*|[A-Za-z_]\w*)\s*;").match(text, offset)
    if not match:
        return None
    unit, name = "".join(match.group(1).split()), match.group(2)
    wanted = unit.replace(".", "/") + ".cal"
    if os.path.isfile(wanted):
        return f"the unit `{wanted}` declares no `{name}`"
    return folder_help(wanted)


def file_help(path, text, words):
    """S5 of a file: its package, its name or its kind isn't what is asked for."""
    return network_name_help(path, text) if path.endswith(".xdf") else actor_name_help(path, text, words)


def network_name_help(path, text):
    wanted = stem(os.path.basename(path))
    start = text.find("<XDF")
    found = attributes(text, start).get("name", "") if start >= 0 else ""
    if found and found != wanted:
        line = text.count("\n", 0, start) + 1
        return f"the attribute `name` in line {line} is `{found}`, and the file's name asks for `{wanted}`: make them equal"
    return None


def actor_name_help(path, text, words):
    reader = PlacedReader(path, text)
    found, name = reader.found, stem(os.path.basename(path))
    package = os.path.dirname(path).replace("/", ".")
    if found.name != name:
        return f"the file's name asks for `{found.kind} {name}`, and the {found.kind} in it is `{found.name}`: make them equal"
    if found.package != package:
        return package_help(path, found.package, package)
    if found.kind == "unit":
        return "an actor is asked for, and this is a unit, which is only imported"
    return "a unit is asked for, and this is an actor: imports lead to units alone"


def package_help(path, found, package):
    below = "classes are looked for below the current folder"
    if found and (not package or found.endswith("." + package)):
        outer = found[:len(found) - len(package)].strip(".") if package else found
        folders = outer.split(".")
        if os.getcwd().split("/")[-len(folders):] == folders:
            return f"{below}, and the package is `{found}`: call `rvc` {upwards(len(folders))}, with `{'/'.join(folders + [path])}`"
    if not found:
        return f"{below}, so the package of this file is `{package}`: begin it with `package {package};`"
    wanted = f"write `package {package};`" if package else "leave `package` out"
    return f"{below}, and the package is `{found}`: put the file into the folder `{found.replace('.', '/')}`, or {wanted}"


# Networks.

ATTRIBUTE = re.compile(r"""([A-Za-z_:][-A-Za-z0-9_:.]*)\s*=\s*("[^"]*"|'[^']*')""")


def attributes(text, offset):
    """The attributes of the element whose `<` is here."""
    end = text.find(">", offset)
    return {name: value[1:-1] for name, value in ATTRIBUTE.findall(text[offset:end if end >= 0 else len(text)])}


def attribute_help(text, offset):
    """F3: the attribute that is missing or wrong."""
    match = re.compile(r"<([A-Za-z]+)").match(text, offset)
    if not match:
        return None
    element, found = match.group(1), attributes(text, offset)
    lacking = [name for name in ATTRIBUTES.get(element, ()) if name not in found]
    if lacking:
        return f"`{element}` needs the attribute `{lacking[0]}`"
    if element == "XDF" and "." in found["name"]:
        return f"the `name` is that of the network alone: leave the package out, `{found['name'].rpartition('.')[2]}`"
    if element == "Port" and found["kind"] not in ("Input", "Output"):
        return "the `kind` of a port is `Input` or `Output`"
    return None


def connection_help(text, offset):
    """N5: the instance that isn't there, or the port that it hasn't."""
    found = attributes(text, offset)
    classes = {}
    for match in re.finditer(r"<Instance\b[^>]*>\s*<Class\b", text):
        classes[attributes(text, match.start()).get("id", "")] = attributes(text, match.end() - 6).get("name", "")
    for side, direction in (("src", "output"), ("dst", "input")):
        name, port = found.get(side, ""), found.get(side + "-port", "")
        if name and name not in classes:
            near = nearest(name, classes)
            return f"there is no instance `{name}`" + (f": is `{near}` meant?" if near else f"; there are {listed(list(classes)[:12])}")
        ports = ports_in(text, "Output" if direction == "input" else "Input") if not name else ports_of_class(classes[name], direction)
        if ports and port not in ports:
            near = nearest(port, ports)
            whose = f"`{name}` has no {direction}" if name else f"the network has no {'output' if direction == 'input' else 'input'}"
            return f"{whose} `{port}`: " + (f"is `{near}` meant?" if near else f"it has {listed(ports[:12])}")
    return None


def ports_in(text, kind):
    """The ports of a network, in its text."""
    found = [attributes(text, match.start()) for match in re.finditer(r"<Port\b", text)]
    return [each.get("name", "") for each in found if each.get("kind") == kind]


def ports_of_class(of_class, direction):
    """The ports of a class, if its file can be read."""
    stem_of_class = of_class.replace(".", "/")
    for end in (".xdf", ".cal"):
        if os.path.isfile(stem_of_class + end):
            with open(stem_of_class + end, "rb") as file:
                text = file.read(MOST_BYTES).decode("latin-1")
            if end == ".xdf":
                return ports_in(text, direction.capitalize())
            try:
                reader = PlacedReader(stem_of_class + end, text)
            except ReadError:
                return []
            return [each.name for each in (reader.found.inputs if direction == "input" else reader.found.outputs)]
    return []


IN_ACTORS = {"S1": unknown_name, "T2": type_arguments, "T4": assigned_constant, "T9": not_constant, "A3": unknown_tag}
IN_NETWORKS = {"F3": attribute_help, "N5": connection_help}


def rule_help(rule, path, text, offset, words):
    """Help on a rule, or nothing."""
    if rule == "N2" and path == "words":
        return "the top is given no values: give each of its parameters a default, as `int p = 1`, or name a network that gives them"
    if rule == "N1":
        return top_help(words) if path == "words" else class_help(path, text, offset)
    if path == "words":
        return None
    if rule == "S3":
        return import_help(path, text, offset)
    if path.endswith(".xdf"):
        if rule == "S5":
            return network_name_help(path, text)
        return IN_NETWORKS[rule](text, offset) if rule in IN_NETWORKS else None
    if rule == "S5" and offset == 0:
        return file_help(path, text, words)
    try:
        here = Here(path, text, offset)
    except ReadError:
        return None
    if rule == "S5":
        return wrong_use(here)
    return IN_ACTORS[rule](here) if rule in IN_ACTORS else None
