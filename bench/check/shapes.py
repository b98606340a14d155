"""Sources of many like parts, of about a given size, or of so many files or instances.

Each shape gives files by their names, and how many parts there are.
"""

HEAD = "actor B() int In ==> int Out : "
ACTIONS = " ".join("t%d: action In:[a] ==> end" % k for k in range(256))
TWO_KINDS = " ".join("%s.t%d: action In:[a] ==> end" % (tag, k) for tag in "ab" for k in range(16))


# ---- texts

def filled(head, item, tail, size, most=10**6):
    """A text of about so many bytes, and how many items it has. What comes behind may depend on their number."""
    parts, length, count = [head], len(head) + 40, 0
    while count < most:
        text = item(count)
        if length + len(text) > size:
            break
        parts.append(text)
        length += len(text)
        count += 1
    return "".join(parts) + (tail(count) if callable(tail) else tail), count


def actor(head, item, tail="end", most=10**6):
    """One actor: what comes before, each item, what comes behind, and the most items."""
    def files(size):
        text, count = filled(HEAD + head, item, tail, size, most)
        return {"B.cal": text}, count
    return files


def halves(head, first, between, second, tail):
    """One actor, half of it items of one kind and half of another."""
    def files(size):
        one, count = filled(HEAD + head, first, between, size // 2)
        other, more = filled("", second, tail, size // 2)
        return {"B.cal": one + other}, count + more
    return files


def unit(head, item, using):
    """A unit of many items, and an actor that uses one of them."""
    def files(size):
        text, count = filled("unit U : " + head, item, "end", size)
        return {"U.cal": text, "B.cal": "import U.*; " + HEAD + "int x := %s; end" % using(count)}, count
    return files


def nested(open_, inner, close, depth):
    return open_ * depth + inner + close * depth


# ---- several files

def single_imports(size):
    """An actor that imports the constants of a unit one at a time."""
    text, count = filled("unit U : ", lambda k: "int c%d = 1; " % k, "end", size // 2)
    imports = "".join("import U.c%d; " % k for k in range(count))
    return {"U.cal": text, "B.cal": imports + HEAD + "end"}, count


def chained_units(size):
    """Units that each import the one before."""
    count = size // 1000
    files = {"U0.cal": "unit U0 : int c0 = 1; end"}
    for k in range(1, count):
        files["U%d.cal" % k] = "import U%d.*; unit U%d : int c%d = c%d + 1; end" % (k - 1, k, k, k - 1)
    files["B.cal"] = "import U%d.*; %sint x := c%d; end" % (count - 1, HEAD, count - 1)
    return files, count


def imported_units(size):
    """An actor that imports many units."""
    count = size // 1000
    files = {"U%d.cal" % k: "unit U%d : int c%d = 1; end" % (k, k) for k in range(count)}
    files["B.cal"] = "".join("import U%d.*; " % k for k in range(count)) + HEAD + "end"
    return files, count


def table(size):
    """A list that is made of the items of another one."""
    count = min(size // 61, 16_384)
    shape = "List(type: int, size = %d)" % count
    text = "%s t = [i : for int i in 0 .. %d]; %s u = [t[i] : for int i in 0 .. %d]; end"
    return {"B.cal": HEAD + text % (shape, count - 1, shape, count - 1)}, count


def pattern_names(size):
    """Patterns of many names on 32 ports, and guards that use the first one."""
    ports, each = 32, min(size // 2 // 32 // 9, 4_096)
    names = [", ".join("a%d_%d" % (port, k) for k in range(each)) for port in range(ports)]
    guards, count = filled("", lambda k: ", a0_0 > %d" % k, "", size // 2)
    head = "actor B() %s ==> int Out : " % ", ".join("int I%d" % port for port in range(ports))
    patterns = ", ".join("I%d:[%s]" % (port, names[port]) for port in range(ports))
    return {"B.cal": head + "action %s ==> guard a0_0 > 0%s end end" % (patterns, guards)}, ports * each + count


# ---- networks

INT = "<Type name='int'/>"
INC = "actor Inc(%s) int In ==> int Out : %s action In:[a] ==> Out:[a + 1] end end"
FOUR = "actor Four() int A, int B, int C, int D ==> int W, int X, int Y, int Z :" \
       " action A:[a], B:[b], C:[c], D:[d] ==> W:[a], X:[b], Y:[c], Z:[d] end end"


def literal(value):
    return "<Expr kind='Literal' literal-kind='Integer' value='%d'/>" % value


def parameter(name, value):
    return "<Parameter name='%s'>%s</Parameter>" % (name, literal(value))


def instance(name, actor, parameters=""):
    return "<Instance id='%s'><Class name='%s'/>%s</Instance>" % (name, actor, parameters)


def declaration(name, value):
    return "<Decl kind='Variable' name='%s'>%s%s</Decl>" % (name, INT, value)


def network(parts, name="B"):
    return "<XDF name='%s'>%s</XDF>" % (name, "".join(parts))


def join(source, source_port, target, target_port):
    ends = (source, source_port, target, target_port)
    return "<Connection src='%s' src-port='%s' dst='%s' dst-port='%s'/>" % ends


def in_a_row(count, ins, outs):
    """Connections from each instance to the next."""
    return [join("a%d" % k, o, "a%d" % (k + 1), i) for k in range(count - 1) for i, o in zip(ins, outs)]


def instances(size):
    """Instances in a row."""
    count = size // 1000
    parts = [instance("a%d" % k, "Inc") for k in range(count)] + in_a_row(count, ["In"], ["Out"])
    return {"B.xdf": network(parts), "Inc.cal": INC % ("", "")}, count


def links(size):
    """Instances with four links from each to the next."""
    count = size // 1000
    parts = [instance("a%d" % k, "Four") for k in range(count)] + in_a_row(count, "ABCD", "WXYZ")
    return {"B.xdf": network(parts), "Four.cal": FOUR}, 4 * count - 4


def own_parameters(more):
    """Instances of one class with a parameter of their own each, where the class has so many variables."""
    def files(size):
        count = size // 1000
        parts = [instance("a%d" % k, "Inc", parameter("p", k)) for k in range(count)]
        variables = " ".join("int x%d := p;" % k for k in range(more))
        return {"B.xdf": network(parts), "Inc.cal": INC % ("int p", variables)}, count
    return files


def classes(size):
    """Instances of a class of their own each."""
    count = size // 1000
    files = {"A%d.cal" % k: "actor A%d() int In ==> int Out : action In:[a] ==> end end" % k for k in range(count)}
    files["B.xdf"] = network([instance("a%d" % k, "A%d" % k) for k in range(count)])
    return files, count


def parameters(size):
    """One instance with many parameters."""
    given, count = filled("", lambda k: parameter("p%d" % k, k), "", size)
    declared = ", ".join("int p%d" % k for k in range(count))
    return {"B.xdf": network([instance("a", "Inc", given)]), "Inc.cal": INC % (declared, "")}, count


def declarations(value):
    """Variables of a network."""
    def files(size):
        first = declaration("v0", literal(1))
        text, count = filled(first, lambda k: declaration("v%d" % (k + 1), value(k)), "", size)
        return {"B.xdf": network([text])}, count
    return files


def nets(size):
    """A network of networks of 9 instances each."""
    count = size // 10_000
    files = {"Inc.cal": INC % ("", ""), "N.xdf": network([instance("a%d" % k, "Inc") for k in range(9)], "N")}
    files["B.xdf"] = network([instance("n%d" % k, "N") for k in range(count)])
    return files, count


# ---- the shapes

VARIABLES = {
    "variables": actor("", lambda k: "int x%d := 0; " % k, most=65_000),
    "constants, each of the one before": actor(
        "int c0 = 1; ", lambda k: "int c%d = c%d + 1; " % (k + 1, k), most=65_000),
    "constants, each of the first": actor("int c0 = 1; ", lambda k: "int c%d = c0 + 1; " % (k + 1), most=65_000),
    "constants of lists of 200": actor(
        "", lambda k: "int x%d = [%s][0]; " % (k, ", ".join(map(str, range(200)))), most=65_000),
    "constants of comprehensions of 9": actor(
        "", lambda k: "int x%d = [i : for int i in 0 .. 8][0]; " % k, most=65_000),
    "constants of a table of 10,000": actor(
        "List(type: int, size = 10000) t = [i : for int i in 0 .. 9999]; ",
        lambda k: "int x%d = t[%d]; " % (k, k % 10_000), most=55_000),
    "items of a comprehension of a table": table,
    "generators of one comprehension": actor(
        "int x = [0 : for int g0 in 0 .. 0", lambda k: ", for int g%d in 0 .. 0" % (k + 1), "][0]; end"),
    "parameters": lambda size: (lambda text, count: ({"B.cal": text}, count))(
        *filled("actor B(int p0 = 0", lambda k: ", int p%d = 0" % (k + 1), ") int In ==> int Out : end", size, 65_000)),
}

ROUTINES = {
    "procedures": actor("", lambda k: "procedure p%d(int a) begin end " % k),
    "procedures, each calls the first": actor(
        "procedure p0(int a) begin end ", lambda k: "procedure p%d(int a) begin p0(a); end " % (k + 1)),
    "procedures, each calls the one before": actor(
        "procedure p0(int a) begin end ", lambda k: "procedure p%d(int a) begin p%d(a); end " % (k + 1, k)),
    "functions": actor("", lambda k: "function f%d(int a) --> int : a end " % k),
    "functions, each calls the first": actor(
        "function f0(int a) --> int : a end ", lambda k: "function f%d(int a) --> int : f0(a) end " % (k + 1)),
    "functions, each calls the one before": actor(
        "function f0(int a) --> int : a end ", lambda k: "function f%d(int a) --> int : f%d(a) end " % (k + 1, k)),
    "a chain of functions that is called": actor(
        "function f0(int a) --> int : a end ", lambda k: "function f%d(int a) --> int : f%d(a) end " % (k + 1, k),
        lambda count: "int x := f%d(1); end" % count),
    "variables that call a function": actor(
        "function f(int a) --> int : a end ", lambda k: "int x%d := f(1); " % k, most=65_000),
    "functions, and variables that call them": actor(
        "", lambda k: "function f%d(int a) --> int : a end int x%d := f%d(1); " % (k, k, k)),
    "functions with a constant size, and such variables": actor(
        "int n = 8; ", lambda k: "function f%d(int(size=n) a) --> int : a end int x%d := f%d(1); " % (k, k, k)),
    "functions with a constant size of their own, and such variables": actor(
        "", lambda k: "int n%d = 8; function f%d(int(size=n%d) a) --> int : a end int x%d := f%d(1); " % (k, k, k, k, k)),
    "functions with a local of a constant size of its own, and such variables": actor(
        "", lambda k: "int n%d = 8; function f%d(int a) --> int var int(size=n%d) t = a : t end int x%d := f%d(1); "
        % (k, k, k, k, k)),
    "functions with a size that calls one with a constant of its own, and such variables": actor(
        "function n(int a) --> int : a end ",
        lambda k: "int n%d = 8; function f%d(int(size=n(n%d)) a) --> int : a end int x%d := f%d(1); " % (k, k, k, k, k)),
    "functions with sizes that call a function, and such variables": actor(
        "function n(int a) --> int : 8 end ",
        lambda k: "function f%d(int(size=n(1)) a) --> int : a end int x%d := f%d(1); " % (k, k, k)),
    "functions with a size that calls one of a constant of its own, and such variables": actor(
        "", lambda k: "int n%d = 8; function n_of%d() --> int : n%d end function f%d(int(size=n_of%d()) a) --> int : a end "
                      "int x%d := f%d(1); " % (k, k, k, k, k, k, k)),
    "functions with a size that calls the one before": actor(
        "function f0(int a) --> int : 8 end ", lambda k: "function f%d(int(size=f%d(1)) a) --> int : 8 end " % (k + 1, k)),
    "functions with a size that calls the one before, and such variables": actor(
        "function f0(int a) --> int : 8 end ",
        lambda k: "function f%d(int(size=f%d(1)) a) --> int : 8 end int x%d := f%d(1); " % (k + 1, k, k, k + 1)),
    "functions with sizes that call a function": actor(
        "function n(int a) --> int : 8 end ", lambda k: "function f%d(int(size=n(1)) a) --> int : a end " % k),
    "functions of long expressions": actor(
        "", lambda k: "function f%d(int a) --> int : %s end " % (k, nested("(a + ", "a", ")", 200))),
}

BODIES = {
    "statements": actor("int x := 0; action In:[a] ==> do ", lambda k: "x := x + a; ", "end end"),
    "variables, and statements that use the first": halves(
        "", lambda k: "int x%d := 0; " % k, "action In:[a] ==> do ", lambda k: "x0 := x0 + a; ", "end end"),
    "locals": actor("action In:[a] ==> var int l0 = 1", lambda k: ", int l%d = l%d" % (k + 1, k), " do end end"),
    "locals, each of the first": actor(
        "action In:[a] ==> var int l0 = 1", lambda k: ", int l%d = l0" % (k + 1), " do end end"),
    "locals, each of a constant of the actor": actor(
        "int c = 1; action In:[a] ==> var int l0 = c", lambda k: ", int l%d = c" % (k + 1), " do end end"),
    "locals of a procedure, each of the first": actor(
        "procedure p() var int l0 = 1", lambda k: ", int l%d = l0" % (k + 1), " begin end end"),
    "locals of a function, each of the first": actor(
        "function f() --> int var int l0 = 1", lambda k: ", int l%d = l0" % (k + 1), " : l0 end end"),
    "locals of a function that is called": actor(
        "function f() --> int var int l0 = 1", lambda k: ", int l%d = l%d" % (k + 1, k), " : l0 end int x := f(); end"),
    "formals of a function": actor(
        "function f(int a0", lambda k: ", int a%d" % (k + 1), ") --> int : a0 end end"),
    "locals, and statements that use the first": halves(
        "action In:[a] ==> var int l0 := 0", lambda k: ", int l%d := 0" % (k + 1), " do ", lambda k: "l0 := 1; ", "end end"),
    "procedures, and calls of the first": halves(
        "procedure p0(int a) begin end ", lambda k: "procedure p%d(int a) begin end " % (k + 1), "action In:[a] ==> do ",
        lambda k: "p0(1); ", "end end"),
    "procedures, and calls of the hundredth": halves(
        "", lambda k: "procedure p%d(int a) begin end " % k, "action In:[a] ==> do ", lambda k: "p99(1); ", "end end"),
    "blocks, 50 in one another": actor(
        "int x := 0; action In:[a] ==> do ",
        lambda k: nested("begin var int l = a do ", "x := l; ", "end ", 50), "end end"),
    "loops, 50 in one another": actor(
        "int x := 0; action In:[a] ==> do ",
        lambda k: nested("foreach int i in 0 .. 3 do ", "x := i; ", "end ", 50), "end end"),
}

ACTIONS_AND_MORE = {
    "guards": actor("action In:[a] ==> guard a > 0", lambda k: ", a > %d" % k, " end end"),
    "names of patterns, and guards that use the first": pattern_names,
    "outputs of 256 actions": lambda size: actor(
        "", lambda k: "action In:[a] ==> Out:[%s] end " % ", ".join(["a"] * min(size // 800, 4_096)), most=256)(size),
    "transitions of 256 actions": actor(
        ACTIONS + " schedule fsm s0 : ",
        lambda k: "s%d (t%d) --> s%d; " % (k % 1000, k % 256, (k + 1) % 1000), "end end"),
    "priorities of 256 actions": actor(
        ACTIONS + " priority ", lambda k: "t%d > t%d; " % (k % 255, k % 255 + 1), "end end"),
    "priorities of 16 actions above 16": actor(TWO_KINDS + " priority ", lambda k: "a > b; ", "end end"),
}

UNITS = {
    "a unit of constants, each of the one before": unit(
        "int c0 = 1; ", lambda k: "int c%d = c%d + 1; " % (k + 1, k), lambda count: "c%d" % count),
    "a unit of constants, each of the first": unit(
        "int c0 = 1; ", lambda k: "int c%d = c0 + 1; " % (k + 1), lambda count: "c%d" % count),
    "a unit of functions, each calls the one before": unit(
        "function f0(int a) --> int : a end ", lambda k: "function f%d(int a) --> int : f%d(a) end " % (k + 1, k),
        lambda count: "f0(1)"),
    "a unit of constants, imported one at a time": single_imports,
    "units, each imports the one before": chained_units,
    "units, all imported": imported_units,
}

NETWORKS = {
    "instances in a row": instances,
    "links of instances in a row": links,
    "instances with a parameter of their own": own_parameters(1),
    "the same of a class of 1,000 variables": own_parameters(1_000),
    "instances of a class of their own": classes,
    "parameters of an instance": parameters,
    "variables of a network, each of the one before": declarations(lambda k: "<Expr kind='Var' name='v%d'/>" % k),
    "variables of a network, each of the first": declarations(lambda k: "<Expr kind='Var' name='v0'/>"),
    "networks of 9 instances": nets,
}

SHAPES = {**VARIABLES, **ROUTINES, **BODIES, **ACTIONS_AND_MORE, **UNITS, **NETWORKS}
