"""Values of constant expressions, of actors and of networks."""

import operator

from pictures.cal_text import ReadError


# What a value and a list hold at most, and how many turns a comprehension makes at most.
MOST_BITS, MOST_ITEMS, MOST_TURNS = 127, 16384, 1048576


def shifted(left, count):
    """A number shifted to the left, or to the right if the count is below 0."""
    return left << count if count >= 0 else left >> -count


def counted(count):
    if not 0 <= count <= 127:
        raise ReadError("a constant shifts by less than 0 or more than 127")
    return count


def quotient(left, right):
    """The quotient, rounded towards 0."""
    if right == 0:
        raise ReadError("a constant divides by 0")
    found = abs(left) // abs(right)
    return found if (left < 0) == (right < 0) else -found


BINARY = {
    "|": operator.or_, "^": operator.xor, "&": operator.and_, "=": operator.eq, "!=": operator.ne, "<": operator.lt,
    "<=": operator.le, ">": operator.gt, ">=": operator.ge, "<<": lambda left, right: shifted(left, counted(right)),
    ">>": lambda left, right: shifted(left, -counted(right)), "+": operator.add, "-": operator.sub, "*": operator.mul,
    "/": quotient, "div": quotient, "mod": lambda left, right: left - right * quotient(left, right),
}

PREFIX = {"not": operator.not_, "-": operator.neg, "~": operator.invert}


def stored(value, kind):
    """A value as a variable of a type holds it: `kind` is the type's name and its size, where it has one."""
    name, size = kind
    if name not in ("int", "uint") or isinstance(value, (bool, list)):
        return value
    value %= 1 << size
    return value - (1 << size) if name == "int" and value >> (size - 1) else value


class Scope:
    """Names with their values, which are computed when they are first asked for, and functions."""

    def __init__(self, outer=None):
        self.outer = outer
        self.values, self.delayed, self.functions = {}, {}, {}

    def delay(self, name, compute):
        """Gives a name the value that a call computes."""
        self.delayed[name] = compute

    def value(self, name):
        if name in self.values:
            return self.values[name]
        if name in self.delayed:
            self.values[name] = self.delayed.pop(name)()
            return self.values[name]
        if self.outer is None:
            raise ReadError(f"no constant `{name}` is known")
        return self.outer.value(name)

    def function(self, name):
        if name in self.functions:
            return self.functions[name]
        if self.outer is None:
            raise ReadError(f"no function `{name}` is known")
        return self.outer.function(name)


def kind_of(kind, scope):
    """A type's name and its size in bits."""
    size = 32 if kind.size is None else constant(kind.size, scope)
    if kind.name in ("int", "uint") and not (isinstance(size, int) and 1 <= size <= 64):
        raise ReadError(f"a type `{kind.name}` has a size that isn't from 1 to 64")
    return kind.name, size


def constant(expression, scope):
    """The value of a constant expression. What has none is an error that is told."""
    try:
        return evaluate(expression, scope)
    except (TypeError, ValueError, AttributeError) as error:
        raise ReadError("a constant has no value: its kinds don't match") from error
    except RecursionError as error:
        raise ReadError("a constant nests too deeply") from error


def evaluate(expression, scope):
    what = expression[0]
    value = EVALUATORS[what](scope, *expression[1:])
    if isinstance(value, int) and not -(1 << MOST_BITS) <= value < 1 << MOST_BITS:
        raise ReadError("a constant needs more than 128 bits")
    if isinstance(value, list) and len(value) > MOST_ITEMS:
        raise ReadError("a constant list is too long")
    return value


def evaluate_binary(scope, word, left, right):
    first = evaluate(left, scope)
    if word in ("or", "||", "and", "&&"):
        return first if first == (word in ("or", "||")) else evaluate(right, scope)
    return BINARY[word](first, evaluate(right, scope))


def evaluate_if(scope, condition, yes, no):
    return evaluate(yes if evaluate(condition, scope) else no, scope)


def evaluate_index(scope, base, index):
    items, at = evaluate(base, scope), evaluate(index, scope)
    if not 0 <= at < len(items):
        raise ReadError("a constant leaves its list")
    return items[at]


def evaluate_call(scope, name, arguments):
    owner, function = scope.function(name)
    inner = Scope(owner)
    for formal, argument in zip(function.formals, arguments):
        inner.values[formal.name] = stored(evaluate(argument, scope), kind_of(formal.type, owner))
    for variable in function.variables:
        inner.values[variable.name] = stored(evaluate(variable.value, inner), kind_of(variable.type, inner))
    return evaluate(function.body, inner)


def evaluate_comprehension(scope, item, generators):
    if not generators:
        return [evaluate(item, scope)]
    (name, low, high), found = generators[0], []
    values = range(evaluate(low, scope), evaluate(high, scope) + 1)
    if len(values) > MOST_TURNS:
        raise ReadError("a constant makes too many turns")
    for value in values:
        inner = Scope(scope)
        inner.values[name] = value
        found += evaluate_comprehension(inner, item, generators[1:])
    return found


EVALUATORS = {
    "literal": lambda scope, value: value,
    "name": lambda scope, name: scope.value(name),
    "prefix": lambda scope, word, inner: PREFIX[word](evaluate(inner, scope)),
    "list": lambda scope, items: [evaluate(item, scope) for item in items],
    "binary": evaluate_binary,
    "if": evaluate_if,
    "index": evaluate_index,
    "call": evaluate_call,
    "comprehension": evaluate_comprehension,
}
