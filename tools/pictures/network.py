"""The network of a top file: instances with their actors, links with their capacities, numbered as the report and the
trace of `rvc` number them."""

import os
from dataclasses import dataclass, field

from pictures.cal_text import ReadError, read_cal
from pictures.constants import Scope, constant, kind_of, stored
from pictures.xdf_text import read_xdf

DEFAULT_CAPACITY = 512
MAX_DEPTH = 64


@dataclass
class Port:
    name: str
    type: tuple

    def type_text(self):
        name, size = self.type
        return name if name == "bool" else f"{name} {size}"

    def bytes_per_token(self):
        name, size = self.type
        if name == "bool":
            return 1
        return next(count for count in (1, 2, 4, 8) if size <= 8 * count)


@dataclass
class Action:
    """An action: its number, its tag, and how many tokens a firing takes and gives by the number of the port."""
    number: int
    tag: str
    takes: dict
    gives: dict

    def name(self):
        return self.tag or f"action {self.number}"


@dataclass
class Box:
    """What stands in a network: an instance of an actor, or a network with its own parts."""
    name: str
    path: str
    of_class: str
    inputs: list
    outputs: list
    parameters: list
    parent: object = None

    def is_network(self):
        return isinstance(self, NetworkBox)


@dataclass
class ActorBox(Box):
    actions: list = field(default_factory=list)
    number: int = -1


@dataclass
class NetworkBox(Box):
    parts: list = field(default_factory=list)
    connections: list = field(default_factory=list)


@dataclass
class End:
    """A port of a box: seen from within the box of a network if `is_own`, else from the network in which it stands."""
    box: Box
    is_own: bool
    is_input: bool
    port: int

    def key(self):
        return id(self.box), self.is_own, self.is_input, self.port

    def named(self):
        return (self.box.inputs if self.is_input else self.box.outputs)[self.port]


@dataclass
class Connection:
    """A connection, the size that it asks for, and the links that pass it."""
    source: End
    target: End
    size: int
    links: list = field(default_factory=list)


@dataclass
class Link:
    """A link: where it begins and ends, its connections from the reader back to the writer, and its capacity."""
    number: int
    source: End
    target: End
    connections: list
    capacity: int
    type_text: str


class Library:
    """The files below the current folder, each read once."""

    def __init__(self):
        self.actors = {}
        self.networks = {}
        self.scopes = {}

    @staticmethod
    def file_of(of_class):
        """The file of a class: a network if there is one, else an actor."""
        stem = of_class.replace(".", "/")
        for ending in (".xdf", ".cal"):
            if os.path.isfile(stem + ending):
                return stem + ending
        raise ReadError(f"the class `{of_class}` has no file `{stem}.xdf` or `{stem}.cal` below this folder")

    def actor(self, path):
        if path not in self.actors:
            self.actors[path] = read_cal(path, read_bytes(path).decode("latin-1"))
        return self.actors[path]

    def network(self, path):
        if path not in self.networks:
            self.networks[path] = read_xdf(path, read_bytes(path))
        return self.networks[path]

    def unit_scope(self, of_class):
        """The names of a unit with their values."""
        if of_class not in self.scopes:
            path = of_class.replace(".", "/") + ".cal"
            if not os.path.isfile(path):
                raise ReadError(f"an import asks for `{of_class}`, which has no file `{path}` below this folder")
            self.scopes[of_class] = None
            self.scopes[of_class] = self.scope_of(self.actor(path))
        if self.scopes[of_class] is None:
            raise ReadError(f"imports lead in a circle through `{of_class}`")
        return self.scopes[of_class]

    def scope_of(self, file, given=None, place=""):
        """The constants and functions that a file declares or imports, and its parameters with their values."""
        imported = Scope()
        for unit, name in file.imports:
            self.bring(imported, unit, name)
        parameters = Scope(imported)
        give_parameters(parameters, file.parameters, given or {}, place)
        scope = Scope(parameters)
        for variable in file.variables:
            if variable.value is not None:
                scope.delay(variable.name, lambda variable=variable: value_of(variable, scope))
        for function in file.functions:
            scope.functions[function.name] = (scope, function)
        return scope

    def bring(self, scope, unit, name):
        """Brings a name of a unit, or all of its names, into a scope."""
        inner = self.unit_scope(unit)
        names = [name] if name != "*" else list(inner.values) + list(inner.delayed) + list(inner.functions)
        for each in names:
            if each in inner.functions:
                scope.functions[each] = inner.functions[each]
            else:
                scope.delay(each, lambda each=each: inner.value(each))


def read_bytes(path):
    try:
        with open(path, "rb") as file:
            return file.read()
    except OSError as error:
        raise ReadError(f"{path}: {error.strerror}") from error


def value_of(variable, scope):
    return as_declared(variable, constant(variable.value, scope), scope)


def as_declared(variable, value, scope):
    """A value as the variable's type holds it."""
    return value if variable.type.name == "List" else stored(value, kind_of(variable.type, scope))


def ports_of(variables, scope):
    return [Port(variable.name, kind_of(variable.type, scope)) for variable in variables]


def give_parameters(scope, variables, given, place):
    """Gives parameters, in a scope, the values that are given, or their defaults."""
    for variable in variables:
        if variable.name in given:
            scope.values[variable.name] = as_declared(variable, given[variable.name], scope)
        elif variable.value is None:
            raise ReadError(f"{place}: the parameter `{variable.name}` is given no value")
        else:
            scope.delay(variable.name, lambda variable=variable: value_of(variable, scope))


class Builder:
    """Makes the boxes of a network from its files, from the top down."""

    def __init__(self):
        self.library = Library()

    def box(self, path, name, place, of_class, given, depth=0):
        if depth > MAX_DEPTH:
            raise ReadError(f"{place}: networks stand in each other too deeply")
        make = self.network_box if path.endswith(".xdf") else self.actor_box
        return make(path, name, place, of_class, given, depth)

    def actor_box(self, path, name, place, of_class, given, _depth):
        file = self.library.actor(path)
        if file.kind != "actor":
            raise ReadError(f"{path}: an actor is asked for, and this is a unit")
        scope = self.library.scope_of(file, given, place)
        box = ActorBox(name, place, of_class, ports_of(file.inputs, scope), ports_of(file.outputs, scope),
                       [(each.name, scope.value(each.name)) for each in file.parameters])
        box.actions = [action_of(number, action, file, scope) for number, action in enumerate(file.actions)]
        return box

    def network_box(self, path, name, place, of_class, given, depth):
        text = self.library.network(path)
        scope = Scope()
        give_parameters(scope, text.declarations, given, place or path)
        box = NetworkBox(name, place, of_class, ports_of(text.inputs, scope), ports_of(text.outputs, scope),
                           list(given.items()))
        for instance in text.instances:
            values = {key: constant(value, scope) for key, value in instance.parameters.items()}
            inner = self.box(self.library.file_of(instance.of_class), instance.name,
                             f"{place}/{instance.name}" if place else instance.name, instance.of_class, values, depth + 1)
            inner.parent = box
            box.parts.append(inner)
        parts = {part.name: part for part in box.parts}
        box.connections = [connection_of(text, connection, box, parts, scope) for connection in text.connections]
        return box


def action_of(number, action, file, scope):
    return Action(number, action.tag, counts(action.inputs, file.inputs, scope), counts(action.outputs, file.outputs, scope))


def counts(patterns, ports, scope):
    """How many tokens patterns take or give, by the number of the port."""
    names = [port.name for port in ports]
    found = {}
    for place, pattern in enumerate(patterns):
        port = names.index(pattern.port) if pattern.port in names else place
        repeat = 1 if pattern.repeat is None else constant(pattern.repeat, scope)
        found[port] = pattern.count * repeat
    return found


def connection_of(text, connection, network, parts, scope):
    size = max((constant(each, scope) for each in connection.sizes), default=0)
    return Connection(end_of(text, connection.source, connection.source_port, False, network, parts),
                      end_of(text, connection.target, connection.target_port, True, network, parts), size)


def end_of(text, name, port, is_target, network, parts):
    """An end of a connection: a port of a part, or of the network itself as seen from within."""
    is_own = not name
    if not is_own and name not in parts:
        raise ReadError(f"{text.path}: a connection names the instance `{name}`, which isn't there")
    box = network if is_own else parts[name]
    is_input = is_target != is_own
    names = [each.name for each in (box.inputs if is_input else box.outputs)]
    if port not in names:
        raise ReadError(f"{text.path}: a connection names the port `{port}` of `{name or network.name}`, which isn't there")
    return End(box, is_own, is_input, names.index(port))


def lone_network(actor):
    """An actor as the top: a network of its own ports with one instance."""
    top = NetworkBox(actor.name, "", actor.of_class, actor.inputs, actor.outputs, [], None, [actor])
    actor.parent = top
    for port in range(len(actor.inputs)):
        top.connections.append(Connection(End(top, True, True, port), End(actor, False, True, port), 0))
    for port in range(len(actor.outputs)):
        top.connections.append(Connection(End(actor, False, False, port), End(top, True, False, port), 0))
    return top


def leaves_of(box):
    """The instances of a network in their order: each network's parts stand in its place."""
    if not box.is_network():
        return [box]
    return [leaf for part in box.parts for leaf in leaves_of(part)]


def connections_of(box):
    """The connections of a network and of those in it."""
    if not box.is_network():
        return []
    return box.connections + [each for part in box.parts for each in connections_of(part)]


def other_side(end):
    """The same port of a network, seen from its other side."""
    return End(end.box, not end.is_own, end.is_input, end.port)


class Network:
    """A flat network: its top box, its instances and its links."""

    def __init__(self, top):
        self.top = top
        self.leaves = leaves_of(top)
        for number, leaf in enumerate(self.leaves):
            leaf.number = number
        self.into = {connection.target.key(): connection for connection in connections_of(top)}
        self.links = []
        for leaf in self.leaves:
            for port in range(len(leaf.inputs)):
                self.add_link(End(leaf, False, True, port))
        for port in range(len(top.outputs)):
            self.add_link(End(top, True, False, port))
        self.links_into = {link.target.key(): link for link in self.links}
        # Ends of connections that a link passes.
        self.joined = {end.key() for link in self.links for connection in link.connections
                       for end in (connection.source, connection.target)}

    def add_link(self, target):
        """Adds the link to a reading end, if a chain of connections leads to it."""
        chain, end = [], target
        while end.key() in self.into:
            connection = self.into[end.key()]
            chain.append(connection)
            end = connection.source
            if not end.box.is_network() or end.is_own and end.box is self.top:
                self.make_link(target, end, chain)
                return
            end = other_side(end)

    def make_link(self, target, source, chain):
        asked = max(connection.size for connection in chain)
        capacity = max(asked or DEFAULT_CAPACITY, rate(target), rate(source))
        link = Link(len(self.links), source, target, chain, capacity, target.named().type_text())
        self.links.append(link)
        for connection in chain:
            connection.links.append(link)


def rate(end):
    """The most tokens that a firing takes or gives at an end."""
    if end.box.is_network():
        return 0
    return max(((action.takes if end.is_input else action.gives).get(end.port, 0) for action in end.box.actions), default=0)


def read_network(path):
    """The network of a top file, as `rvc` reads it below the current folder."""
    if not path.endswith((".xdf", ".cal")):
        raise ReadError(f"{path}: a network is NAME.xdf, and an actor NAME.cal")
    of_class = path[:-4].replace("/", ".")
    name = of_class.rpartition(".")[2]
    is_actor = path.endswith(".cal")
    box = Builder().box(path, name, name if is_actor else "", of_class, {})
    return Network(lone_network(box) if is_actor else box)
