"""Reads network files (XDF). What conforms is read; whether a file conforms is said by `rvc check`."""

import re
from dataclasses import dataclass, field
from xml.etree import ElementTree

from pictures.cal_text import LEVELS, ReadError, Type, Variable


OPERATORS = {word for level in LEVELS for word in level}


@dataclass
class InstanceText:
    name: str
    of_class: str
    parameters: dict


@dataclass
class ConnectionText:
    """A connection: instances and ports of its two ends, and the sizes that it asks for. An empty instance is the network
    itself."""
    source: str
    source_port: str
    target: str
    target_port: str
    sizes: list


@dataclass
class NetworkText:
    path: str
    name: str
    inputs: list = field(default_factory=list)
    outputs: list = field(default_factory=list)
    declarations: list = field(default_factory=list)
    instances: list = field(default_factory=list)
    connections: list = field(default_factory=list)


def read_xdf(path, content):
    if b"<!DOCTYPE" in content or b"<!ENTITY" in content:
        raise ReadError(f"{path}: document types aren't read")
    try:
        root = ElementTree.fromstring(content)
    except ElementTree.ParseError as error:
        raise ReadError("%s:%d:%d: the markup isn't well formed" % (path, error.position[0], error.position[1] + 1))
    if root.tag != "XDF":
        raise ReadError(f"{path}: the element at the top is no XDF")
    network = NetworkText(path, attribute(path, root, "name"))
    try:
        for element in root:
            if element.tag in READERS:
                READERS[element.tag](network, element)
    except RecursionError as error:
        raise ReadError(f"{path}: elements nest too deeply") from error
    return network


def attribute(path, element, name):
    if name not in element.attrib:
        raise ReadError(f"{path}: `{element.tag}` lacks its `{name}`")
    return element.attrib[name]


def read_port(network, element):
    port = Variable(attribute(network.path, element, "name"), type_in(network, element))
    ports = network.inputs if attribute(network.path, element, "kind") == "Input" else network.outputs
    ports.append(port)


def read_declaration(network, element):
    value = element.find("Expr")
    network.declarations.append(Variable(attribute(network.path, element, "name"), type_in(network, element),
                                         None if value is None else expression_of(network, value)))


def read_instance(network, element):
    chosen = element.find("Class")
    if chosen is None:
        raise ReadError(f"{network.path}: an `Instance` lacks its `Class`")
    parameters = {attribute(network.path, given, "name"): expression_in(network, given)
                  for given in element.findall("Parameter")}
    network.instances.append(InstanceText(attribute(network.path, element, "id"), attribute(network.path, chosen, "name"),
                                          parameters))


def read_connection(network, element):
    ends = [attribute(network.path, element, name) for name in ("src", "src-port", "dst", "dst-port")]
    sizes = [expression_in(network, given) for given in element.findall("Attribute") if given.get("name") == "bufferSize"]
    network.connections.append(ConnectionText(*ends, sizes))


READERS = {"Port": read_port, "Decl": read_declaration, "Instance": read_instance, "Connection": read_connection}


def type_in(network, element):
    found = element.find("Type")
    if found is None:
        raise ReadError(f"{network.path}: `{element.tag}` lacks its `Type`")
    kind = Type(attribute(network.path, found, "name"))
    for entry in found.findall("Entry"):
        if entry.get("kind") == "Expr":
            kind.size = expression_in(network, entry)
        else:
            kind.item = type_in(network, entry)
    return kind


def expression_in(network, element):
    found = element.find("Expr")
    if found is None:
        raise ReadError(f"{network.path}: `{element.tag}` lacks its `Expr`")
    return expression_of(network, found)


def expression_of(network, element):
    """An expression of a network file, as the tuples of cal_text."""
    kind = element.get("kind")
    inner = [expression_of(network, part) for part in element.findall("Expr")]
    words = [attribute(network.path, part, "name") for part in element.findall("Op")]
    if kind == "Literal":
        value = attribute(network.path, element, "value")
        if element.get("literal-kind") == "Boolean":
            return ("literal", value == "true")
        if not re.fullmatch(r"-?[0-9]+", value):
            raise ReadError(f"{network.path}: `{value}` is no number")
        return ("literal", int(value))
    if kind == "Var":
        return ("name", attribute(network.path, element, "name"))
    if kind == "List":
        return ("list", inner)
    if kind == "UnaryOp" and len(words) == len(inner) == 1 and words[0] in ("not", "-", "~"):
        return ("prefix", words[0], inner[0])
    if kind == "BinOpSeq" and len(words) == len(inner) - 1 and all(word in OPERATORS for word in words):
        return grouped(inner, words)
    raise ReadError(f"{network.path}: an `Expr` of the kind `{kind}` can't be read")


def grouped(operands, words):
    """Operands with the operators between them, grouped by their levels, each from the left."""
    for level in reversed(LEVELS):
        joined, left = [operands[0]], []
        for word, operand in zip(words, operands[1:]):
            if word in level:
                joined[-1] = ("binary", word, joined[-1], operand)
            else:
                left.append(word)
                joined.append(operand)
        operands, words = joined, left
    return operands[0]
