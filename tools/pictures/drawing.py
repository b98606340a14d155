"""A network as a picture: instances as boxes, networks as frames, connections as lines with labels."""

from dataclasses import dataclass, field

from pictures import svg
from pictures.layered import Edge, Layout, Node
from pictures.cal_text import ReadError
from pictures.network import End, leaves_of

NAME_SIZE, SMALL = 12, 10
HEAD, ROW, PARAMETER, BAR = 42, 18, 13, 30
# Inputs of a box stand so far apart that there is room for their labels.
INPUT_ROW = 43
PAD = 10
FRAME_HEAD, FRAME_FOOT = 34, 16
MAX_PARAMETERS = 4
MAX_NODE_WIDTH = 220
MAX_DEPTH = 1000


@dataclass
class Run:
    """What a trace says of a network: how often each action fired, how full each link got, what stalled or trapped."""
    firings: dict
    links: list
    end: str = ""
    end_parts: list = field(default_factory=list)

    def of(self, leaf):
        """How often each action of an instance fired."""
        return [self.firings[leaf.number, action.number] for action in leaf.actions]

    def is_stopped(self, leaf):
        return self.end in ("stalled", "trapped") and int(self.end_parts[0]) == leaf.number

    def is_short(self, link):
        return self.end == "stalled" and int(self.end_parts[2]) == link.number

    def is_full(self, link):
        state = self.links[link.number]
        return state.is_inner and state.fullest >= state.capacity

    def fullness(self, link):
        """How full a link got, as text."""
        state = self.links[link.number]
        if state.is_input and not state.is_known:
            return f"{state.capacity}"
        return f"{state.fullest}/{state.capacity}"


@dataclass
class View:
    """What is drawn: which box of a network, with what a trace says, if there is one. Networks in it are frames down to a
    depth, and closed boxes below."""
    network: object
    run: object
    shown: object
    depth: int

    def is_open(self, box):
        """Whether a network is drawn with its parts: how deep it stands in the one that is shown decides that."""
        depth = 0
        while box is not self.shown:
            depth, box = depth + 1, box.parent
        return depth <= self.depth


def box_at(network, path):
    """The network at a path."""
    box = network.top
    for name in path.split("/") if path else []:
        box = next((part for part in box.parts if part.name == name and part.is_network()), None)
        if box is None:
            raise ReadError(f"there is no network `{path}` in this one")
    return box


# Labels and texts.

def parameter_text(name, value):
    if isinstance(value, list):
        return f"{name} = [{len(value)} items]"
    return f"{name} = {str(value).lower() if isinstance(value, bool) else value}"


def actions_text(leaf, run):
    """How often the actions of an instance fired, those that did."""
    counts = run.of(leaf)
    told = [f"{action.name()}: {count}" for action, count in zip(leaf.actions, counts) if count]
    return ", ".join(told)


def firings_text(count):
    return "1 firing" if count == 1 else f"{count} firings"


def end_text(end):
    return end.named().name if not end.box.path else f"{end.box.path}.{end.named().name}"


def link_text(link, run):
    """All that is known of a link, as a sentence."""
    told = f"link {link.number}: {end_text(link.source)} to {end_text(link.target)}, {link.type_text}, capacity {link.capacity}"
    if run:
        state = run.links[link.number]
        if state.capacity != link.capacity:
            told += f", grown to {state.capacity}"
        if not state.is_input or state.is_known:
            told += f", at most {state.fullest} at a time"
        told += f", {state.passed} tokens passed"
    return told


class Label:
    """What stands at the end of a line: the numbers of its links on the line; and at a reading end the type of its tokens
    above it and the capacity below."""

    def __init__(self, connection, view):
        run = view.run
        self.links, self.run = connection.links, run
        self.link = view.network.links_into.get(connection.target.key())
        self.badges = [str(each.number) for each in self.links]
        if len(self.badges) > 3:
            self.badges = [f"{len(self.badges)} links"]
        self.badge_widths = [max(svg.text_width(badge, 9, True) + 8, 15) for badge in self.badges]
        self.above, self.below = "", ""
        if self.link:
            self.above, self.below = self.link.type_text, run.fullness(self.link) if run else str(self.link.capacity)
        self.width = max(sum(self.badge_widths) + 2 * len(self.badges) - 2, svg.text_width(self.above, SMALL),
                         svg.text_width(self.below, SMALL)) + 2

    def colour(self):
        if self.link and self.run and self.run.is_short(self.link):
            return svg.WARNING
        return svg.LINK_BADGE

    def draw(self, x, y):
        """The label with its left edge at x, round the line at y."""
        middle = x + self.width / 2
        parts = self.draw_bar(middle, y)
        if self.link:
            parts.append(svg.text(middle, y - 11, self.above, SMALL, svg.INK, "middle"))
            parts.append(svg.text(middle, y + 18.5, self.below, SMALL, svg.INK, "middle"))
        title = link_text(self.link, self.run) if self.link else f"links {', '.join(str(each.number) for each in self.links)}"
        left = middle - (sum(self.badge_widths) + 2 * len(self.badges) - 2) / 2
        for badge, width in zip(self.badges, self.badge_widths):
            parts.append(svg.rectangle(left, y - 7.5, width, 15, self.colour(), svg.PAPER, 7.5, title))
            parts.append(svg.text(left + width / 2, y + 3.2, badge, 9, svg.PAPER, "middle", True))
            left += width + 2
        return parts

    def draw_bar(self, middle, y):
        """A bar behind the capacity that says how full the link got."""
        if not (self.link and self.run) or self.run.links[self.link.number].fullest == 0:
            return []
        state = self.run.links[self.link.number]
        width = svg.text_width(self.below, SMALL) + 4
        colour = "#f7c9a0" if self.run.is_full(self.link) else "#bfe3d9"
        share = min(state.fullest / state.capacity, 1)
        return [svg.rectangle(middle - width / 2, y + 9, width, 12, "#edf1f5", radius=2),
                svg.rectangle(middle - width / 2, y + 9, max(width * share, 1), 12, colour, radius=2)]


# Boxes.

class BoxPicture:
    """An instance as a box, or a network that is closed."""

    def __init__(self, box, view):
        self.box, self.network, self.run = box, view.network, view.run
        self.leaves = leaves_of(box)
        self.badge = self.numbers()
        self.parameters = [parameter_text(*each) for each in box.parameters[:MAX_PARAMETERS]]
        self.badge_width = max(svg.text_width(self.badge, 10, True) + 9, 17)
        self.ports_at = HEAD + PARAMETER * len(self.parameters)
        rows = max(INPUT_ROW * (len(box.inputs) - 1), ROW * (len(box.outputs) - 1), 0) + ROW
        self.height = self.ports_at + rows + 6 + (BAR if self.run else 0)
        self.width = self.find_width()
        self.inputs = [self.ports_at + INPUT_ROW * k + ROW / 2 for k in range(len(box.inputs))]
        self.outputs = [self.ports_at + ROW * k + ROW / 2 for k in range(len(box.outputs))]

    def numbers(self):
        """The number of the instance, or the first and the last of those in the network."""
        numbers = [leaf.number for leaf in self.leaves]
        if not numbers:
            return "none"
        return str(numbers[0]) if len(numbers) == 1 else f"{numbers[0]} .. {numbers[-1]}"

    def find_width(self):
        names = [svg.text_width(port.name, SMALL) for port in self.box.inputs] or [0]
        others = [svg.text_width(port.name, SMALL) for port in self.box.outputs] or [0]
        wide = [self.badge_width + 6 + svg.text_width(self.box.name, NAME_SIZE, True),
                svg.text_width(self.box.of_class, SMALL), max(names) + max(others) + 10]
        wide += [svg.text_width(words, SMALL) for words in self.parameters]
        if self.run:
            wide.append(min(svg.text_width(self.fired_text(), SMALL), MAX_NODE_WIDTH - 2 * PAD))
        return max(max(wide) + 2 * PAD, 76)

    def fired(self):
        """How often all instances of the box fired."""
        return sum(sum(self.run.of(leaf)) for leaf in self.leaves)

    def fired_text(self):
        if not self.box.is_network() and len(self.box.actions) > 1 and self.fired():
            return actions_text(self.box, self.run)
        return firings_text(self.fired())

    def draw(self, x, y):
        box, wide = self.box, self.width
        is_stopped = self.run and any(self.run.is_stopped(leaf) for leaf in self.leaves)
        edge, badge = (svg.WARNING, svg.WARNING) if is_stopped else (svg.NODE_EDGE, svg.BADGE)
        parts = self.draw_edges(x, y, edge)
        parts += [svg.rectangle(x + PAD - 3, y + 8, self.badge_width, 16, badge, radius=4),
                  svg.text(x + PAD - 3 + self.badge_width / 2, y + 19.5, self.badge, 10, svg.PAPER, "middle", True)]
        left = x + PAD + self.badge_width + 3
        parts.append(svg.text(left, y + 20, svg.short(box.name, NAME_SIZE, wide), NAME_SIZE, svg.INK, is_bold=True))
        parts.append(svg.text(x + PAD - 2, y + 37, box.of_class, SMALL, svg.GREY))
        for k, words in enumerate(self.parameters):
            parts.append(svg.text(x + PAD - 2, y + HEAD + PARAMETER * k + 8, words, SMALL, svg.GREY))
        parts += self.draw_ports(x, y)
        if self.run:
            parts += self.draw_firings(x, y + self.height - BAR)
        return parts

    def draw_edges(self, x, y, edge):
        """The box itself; a network has a second edge."""
        kind = "network" if self.box.is_network() else "instance"
        title = f"{kind} {self.badge}: {self.box.path} ({self.box.of_class})"
        parts = [svg.rectangle(x, y, self.width, self.height, svg.NODE, edge, 6, title)]
        if self.box.is_network():
            parts.append(svg.rectangle(x + 2.5, y + 2.5, self.width - 5, self.height - 5, "none", svg.FRAME_EDGE, 4))
        return parts

    def draw_ports(self, x, y):
        parts = []
        for is_input, ports, heights in ((True, self.box.inputs, self.inputs), (False, self.box.outputs, self.outputs)):
            for k, (port, height) in enumerate(zip(ports, heights)):
                colour = svg.INK if End(self.box, False, is_input, k).key() in self.network.joined else svg.PALE
                side = x if is_input else x + self.width
                parts.append(tag_port(side, y + height, colour))
                parts.append(svg.text(side + (8 if is_input else -8), y + height + 3.5, port.name, SMALL, colour,
                                      "start" if is_input else "end"))
        return parts

    def shares(self):
        """What the bar of firings is made of: how many, their colour and their name."""
        if self.box.is_network():
            return [(self.fired(), svg.PALE, self.box.name)]
        return [(count, svg.action_colour(action.number), action.name())
                for action, count in zip(self.box.actions, self.run.of(self.box))]

    def draw_firings(self, x, y):
        """How often the instance fired, with a bar of its actions."""
        parts = [svg.text(x + PAD, y + 9, svg.short(self.fired_text(), SMALL, self.width - 2 * PAD + 2), SMALL, svg.GREY)]
        room, left = self.width - 2 * PAD, x + PAD
        for count, colour, name in self.shares():
            if count:
                width = room * count / self.fired()
                parts.append(svg.rectangle(left, y + 15, width, 7, colour, title=f"{name}: {firings_text(count)}"))
                left += width
        return parts


def tag_port(x, y, colour):
    return svg.tag("circle", cx=x, cy=y, r=2.6, fill=colour)


class PortPicture:
    """A port of a network, seen from within: at the border of its frame, or at the rim of the whole picture."""

    def __init__(self, port, is_input, is_top):
        self.port, self.is_input, self.is_top = port, is_input, is_top
        self.width = svg.text_width(port.name, 11, is_top) + (20 if is_top else 14)
        self.height = 22 if is_top else 16
        self.inputs, self.outputs = ([], [self.height / 2]) if is_input else ([self.height / 2], [])

    def draw(self, x, y):
        middle = y + self.height / 2
        if self.is_top:
            title = f"{'input' if self.is_input else 'output'} {self.port.name}, {self.port.type_text()}"
            return [svg.rectangle(x, y, self.width, self.height, "#d9e2ec", svg.NODE_EDGE, 11, title),
                    svg.text(x + self.width / 2, middle + 4, self.port.name, 11, svg.INK, "middle", True)]
        side = x if self.is_input else x + self.width
        return [tag_port(side, middle, svg.GREY),
                svg.text(side + (7 if self.is_input else -7), middle + 3.5, self.port.name, SMALL, svg.GREY,
                         "start" if self.is_input else "end")]


class NetworkPicture:
    """A network with its parts; one that stands in another is a frame."""

    def __init__(self, box, view):
        self.box, self.view = box, view
        self.is_top = box is view.shown
        self.head = 0 if self.is_top else FRAME_HEAD
        self.title = [box.name, box.of_class]
        for each in box.parameters[:MAX_PARAMETERS]:
            self.title[1] += f", {parameter_text(*each)}"
        self.lay_out()
        self.width = self.layout.width
        self.height = self.head + self.layout.height + (0 if self.is_top else FRAME_FOOT)
        self.inputs = [self.head + self.layout.nodes[n].y + 8 for n in range(len(box.inputs))]
        outputs = range(len(box.inputs), len(box.inputs) + len(box.outputs))
        self.outputs = [self.head + self.layout.nodes[n].y + 8 for n in outputs]

    def lay_out(self):
        box = self.box
        contents = [PortPicture(port, True, self.is_top) for port in box.inputs]
        contents += [PortPicture(port, False, self.is_top) for port in box.outputs]
        contents += [picture_of(part, self.view) for part in box.parts]
        nodes = [Node(each.width, each.height, each.inputs, each.outputs, each) for each in contents]
        self.numbers = {id(part): len(box.inputs) + len(box.outputs) + k for k, part in enumerate(box.parts)}
        edges = [self.edge(connection) for connection in box.connections]
        first = range(len(box.inputs))
        least = 0 if self.is_top else sum(self.title_widths()) + 2 * PAD
        self.layout = Layout(nodes, edges, first, range(len(box.inputs), len(box.inputs) + len(box.outputs)), least)

    def title_widths(self):
        return [svg.text_width(self.title[0], NAME_SIZE, True) + 8, svg.text_width(self.title[1], SMALL)]

    def edge(self, connection):
        label = Label(connection, self.view)
        source, source_port = self.node_of(connection.source)
        target, target_port = self.node_of(connection.target)
        return Edge(source, source_port, target, target_port, label.width + 12, label)

    def node_of(self, end):
        """The number of the node at an end of a connection, and the number of the port there."""
        if end.is_own:
            return (end.port if end.is_input else len(self.box.inputs) + end.port), 0
        return self.numbers[id(end.box)], end.port

    def draw(self, x, y):
        parts = [] if self.is_top else self.draw_frame(x, y)
        y += self.head
        for edge in self.layout.edges:
            parts += draw_line(edge, x, y)
        for node in self.layout.nodes:
            if node.content:
                parts += node.content.draw(x + node.x, y + node.y)
        for edge in self.layout.edges:
            _, right, level = edge.points[-1]
            parts += edge.content.draw(x + right - edge.label_width + 2, y + level)
        return parts

    def draw_frame(self, x, y):
        name, _ = self.title_widths()
        return [svg.rectangle(x, y, self.width, self.height, svg.FRAME, svg.FRAME_EDGE, 8, f"network {self.box.path}"),
                svg.text(x + PAD, y + 17, self.title[0], NAME_SIZE, svg.INK, is_bold=True),
                svg.text(x + PAD + name, y + 17, self.title[1], SMALL, svg.GREY)]


def picture_of(box, view):
    return (NetworkPicture if box.is_network() and view.is_open(box) else BoxPicture)(box, view)


def draw_line(edge, x, y):
    """A line through its stations, with an arrow at its end."""
    stations = [(x + left, x + right, y + level) for left, right, level in edge.points]
    path = f"M{svg.number_text(stations[0][0])} {svg.number_text(stations[0][2])}H{svg.number_text(stations[0][1])}"
    for (_, start, high), (end, leave, low) in zip(stations, stations[1:]):
        path += curve(start, high, end, low, edge.is_back)
        path += f"H{svg.number_text(leave)}"
    _, tip, level = stations[-1]
    label = edge.content
    is_short = label.link and label.run and label.run.is_short(label.link)
    colour = svg.WARNING if is_short else svg.LINE
    arrow = f"M{svg.number_text(tip - 7)} {svg.number_text(level - 4)}L{svg.number_text(tip)} {svg.number_text(level)}" \
            f"L{svg.number_text(tip - 7)} {svg.number_text(level + 4)}z"
    return [svg.tag("path", d=path, fill="none", stroke=colour, stroke_width=1.4), svg.tag("path", d=arrow, fill=colour)]


def curve(start, high, end, low, is_back):
    """A bend from one level to another. Of a line that leads back both bends turn round."""
    if abs(high - low) < 0.05 and not is_back:
        return ""
    if is_back:
        side = 26 if low > high else -26
        first, second = start + side, end + side
    else:
        first = second = (start + end) / 2
    numbers = [svg.number_text(number) for number in (first, high, second, low, end, low)]
    return "C" + " ".join(numbers)


def legend(run):
    """What the parts of the picture are, in lines."""
    words = ["Boxes are instances with their numbers.",
             "At the end of each link are its number, the type of its tokens, and its capacity."]
    if run:
        words[1] = "At the end of each link are its number, the type of its tokens, and how full it got of its capacity."
        words.append("Bars are firings, coloured by action.")
    return words


def wrapped(sentences, size, width):
    """Sentences in as few lines of a width as hold them."""
    lines = []
    for sentence in sentences:
        if lines and svg.text_width(f"{lines[-1]} {sentence}", size) <= width:
            lines[-1] += " " + sentence
        else:
            lines.append(sentence)
    return lines


def draw_network(network, title, run=None, path="", depth=MAX_DEPTH):
    """The whole picture of a network, or of the one at a path in it."""
    picture = NetworkPicture(box_at(network, path), View(network, run, box_at(network, path), depth))
    title += f" \u00b7 {path}" if path else ""
    heading = title + (f" \u00b7 {' '.join([run.end] + run.end_parts)}" if run and run.end else "")
    width = max(picture.width, svg.text_width(heading, 13, True), 470)
    notes = wrapped(legend(run), 9, width)
    height = picture.height + 74 + 13 * len(notes)
    parts = [svg.text(16, 26, heading, 13, svg.INK, is_bold=True)]
    parts += picture.draw(16 + (width - picture.width) / 2, 46)
    for k, note in enumerate(reversed(notes)):
        parts.append(svg.text(16, height - 12 - 13 * k, note, 9, svg.GREY))
    return svg.document(width + 32, height, parts, title)
