"""A plain layout: boxes in layers from left to right, so that most connections lead to the right."""

from dataclasses import dataclass, field

SWEEPS = 8
# Sweeps that make lines level: more of them if there are few nodes.
LEVEL_SWEEPS, MANY_LEVEL_SWEEPS, FEW_NODES = 16, 120, 300
ROW_GAP = 21
LANE = 24
CURVE = 28


@dataclass
class Node:
    """A box with its size and the heights of its ports below its top edge; or one that keeps a place for a line."""
    width: float
    height: float
    inputs: list
    outputs: list
    content: object = None
    layer: int = 0
    x: float = 0
    y: float = 0


@dataclass
class Edge:
    """A line from an output of a node to an input of another, with the width of its label. `points` are the stations of
    the line: where it is level from one x to another."""
    source: int
    source_port: int
    target: int
    target_port: int
    label_width: float
    content: object = None
    is_back: bool = False
    points: list = field(default_factory=list)


class Layout:
    """Nodes with their places. Nodes of `first` stand in the leftmost layer, those of `last` in the rightmost one."""

    def __init__(self, nodes, edges, first, last, least_width=0):
        self.nodes, self.edges, self.least_width = nodes, edges, least_width
        self.first, self.last = set(first), set(last)
        self.mark_back_edges()
        self.find_layers()
        self.split_long_edges()
        self.order()
        self.place_rows()
        self.place_columns()
        self.route()

    # Which edges lead back.

    def mark_back_edges(self):
        """Marks edges that close a circle, so that the others make none."""
        after = [[] for _ in self.nodes]
        for edge in self.edges:
            after[edge.source].append(edge)
        state = [0] * len(self.nodes)
        starts = sorted(self.first) + [n for n in range(len(self.nodes)) if n not in self.first]
        for start in starts:
            if state[start] == 0:
                self.walk(start, after, state)

    @staticmethod
    def walk(start, after, state):
        """Walks depth first, without recursion. States: 0 not seen, 1 on the way, 2 done."""
        stack = [(start, iter(after[start]))]
        state[start] = 1
        while stack:
            node, edges = stack[-1]
            edge = next(edges, None)
            if edge is None:
                state[node] = 2
                stack.pop()
            elif state[edge.target] == 1:
                edge.is_back = True
            elif state[edge.target] == 0:
                state[edge.target] = 1
                stack.append((edge.target, iter(after[edge.target])))

    # Layers.

    def find_layers(self):
        """Puts each node one layer behind the last of those that lead to it."""
        before = [0] * len(self.nodes)
        after = [[] for _ in self.nodes]
        for edge in self.edges:
            if not edge.is_back:
                before[edge.target] += 1
                after[edge.source].append(edge.target)
        ready = [n for n, count in enumerate(before) if count == 0]
        for n in ready:
            self.nodes[n].layer = max(self.nodes[n].layer, 0 if n in self.first else 1)
            for target in after[n]:
                self.nodes[target].layer = max(self.nodes[target].layer, self.nodes[n].layer + 1)
                before[target] -= 1
                if before[target] == 0:
                    ready.append(target)
        self.pull_right(after)
        deepest = max([node.layer for n, node in enumerate(self.nodes) if n not in self.last], default=0)
        for n in self.last:
            self.nodes[n].layer = deepest + 1
        self.layer_count = deepest + 2

    def pull_right(self, after):
        """Moves nodes that nothing leads to towards their readers."""
        led_to = {edge.target for edge in self.edges if not edge.is_back}
        for n, node in enumerate(self.nodes):
            targets = [self.nodes[target].layer for target in after[n] if target not in self.last]
            if n not in led_to and n not in self.first and targets:
                node.layer = max(node.layer, min(targets) - 1)

    def split_long_edges(self):
        """Gives each line a place of its own in the layers that it passes: `self.chains` has the nodes of each edge."""
        self.chains = []
        for edge in self.edges:
            chain = [edge.source]
            if not edge.is_back:
                for layer in range(self.nodes[edge.source].layer + 1, self.nodes[edge.target].layer):
                    self.nodes.append(Node(0, 8, [4], [4], None, layer))
                    chain.append(len(self.nodes) - 1)
            self.chains.append(chain + [edge.target])

    # The order within layers.

    def order(self):
        self.layers = [[] for _ in range(self.layer_count)]
        for n, node in enumerate(self.nodes):
            self.layers[node.layer].append(n)
        self.find_neighbours()
        for sweep in range(SWEEPS):
            forward = sweep % 2 == 0
            for layer in (range(1, self.layer_count) if forward else range(self.layer_count - 2, -1, -1)):
                self.sort_layer(layer, self.before if forward else self.after)

    def find_neighbours(self):
        """For each node its neighbours to the left and to the right: node, port there, port here."""
        self.before, self.after = [[] for _ in self.nodes], [[] for _ in self.nodes]
        for edge, chain in zip(self.edges, self.chains):
            if edge.is_back:
                continue
            for k in range(len(chain) - 1):
                out = edge.source_port if k == 0 else 0
                into = edge.target_port if k == len(chain) - 2 else 0
                self.after[chain[k]].append((chain[k + 1], into, out))
                self.before[chain[k + 1]].append((chain[k], out, into))

    def sort_layer(self, layer, neighbours):
        """Sorts a layer by the mean places of its neighbours in the layer beside it."""
        place = {n: k for nodes in self.layers for k, n in enumerate(nodes)}
        def key(n):
            beside = neighbours[n]
            if not beside:
                return place[n]
            return sum(place[other] + port / 100 for other, port, _ in beside) / len(beside)
        self.layers[layer].sort(key=lambda n: (key(n), place[n]))

    # Coordinates.

    def place_rows(self):
        """Finds y: stacked at first, then drawn towards the neighbours without passing each other."""
        for nodes in self.layers:
            y = 0
            for n in nodes:
                self.nodes[n].y = y
                y += self.nodes[n].height + ROW_GAP
        for sweep in range(MANY_LEVEL_SWEEPS if len(self.nodes) <= FEW_NODES else LEVEL_SWEEPS):
            layers = self.layers if sweep % 2 == 0 else list(reversed(self.layers))
            for nodes in layers:
                self.relax(nodes)
        top = min((node.y for node in self.nodes), default=0)
        for node in self.nodes:
            node.y -= top

    def relax(self, nodes):
        """Moves the nodes of a layer to where their lines are level, as far as their order and the gaps allow."""
        wanted = [self.wanted_row(n) for n in nodes]
        weights = [max(len(self.before[n]) + len(self.after[n]), 0.1) for n in nodes]
        offsets, offset = [], 0
        for n in nodes:
            offsets.append(offset)
            offset += self.nodes[n].height + (ROW_GAP if self.nodes[n].width else ROW_GAP / 2)
        levels = rising([want - offset for want, offset in zip(wanted, offsets)], weights)
        for n, level, offset in zip(nodes, levels, offsets):
            self.nodes[n].y = level + offset

    def wanted_row(self, n):
        node = self.nodes[n]
        rows = [self.nodes[other].y + self.nodes[other].outputs[there] - node.inputs[here]
                for other, there, here in self.before[n]]
        rows += [self.nodes[other].y + self.nodes[other].inputs[there] - node.outputs[here]
                 for other, there, here in self.after[n]]
        return sum(rows) / len(rows) if rows else node.y

    def place_columns(self):
        """Finds x: each layer stands behind the labels of the lines that lead to it."""
        labels = [0] * (self.layer_count + 1)
        for edge in self.edges:
            layer = self.nodes[edge.target].layer
            labels[layer] = max(labels[layer], edge.label_width)
        self.label_widths = labels
        self.widths = [max((self.nodes[n].width for n in nodes), default=0) for nodes in self.layers]
        self.width = sum(self.widths) + sum(labels) + CURVE * (self.layer_count - 1)
        labels[self.layer_count - 1] += max(self.least_width - self.width, 0)
        self.width = max(self.width, self.least_width)
        x, self.columns = -CURVE, []
        for layer, nodes in enumerate(self.layers):
            x += CURVE + labels[layer]
            self.columns.append(x)
            for n in nodes:
                self.nodes[n].x = x + (self.widths[layer] - self.nodes[n].width) * self.side(n)
            x += self.widths[layer]

    def side(self, n):
        """Where a node stands in its column: at its left, in its middle or at its right."""
        return 0 if n in self.first else 1 if n in self.last else 0.5

    # Lines.

    def route(self):
        """Finds the stations of each line; lines that lead back pass below all nodes."""
        self.bottom = max((node.y + node.height for node in self.nodes), default=0)
        for edge, chain in zip(self.edges, self.chains):
            edge.points = self.back_points(edge) if edge.is_back else self.points(edge, chain)
        self.height = self.bottom

    def points(self, edge, chain):
        """For each node on the way the x at which the line comes, the x at which it leaves, and its y."""
        source, target = self.nodes[chain[0]], self.nodes[chain[-1]]
        y = source.y + source.outputs[edge.source_port]
        found = [(source.x + source.width, self.columns[source.layer] + self.widths[source.layer], y)]
        for n in chain[1:-1]:
            node = self.nodes[n]
            column = self.columns[node.layer]
            found.append((column - self.label_widths[node.layer], column + self.widths[node.layer], node.y + 4))
        y = target.y + target.inputs[edge.target_port]
        column = self.columns[target.layer]
        found.append((column - self.label_widths[target.layer], target.x, y))
        return found

    def back_points(self, edge):
        source, target = self.nodes[edge.source], self.nodes[edge.target]
        self.bottom += LANE
        right = self.columns[source.layer] + self.widths[source.layer]
        left = self.columns[target.layer] - self.label_widths[target.layer]
        start, end = source.y + source.outputs[edge.source_port], target.y + target.inputs[edge.target_port]
        return [(source.x + source.width, right, start), (right, left, self.bottom), (left, target.x, end)]


def rising(wanted, weights):
    """The rising row of numbers that is nearest to the wanted ones, by weighted squares."""
    pools = []
    for number, weight in zip(wanted, weights):
        pools.append([number, weight, 1])
        while len(pools) > 1 and pools[-2][0] > pools[-1][0]:
            number, weight, count = pools.pop()
            other = pools[-1]
            other[0] = (other[0] * other[1] + number * weight) / (other[1] + weight)
            other[1] += weight
            other[2] += count
    return [number for number, _, count in pools for _ in range(count)]
