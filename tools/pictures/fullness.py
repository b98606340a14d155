"""Follows a trace over its network: how many tokens each link has, and what each instance waits for."""

from collections import Counter

from pictures.cal_text import ReadError

# What the next firing of an instance lacks when a round ends: tokens on a link, room on a link, or nothing, so that only
# its turn is to come.
TOKENS, ROOM, TURN = "tokens", "room", "turn"


class LinkState:
    """The tokens of a link. Those that an input file still has may be unknown, and are then taken to be enough."""

    def __init__(self, link, is_inner, coming):
        self.capacity = link.capacity
        self.is_input = link.source.box.is_network()
        self.is_output = link.target.box.is_network()
        self.is_inner = is_inner
        self.coming, self.is_known = coming, coming is not None
        # What has arrived and isn't taken; what was sent since the last delivery; both as they count for the capacity.
        self.waiting, self.sent, self.used = 0, 0, 0
        self.fullest, self.passed = 0, 0

    def deliver(self):
        if self.is_input:
            self.fill()
        else:
            self.waiting += 0 if self.is_output else self.sent
        self.sent = 0
        self.used = self.waiting

    def fill(self):
        count = max(self.capacity - self.waiting, 0)
        if self.is_known:
            count = min(count, self.coming)
            self.coming -= count
        self.waiting += count
        if self.is_known:
            self.fullest = max(self.fullest, self.waiting)

    def take(self, count):
        self.waiting -= count
        self.passed += count if not self.is_output else 0

    def give(self, count):
        self.sent += count
        self.used += count
        self.passed += count if self.is_output else 0
        self.fullest = max(self.fullest, self.used)

    def has_room(self, count):
        return self.used + count <= self.capacity


class Player:
    """Plays the rounds of a trace over a network. Afterwards `links` has how full each link got, `firings` how often each
    action fired, and `waits` in how many rounds each instance waited for what."""

    def __init__(self, network, trace, input_sizes=None):
        check_alike(network, trace)
        self.network, self.trace = network, trace
        coming = input_sizes or {}
        self.links = [LinkState(link, not link.source.box.is_network() and not link.target.box.is_network(),
                                coming.get(link.source.named().name) if link.source.box.is_network() else None)
                      for link in network.links]
        self.find_ports()
        self.firings = Counter()
        self.waits = [Counter() for _ in network.leaves]
        # For each instance the causes, one for each action, why it doesn't fire now, since which round they hold, and how
        # many rounds each action would have waited for what since the last firing.
        self.causes = [None] * len(network.leaves)
        self.since = [0] * len(network.leaves)
        self.pending = [{} for _ in network.leaves]
        self.touched, self.number = set(range(len(self.links))), 0

    def find_ports(self):
        """For each instance and action the links that it takes from and gives to, with how many tokens."""
        into = {link.target.key(): link.number for link in self.network.links}
        out_of = {}
        for link in self.network.links:
            out_of.setdefault(link.source.key(), []).append(link.number)
        self.takes, self.gives, self.neighbours = [], [], [set() for _ in self.links]
        for leaf in self.network.leaves:
            inputs = [into.get((id(leaf), False, True, port)) for port in range(len(leaf.inputs))]
            outputs = [out_of.get((id(leaf), False, False, port), []) for port in range(len(leaf.outputs))]
            self.takes.append([[(inputs[port], count) for port, count in action.takes.items()] for action in leaf.actions])
            self.gives.append([[(link, count) for port, count in action.gives.items() for link in outputs[port]]
                               for action in leaf.actions])
            for link in {link for link in inputs if link is not None} | {link for links in outputs for link in links}:
                self.neighbours[link].add(leaf.number)

    def play(self):
        """Plays the whole trace, and gives its rounds as they pass."""
        for each in self.trace.rounds():
            self.number = each.number
            for link in self.touched:
                self.links[link].deliver()
            moved = self.fire(each)
            self.look(self.touched | moved)
            for link, capacity in each.growth:
                if link >= len(self.links):
                    raise ReadError(f"{self.trace.path}: link {link} grows, which isn't there")
                self.links[link].capacity = capacity
            self.touched = moved | {link for link, _ in each.growth}
            yield each
        self.finish()

    def fire(self, each):
        """Makes the firings of a round, which come in the order of their first lines, and gives the links that they
        touch."""
        moved = set()
        for (instance, action), count in each.firings.items():
            if action >= len(self.takes[instance]):
                raise ReadError(f"{self.trace.path}: instance {instance} has no action {action} in this network")
            self.firings[instance, action] += count
            for link, tokens in self.takes[instance][action]:
                if link is not None:
                    self.links[link].take(tokens * count)
                    moved.add(link)
            for link, tokens in self.gives[instance][action]:
                self.links[link].give(tokens * count)
                moved.add(link)
        self.settle(each)
        return moved

    def settle(self, each):
        """Instances fire again: the causes that held for the first action of each are what it waited for."""
        first = {}
        for instance, action in each.firings:
            first.setdefault(instance, action)
        for instance, action in first.items():
            self.note(instance, self.number)
            for cause, rounds in self.pending[instance].get(action, {}).items():
                self.waits[instance][cause] += rounds
            self.pending[instance] = {}

    def note(self, instance, number):
        """Counts the rounds up to this one for which the causes of an instance have held."""
        rounds = number - self.since[instance]
        if self.causes[instance] and rounds:
            for action, cause in enumerate(self.causes[instance]):
                counts = self.pending[instance].setdefault(action, {})
                counts[cause] = counts.get(cause, 0) + rounds
        self.since[instance] = number

    def look(self, links):
        """Finds anew why the instances at these links don't fire."""
        for instance in {instance for link in links for instance in self.neighbours[link]}:
            self.note(instance, self.number)
            self.causes[instance] = [self.cause(instance, action) for action in range(len(self.takes[instance]))]

    def cause(self, instance, action):
        for link, count in self.takes[instance][action]:
            if link is None:
                return TOKENS, -1
            if self.links[link].waiting < count:
                return TOKENS, link
        for link, count in self.gives[instance][action]:
            if not self.links[link].has_room(count):
                return ROOM, link
        return TURN, -1

    def finish(self):
        if self.trace.end == "stalled" and int(self.trace.end_parts[2]) >= len(self.links):
            raise ReadError(f"{self.trace.path}: link {self.trace.end_parts[2]} is short, which isn't there")
        for link in self.links:
            if link.is_known and link.waiting < 0:
                raise ReadError(f"{self.trace.path}: this is no trace over these inputs")


def check_alike(network, trace):
    """Whether a trace has the instances and as many links as a network."""
    instances = [(leaf.path, leaf.of_class) for leaf in network.leaves]
    if instances != trace.instances or len(network.links) != trace.link_count:
        raise ReadError(f"{trace.path}: this is the trace of another network")
