"""What a trace tells, gathered round by round: firings in bins of rounds, totals, growth of links, and the end."""

from collections import Counter

from pictures.fullness import ROOM, TOKENS, TURN, Player

MAX_BINS = 480
# Bins of all instances together: more than that is too fine to be seen.
MAX_CELLS = 60000
MIN_BINS = 24


class History:
    """The history of a trace. If its network is known, also what each instance waited for."""

    def __init__(self, trace, network=None):
        self.trace, self.network = trace, network
        self.most_bins = max(MIN_BINS, min(MAX_BINS, MAX_CELLS // max(trace.instance_count, 1)))
        self.width, self.bins = 1, []
        self.rounds, self.idle = 0, 0
        self.totals, self.spans, self.peaks = Counter(), {}, Counter()
        self.growth, self.stalls = [], []
        player = Player(network, trace) if network else None
        for each in player.play() if player else trace.rounds():
            self.add(each)
        self.waits = player.waits if player else []

    def add(self, each):
        self.rounds = each.number
        self.idle += not each.firings
        self.growth += [(each.number, link, capacity) for link, capacity in each.growth]
        while (each.number - 1) // self.width >= self.most_bins:
            self.widen()
        place = (each.number - 1) // self.width
        while len(self.bins) <= place:
            self.bins.append({})
        cells = self.bins[place]
        sums = {}
        for (instance, action), count in each.firings.items():
            cells[instance, action] = cells.get((instance, action), 0) + count
            sums[instance] = sums.get(instance, 0) + count
            self.totals[instance, action] += count
        for instance, count in sums.items():
            first = self.spans[instance][0] if instance in self.spans else each.number
            self.spans[instance] = (first, each.number)
            self.peaks[instance] = max(self.peaks[instance], count)

    def widen(self):
        """Joins two bins each."""
        joined = []
        for k in range(0, len(self.bins), 2):
            cells = dict(self.bins[k])
            for key, count in (self.bins[k + 1] if k + 1 < len(self.bins) else {}).items():
                cells[key] = cells.get(key, 0) + count
            joined.append(cells)
        self.bins, self.width = joined, 2 * self.width

    # Names.

    def name(self, instance):
        return self.trace.instances[instance][0]

    def action_name(self, instance, action):
        if self.network and action < len(self.network.leaves[instance].actions):
            return self.network.leaves[instance].actions[action].name()
        return f"action {action}"

    def told(self, instance, action, count):
        """How often an action fired, as text."""
        return f"{self.action_name(instance, action)}: {count}"

    def by_instance(self):
        """For each instance its actions that fired, with how often."""
        found = [[] for _ in self.trace.instances]
        for (instance, action), count in sorted(self.totals.items()):
            found[instance].append((action, count))
        return found

    def wait_text(self, what, link):
        """What an instance waited for, in words."""
        if what == TURN:
            return "its turn"
        if link < 0:
            return "tokens on a port without a link"
        ends = self.network.links[link]
        box = ends.source.box if what == TOKENS else ends.target.box
        port = ends.source if what == TOKENS else ends.target
        other = f"the {'input' if what == TOKENS else 'output'} {port.named().name}" if box.is_network() else box.path
        return f"tokens of {other} on link {link}" if what == TOKENS else f"room on link {link} to {other}"

    def end_text(self):
        """How the trace ended, in words."""
        end, parts = self.trace.end, self.trace.end_parts
        if end == "stalled":
            return f"stalled: {self.name(int(parts[0]))} lacks room on link {parts[2]}"
        if end == "trapped":
            return f"trapped: {self.action_name(int(parts[0]), int(parts[1]))} of {self.name(int(parts[0]))}, {parts[2]}"
        return end or "no end"


def counted(count, word):
    return f"{count} {word}" if count == 1 else f"{count} {word}s"


def summary(history):
    """The history as text."""
    trace = history.trace
    lines = [f"trace {trace.path}",
             f"instances {trace.instance_count}", f"links {trace.link_count}",
             f"firings {sum(history.totals.values())}",
             f"rounds {history.rounds}, {history.idle} of them without a firing", f"end {history.end_text()}", "",
             "firings by instance and action, from the first round to the last in which it fired"]
    lines += firing_lines(history)
    if history.network:
        lines += ["", "waiting: what the next firing of an instance lacked, and at the ends of how many rounds"]
        lines += wait_lines(history)
    if history.growth:
        lines += ["", "growth of links at stalls"]
        lines += [f"  round {number}: link {link} to {capacity}" for number, link, capacity in history.growth]
    return "\n".join(lines) + "\n"


def firing_lines(history):
    rows = []
    for instance, actions in enumerate(history.by_instance()):
        told = ", ".join(history.told(instance, *each) for each in actions)
        first, last = history.spans.get(instance, (0, 0))
        span = "" if not actions else f"round {first}" if first == last else f"rounds {first} to {last}"
        path, of_class = history.trace.instances[instance]
        rows.append([str(instance), path, of_class, str(sum(count for _, count in actions)), span, told])
    return table(rows, {0, 3})


def wait_lines(history):
    rows = []
    for instance, waits in enumerate(history.waits):
        for (what, link), rounds in waits.most_common():
            rows.append([str(instance), history.name(instance), str(rounds), f"for {history.wait_text(what, link)}"])
    return table(rows, {0, 2}) or ["  none"]


def table(rows, to_the_right):
    """Rows of cells in columns."""
    if not rows:
        return []
    widths = [max(len(row[k]) for row in rows) for k in range(len(rows[0]))]
    return ["  " + "  ".join(cell.rjust(width) if k in to_the_right else cell.ljust(width)
                             for k, (cell, width) in enumerate(zip(row, widths))).rstrip() for row in rows]
