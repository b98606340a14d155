"""A trace as a picture: rounds across, instances down, firings as bars that are coloured by action."""

import json
from html import escape

from pictures import svg
from pictures.history import counted, summary

TOP, BOTTOM = 64, 54
PLOT = 760
MAX_COLUMN = 26
ROW_HEIGHTS = ((40, 30), (120, 20), (300, 12), (1 << 30, 7))
GROWTH, END_COLOURS = "#b44d12", {"quiet": "#199473", "budget": "#616e7c"}


class Timeline:
    """The picture of a history."""

    def __init__(self, history):
        self.history = history
        count = len(history.trace.instances)
        self.row = next(height for most, height in ROW_HEIGHTS if count <= most)
        self.size = min(11, self.row - 1)
        names = [self.label(instance) for instance in range(count)]
        self.left = 24 + max((svg.text_width(name, self.size) for name in names), default=0)
        self.columns = max(len(history.bins), 1)
        self.column = min(PLOT / self.columns, MAX_COLUMN)
        self.right = self.left + self.column * self.columns
        self.height = TOP + self.row * count + BOTTOM
        self.actions = history.by_instance()
        widths = [svg.text_width(self.told(instance), self.size) for instance in range(count)]
        self.width = max(self.right + 16 + min(max(widths, default=0), 420), 520) + 12
        self.rows = self.sort_cells()

    def label(self, instance):
        return f"{instance}  {self.history.name(instance)}"

    def told(self, instance):
        """The firings of an instance by action, as text."""
        return "   ".join(self.history.told(instance, *each) for each in self.actions[instance]) or "no firing"

    def sort_cells(self):
        """For each instance its cells: column, action, firings; and the most of a column."""
        rows = [{} for _ in self.actions]
        for column, cells in enumerate(self.history.bins):
            for (instance, action), count in sorted(cells.items()):
                rows[instance].setdefault(column, []).append((action, count))
        return rows

    def x_of(self, number):
        """Where a round begins."""
        return self.left + (number - 1) / self.history.width * self.column

    # Parts.

    def draw(self):
        parts = self.draw_heading() + self.draw_grid()
        for instance in range(len(self.actions)):
            parts += self.draw_row(instance)
        parts += self.draw_growth() + self.draw_end() + self.draw_foot()
        return svg.document(self.width, self.height, parts, f"timeline of {self.history.trace.path}")

    def draw_heading(self):
        history = self.history
        words = f"{counted(history.rounds, 'round')}, {counted(sum(history.totals.values()), 'firing')}, {history.end_text()}"
        return [svg.text(16, 24, history.trace.path, 13, svg.INK, is_bold=True), svg.text(16, 41, words, 11, svg.GREY)]

    def draw_grid(self):
        """Stripes below the rows, and the numbers of rounds."""
        parts = []
        for instance in range(0, len(self.actions), 2):
            parts.append(svg.rectangle(8, TOP + self.row * instance, self.width - 16, self.row, svg.NODE))
        bottom = TOP + self.row * len(self.actions)
        width = self.column / self.history.width
        apart = svg.text_width(str(self.history.rounds), 10) + 14
        step = tick_step(self.history.rounds, width, apart)
        for number in dict.fromkeys([1] + list(range(step, self.history.rounds + 1, step))):
            x = self.x_of(number)
            if number == 1 or x - self.left >= apart * (step > 1):
                parts.append(svg.tag("path", d=f"M{svg.number_text(x)} {TOP}V{bottom}", stroke="#e4e7eb", stroke_width=1))
                parts.append(svg.text(x + width / 2, bottom + 15, str(number), 10, svg.GREY, "middle"))
        return parts

    def draw_row(self, instance):
        y = TOP + self.row * instance
        parts = []
        if self.row > 8:
            colour = svg.WARNING if self.is_stopped(instance) else svg.INK
            parts.append(svg.text(16, y + self.row / 2 + self.size * 0.36, self.label(instance), self.size, colour))
            parts.append(self.draw_told(instance, y))
        cells = self.rows[instance]
        peak = max((sum(count for _, count in each) for each in cells.values()), default=1)
        for action, path in self.paths(cells, peak, y).items():
            title = f"{self.history.name(instance)}: {self.history.action_name(instance, action)}"
            parts.append(svg.tag("path", svg.tag("title", escape(title, quote=False)), d=path, fill=svg.action_colour(action)))
        return parts

    def is_stopped(self, instance):
        trace = self.history.trace
        return trace.end in ("stalled", "trapped") and int(trace.end_parts[0]) == instance

    def draw_told(self, instance, y):
        """The firings by action in their colours, behind the row."""
        spans, room = [], self.width - self.right - 28
        for action, count in self.actions[instance]:
            words = self.history.told(instance, action, count)
            room -= svg.text_width(words + "   ", self.size)
            if room < 0 and spans:
                spans.append("..")
                break
            spans.append(svg.tag("tspan", escape(words, quote=False), fill=svg.action_colour(action)))
        content = "\u00a0 \u00a0".join(spans) or "no firing"
        return svg.tag("text", content, x=self.right + 14, y=y + self.row / 2 + self.size * 0.36, font_size=self.size - 0.5,
                       fill=svg.GREY)

    def paths(self, cells, peak, y):
        """For each action the bars of its firings as one path: in each column the actions stand upon each other."""
        found = {}
        room = self.row - max(2, self.row / 8)
        gap = 1 if self.column >= 4 else 0
        for column, counts in cells.items():
            x, bottom = self.left + column * self.column, y + self.row - 1
            for action, count in counts:
                height = max(room * count / peak, 0.6)
                bottom -= height
                bar = f"M{svg.number_text(x)} {svg.number_text(bottom)}h{svg.number_text(self.column - gap)}" \
                      f"v{svg.number_text(height)}h-{svg.number_text(self.column - gap)}z"
                found[action] = found.get(action, "") + bar
        return found

    def draw_growth(self):
        """Marks where links grew at a stall: one mark in a column."""
        marks = {}
        for number, link, capacity in self.history.growth:
            column = (number - 1) // self.history.width
            marks.setdefault(column, []).append((number, link, capacity))
        parts, free = [], 0
        bottom = TOP + self.row * len(self.actions)
        for column, grown in sorted(marks.items()):
            x = self.left + (column + 0.5) * self.column
            title = "; ".join(f"round {number}: link {link} grows to {capacity}" for number, link, capacity in grown[:20])
            mark = svg.tag("path", svg.tag("title", title), d=f"M{svg.number_text(x)} {TOP - 2}V{bottom}", stroke=GROWTH,
                           stroke_width=1.2, stroke_dasharray="3 2")
            parts.append(mark)
            words = f"link {grown[0][1]} to {grown[0][2]}" if len(grown) == 1 else f"{len(grown)} grow"
            if x - svg.text_width(words, 9) / 2 > free:
                parts.append(svg.text(x, TOP - 6, words, 9, GROWTH, "middle"))
                free = x + svg.text_width(words, 9) / 2 + 4
        return parts

    def draw_end(self):
        colour = END_COLOURS.get(self.history.trace.end, svg.WARNING)
        bottom = TOP + self.row * len(self.actions)
        words = self.history.trace.end or "no end"
        x = self.x_of(self.history.rounds + 1)
        return [svg.tag("path", d=f"M{svg.number_text(x)} {TOP - 4}V{bottom + 4}", stroke=colour, stroke_width=2),
                svg.text(x + 6, bottom + 15, words, 10, colour, is_bold=True)]

    def draw_foot(self):
        width = self.history.width
        words = "Across: rounds. Each bar: what an instance fired in a round" if width == 1 else \
                f"Across: rounds, {width} in a column. Each bar: what an instance fired in them"
        return [svg.text(16, self.height - 12, words + ", coloured by action; the highest bar of a row fills it.", 9, svg.GREY)]


def tick_step(rounds, width, apart):
    """How many rounds lie between two numbers below the picture, if a round has this width and numbers stand so far
    apart."""
    step = 1
    while True:
        for factor in (1, 2, 5):
            if step * factor * width >= apart or step * factor >= rounds:
                return step * factor
        step *= 10


SCRIPT = """
const data = JSON.parse(document.getElementById("data").textContent);
const tip = document.getElementById("tip"), picture = document.querySelector("svg");
picture.addEventListener("mousemove", event => {
  const box = picture.getBoundingClientRect(), scale = picture.viewBox.baseVal.width / box.width;
  const column = Math.floor(((event.clientX - box.left) * scale - data.left) / data.column);
  const row = Math.floor(((event.clientY - box.top) * scale - data.top) / data.row);
  const isInside = column >= 0 && column < data.columns && row >= 0 && row < data.names.length;
  tip.style.display = isInside ? "block" : "none";
  if (!isInside) return;
  const first = column * data.width + 1, last = Math.min(first + data.width - 1, data.rounds);
  const cells = (data.cells[row][column] || []).map(([action, count]) => data.actions[row][action] + ": " + count);
  tip.textContent = data.names[row] + ", " + (first === last ? "round " + first : "rounds " + first + " to " + last) + "; " +
    (cells.join(", ") || "no firing");
  tip.style.left = event.pageX + 14 + "px";
  tip.style.top = event.pageY + 14 + "px";
});
picture.addEventListener("mouseleave", () => { tip.style.display = "none"; });
"""

STYLE = """
body { font-family: %s; color: %s; margin: 16px; }
pre { font-size: 12px; line-height: 1.45; overflow-x: auto; }
#tip { position: absolute; display: none; background: %s; color: white; padding: 4px 8px; border-radius: 4px;
  font-size: 12px; pointer-events: none; white-space: nowrap; }
""" % (svg.FONT, svg.INK, svg.BADGE)


def draw_timeline(history):
    return Timeline(history).draw()


def page(history):
    """The picture and the summary as one page, which tells what lies under the pointer."""
    picture = Timeline(history)
    actions = [{action: history.action_name(instance, action) for action, _ in each}
               for instance, each in enumerate(picture.actions)]
    data = {"left": picture.left, "top": TOP, "column": picture.column, "row": picture.row, "columns": picture.columns,
            "width": history.width, "rounds": history.rounds,
            "names": [history.name(instance) for instance in range(len(picture.actions))], "actions": actions,
            "cells": picture.rows}
    # A `<` in the text could close the element in which the text stands.
    told = json.dumps(data, separators=(",", ":")).replace("<", "\\u003c")
    return "\n".join(["<!DOCTYPE html>", '<html lang="en"><head><meta charset="utf-8">',
                      f"<title>{escape(history.trace.path)}</title>", f"<style>{STYLE}</style></head><body>", picture.draw(),
                      '<div id="tip"></div>', f"<pre>{escape(summary(history))}</pre>",
                      f'<script type="application/json" id="data">{told}</script>', f"<script>{SCRIPT}</script>",
                      "</body></html>", ""])
