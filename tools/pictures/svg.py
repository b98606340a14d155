"""Parts of pictures as SVG text."""

import re
from collections import Counter
from html import escape

FONT = "Helvetica, Arial, 'Liberation Sans', 'DejaVu Sans', sans-serif"

# The widths of letters in thousandths of the size of the font, as Helvetica has them; what isn't named has the width of a
# digit.
WIDTHS = {}
for width, letters in ((222, "ijl'|"), (278, "fItr.,:;/![] "), (333, "()-`\""), (500, "ckszvxyJ"), (611, "FTZ"),
                       (667, "ABEKPSVXY&"), (722, "CDHNRUw"), (778, "GOQ"), (833, "mM"), (944, "W"), (1015, "@"),
                       (584, "+<=>~")):
    for letter in letters:
        WIDTHS[letter] = width

INK, GREY, PALE, LINE = "#1f2933", "#616e7c", "#9aa5b1", "#7b8794"
PAPER, NODE, NODE_EDGE, FRAME, FRAME_EDGE = "#ffffff", "#f5f7fa", "#9fb3c8", "#fbfcfe", "#bcccdc"
BADGE, LINK_BADGE, WARNING = "#334e68", "#0c6b58", "#cf1124"

# Colours of actions, which can be told apart also by those who don't see red and green alike.
ACTIONS = ["#2680c2", "#e9a23b", "#199473", "#c65d9c", "#7b61c9", "#d64545", "#5fb3ce", "#8d6e4c", "#a3b83b", "#52606d"]


def action_colour(number):
    return ACTIONS[number % len(ACTIONS)]


def text_width(text, size, is_bold=False):
    width = sum(WIDTHS.get(letter, 556) for letter in text) * size / 1000
    return width * (1.07 if is_bold else 1.0)


def short(text, size, width):
    """A text that is cut to a width."""
    if text_width(text, size) <= width:
        return text
    while text and text_width(text + "..", size) > width:
        text = text[:-1]
    return text + ".."


def number_text(number):
    """A coordinate with one decimal at most."""
    text = f"{number:.1f}"
    return text[:-2] if text.endswith(".0") else text


def tag(name, content="", **attributes):
    parts = "".join(f' {key.rstrip("_").replace("_", "-")}="{value if isinstance(value, str) else number_text(value)}"'
                    for key, value in attributes.items())
    return f"<{name}{parts}>{content}</{name}>" if content else f"<{name}{parts}/>"


def text(x, y, words, size=11, colour=INK, anchor="start", is_bold=False):
    extra = {"font_weight": "bold"} if is_bold else {}
    if anchor != "start":
        extra["text_anchor"] = anchor
    return tag("text", escape(words, quote=False), x=x, y=y, font_size=size, fill=colour, **extra)


def rectangle(x, y, width, height, fill, edge="none", radius=0, title=""):
    shape = {"rx": radius} if radius else {}
    look = {"fill": fill, "stroke": edge} if edge != "none" else {"fill": fill}
    return tag("rect", tag("title", escape(title, quote=False)) if title else "", x=x, y=y, width=width, height=height,
               **shape, **look)


# Attributes that say how something looks, one behind another.
LOOK = re.compile(r'(?: (?:fill|stroke|stroke-width|stroke-dasharray|font-size|font-weight|text-anchor)="[^"]*")+')


def style_of(look):
    """Attributes as they stand in a sheet of styles."""
    pairs = re.findall(r' ([a-z-]+)="([^"]*)"', look)
    return ";".join(f"{name}:{value}{'px' if name == 'font-size' else ''}" for name, value in pairs)


def with_classes(body):
    """What looks alike several times is named once: the sheet of styles, and the body with classes."""
    looks = [look for look, count in Counter(LOOK.findall(body)).items() if count > 2]
    names = {look: f"s{number}" for number, look in enumerate(looks)}
    body = LOOK.sub(lambda match: f' class="{names[match.group()]}"' if match.group() in names else match.group(), body)
    sheet = "".join(f".{name}{{{style_of(look)}}}" for look, name in names.items())
    return tag("style", sheet) if sheet else "", body


def document(width, height, parts, title):
    head = (f'<svg xmlns="http://www.w3.org/2000/svg" width="{number_text(width)}" height="{number_text(height)}" '
            f'viewBox="0 0 {number_text(width)} {number_text(height)}" font-family="{FONT}">')
    sheet, body = with_classes("\n".join(parts))
    return "\n".join([head, tag("title", escape(title, quote=False)), sheet, rectangle(0, 0, width, height, PAPER), body,
                      "</svg>", ""])
