"""A network in the language of graphviz, and the picture that graphviz makes of it."""

import shutil
import subprocess
from html import escape

from pictures import svg
from pictures.cal_text import ReadError
from pictures.drawing import actions_text, firings_text, link_text, parameter_text
from pictures.network import leaves_of

HEAD = """digraph network {
  rankdir=LR; ranksep=0.6; nodesep=0.3; fontname="Helvetica"; fontsize=13; labelloc=t; labeljust=l;
  node [shape=plain, fontname="Helvetica", fontsize=10, fontcolor="%s"];
  edge [fontname="Helvetica", fontsize=9, color="%s", fontcolor="%s", arrowsize=0.7];
""" % (svg.INK, svg.LINE, svg.INK)


def quoted(words):
    return '"' + words.replace("\\", "\\\\").replace('"', '\\"') + '"'


def cell(words, **attributes):
    parts = "".join(f' {name}="{value}"' for name, value in attributes.items())
    return f"<TD{parts}>{words or ' '}</TD>"


def actor_node(leaf, run):
    """An instance as a table: its number and name, its class, its ports, and how often it fired."""
    rows = [cell(f"<B>{leaf.number}&#160;&#160;{escape(leaf.name)}</B>", COLSPAN=2),
            cell(escape(leaf.of_class), COLSPAN=2)]
    rows += [cell(escape(parameter_text(*each)), COLSPAN=2) for each in leaf.parameters]
    for k in range(max(len(leaf.inputs), len(leaf.outputs))):
        rows.append("".join(port_cell(ports, k, letter, side) for ports, letter, side in
                            ((leaf.inputs, "i", "LEFT"), (leaf.outputs, "o", "RIGHT"))))
    if run:
        rows.append(cell(escape(actions_text(leaf, run) if len(leaf.actions) > 1 else firings_text(sum(run.of(leaf)))),
                         COLSPAN=2))
    colour = svg.WARNING if run and run.is_stopped(leaf) else svg.NODE_EDGE
    body = "".join(f"<TR>{row}</TR>" for row in rows)
    return (f'  n{leaf.number} [label=<<TABLE BORDER="1" CELLBORDER="0" CELLSPACING="2" CELLPADDING="2" STYLE="ROUNDED" '
            f'COLOR="{colour}" BGCOLOR="{svg.NODE}">{body}</TABLE>>];')


def port_cell(ports, number, letter, side):
    if number >= len(ports):
        return cell("")
    return cell(escape(ports[number].name), PORT=f"{letter}{number}", ALIGN=side)


def part_lines(box, run, indent="  "):
    """The parts of a network: instances as nodes, networks as clusters."""
    lines = []
    for part in box.parts:
        if not part.is_network():
            lines.append(indent + actor_node(part, run).strip())
            continue
        lines.append(f"{indent}subgraph {quoted('cluster ' + part.path)} {{")
        lines.append(f'{indent}  label={quoted(part.name + "  " + part.of_class)}; style=rounded; color="{svg.FRAME_EDGE}"; '
                     f'bgcolor="{svg.FRAME}"; fontsize=11;')
        lines += part_lines(part, run, indent + "  ")
        if not leaves_of(part):
            lines.append(f"{indent}  {quoted('empty ' + part.path)} [style=invis];")
        lines.append(indent + "}")
    return lines


def top_port_lines(top):
    lines = []
    for letter, ports, rank in (("in", top.inputs, "source"), ("out", top.outputs, "sink")):
        nodes = [f'{letter}{k} [label={quoted(port.name)}, shape=box, style="rounded,filled", fillcolor="#d9e2ec", '
                 f'color="{svg.NODE_EDGE}", height=0.3];' for k, port in enumerate(ports)]
        if nodes:
            lines.append(f"  {{ rank={rank}; {' '.join(nodes)} }}")
    return lines


def end_name(end):
    if end.box.is_network():
        return f"{'in' if end.is_input else 'out'}{end.port}"
    return f"n{end.box.number}:{'i' if end.is_input else 'o'}{end.port}:{'w' if end.is_input else 'e'}"


def link_line(link, run):
    label = f"{link.number}: {link.type_text}\\n{run.fullness(link) if run else link.capacity}"
    extra = f', color="{svg.WARNING}"' if run and run.is_short(link) else ""
    return (f'  {end_name(link.source)} -> {end_name(link.target)} [label="{label}", '
            f'tooltip={quoted(link_text(link, run))}{extra}];')


def dot_text(network, title, run=None):
    heading = title + (f"  {' '.join([run.end] + run.end_parts)}" if run and run.end else "")
    lines = [HEAD.rstrip(), f"  label={quoted(heading)};"] + top_port_lines(network.top) + part_lines(network.top, run)
    lines += [link_line(link, run) for link in network.links]
    return "\n".join(lines + ["}", ""])


def find_graphviz():
    return shutil.which("dot")


def run_graphviz(words):
    done = subprocess.run([find_graphviz(), "-Tsvg"], input=words.encode(), capture_output=True, check=False)
    if done.returncode != 0:
        raise ReadError(f"graphviz: {done.stderr.decode(errors='replace').strip()}")
    return done.stdout.decode()
