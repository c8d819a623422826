"""Draws the pairs of a block as SVG: boxes below one another, on their left the derivatives that lead on to new pairs, on their right those
that a hypothesis closes."""
import textwrap
from html import escape

from proof_relation import Closed

CHARACTER, LINE = 7.85, 18  # of a letter's width and a line's height, in pixels
MOST, GAP, PAD, LANE = 60, 26, 10, 14  # columns of a box; pixels between boxes, within a box, between arrows


class Row:
    """A line of a box: a derivative, and where it leads."""

    def __init__(self, text, kind, ends=()):
        self.text, self.kind, self.ends = text, kind, list(ends)
        self.y = 0


class Box:
    def __init__(self, node, lines, rows):
        self.node, self.lines, self.rows = node, lines, rows
        self.columns = max(len(line) for line in [*lines, *(row.text for row in rows), "hypothesis 00"])
        self.height = (len(lines) + len(rows)) * LINE + 2 * PAD + 16
        self.y = 0

    def put(self, top):
        self.y = top
        for number, row in enumerate(self.rows):
            row.y = top + PAD + 12 + (len(self.lines) + number + 1) * LINE

    def head(self):
        """Where arrows end: at the first line of the pair."""
        return self.y + PAD + 8 + LINE - 4


def wrapped(text, first="", later="  "):
    return textwrap.wrap(text, MOST, initial_indent=first, subsequent_indent=later, break_long_words=True) or [""]


def row_of(theory, writer, edge, block):
    """The row of a derivative of a pair."""
    label = writer.derivative(theory.derivatives[edge.derivative])
    ahead = len(block.lemmas) - block.first
    if not isinstance(edge.end, Closed):
        return Row(f"{label} leads to {edge.end + ahead}", "on", [edge.end])
    lemmas = [n for n in edge.end.hypotheses if n < len(block.lemmas)]
    own = [n for n in edge.end.hypotheses if n >= len(block.lemmas)]
    by = [f"hypothesis {n}" for n in own] + [f"lemma {n}" for n in lemmas]
    if by:
        return Row(f"{label} closes by {', '.join(by)}", "closes" if own else "plain", [n - ahead for n in own])
    ends = " or ".join(dict.fromkeys(writer.text(term) for term in edge.end.ends))
    return Row(textwrap.shorten(f"{label}: both sides are {ends}", MOST + 6, placeholder=" .."), "plain")


def box_of(theory, writer, node, block):
    goal = node.goal
    lines = [*wrapped(writer.text(goal.left)), *wrapped(writer.text(goal.right), "= ")]
    for pair in goal.conditions:
        lines += wrapped(writer.pair(pair), "if ")
    return Box(node, lines, [row_of(theory, writer, edge, block) for edge in block.edges if edge.start == node.number])


def draw(theory, writer, block):
    """The drawing of a block, or nothing if it has no pair."""
    if not block.nodes:
        return ""
    boxes = {node.number: box_of(theory, writer, node, block) for node in block.nodes}
    top = 8
    for box in boxes.values():
        box.put(top)
        top += box.height + GAP
    width = max(box.columns for box in boxes.values()) * CHARACTER + 2 * PAD
    on = in_lanes([(row.y, boxes[end].head()) for box in boxes.values() for row in box.rows if row.kind == "on" for end in row.ends])
    back = in_lanes([(row.y, boxes[end].head()) for box in boxes.values() for row in box.rows if row.kind == "closes" for end in row.ends])
    left = LANE * (1 + max((lane for *_, lane in on), default=0)) + 10
    right = left + width
    whole = right + LANE * (1 + max((lane for *_, lane in back), default=0)) + 10
    arrows = [arrow(left, -1, *it, "on") for it in on] + [arrow(right, 1, *it, "closes") for it in back]
    shapes = [shape(box, left, width, len(block.lemmas) - block.first) for box in boxes.values()]
    return f'<svg width="{whole:.0f}" height="{top - GAP + 8:.0f}" role="img" aria-label="the pairs of the proof">{"".join(arrows)}{"".join(shapes)}</svg>'


def in_lanes(spans):
    """Arrows from one height to another, each with a lane, so that those of one lane do not meet; short ones are near the boxes."""
    lanes, found = [], []
    for start, end in sorted(spans, key=lambda span: abs(span[0] - span[1])):
        low, high = sorted((start, end))
        number = next((n for n, taken in enumerate(lanes) if all(high < a or b < low for a, b in taken)), len(lanes))
        if number == len(lanes):
            lanes.append([])
        lanes[number].append((low, high))
        found.append((start, end, number + 1))
    return found


def arrow(x, way, start, end, lane, kind):
    """From the side of a box outwards, along a lane, and back to the side of a box."""
    out = x + way * (LANE * lane + 4)
    turn = 6 if end > start else -6
    path = (f"M{x:.1f} {start:.1f}H{out - way * 6:.1f}Q{out:.1f} {start:.1f} {out:.1f} {start + turn:.1f}V{end - turn:.1f}"
            f"Q{out:.1f} {end:.1f} {out - way * 6:.1f} {end:.1f}H{x + way * 7:.1f}")
    head = f"M{x + way * 8:.1f} {end - 4:.1f}L{x:.1f} {end:.1f}L{x + way * 8:.1f} {end + 4:.1f}z"
    return f'<path class="edge {kind}" d="{path}"/><path class="head {kind}" d="{head}"/>'


def shape(box, left, width, ahead):
    kind = "box goal" if box.node.is_goal else "box"
    parts = [f'<a href="#step-{box.node.step.number}"><rect class="{kind}" x="{left:.1f}" y="{box.y:.1f}" width="{width:.1f}" height="{box.height:.1f}" rx="7"/></a>']
    y = box.y + PAD + 8
    parts.append(text(left + PAD, y, f"hypothesis {box.node.number + ahead}" + (", a goal" if box.node.is_goal else ""), "name"))
    for line in box.lines:
        y += LINE
        parts.append(text(left + PAD, y, line))
    for row in box.rows:
        parts.append(text(left + PAD, row.y + 4, row.text, f"row {row.kind}"))
    return "".join(parts)


def text(x, y, words, kind=""):
    return f'<text class="{kind}" x="{x:.1f}" y="{y:.1f}" xml:space="preserve">{escape(words)}</text>'
