"""Tables of nested grids as people keep them: read from CSV with names or numbers, listed by the library, and drawn."""

from __future__ import annotations

import csv
import html
import io
import math
import re
from dataclasses import dataclass
from typing import Dict, List, Tuple

import numpy as np

from .calls import MAX_BODIES, SUN, nest
from .library import Refused, Unreadable

SUN_NAME = "Sun"
NO_BODY = SUN - 1
"""Stands for a name that is no body's: the library refuses it."""


@dataclass
class Table:
    """The bodies in the order of their numbers."""

    names: List[str]
    holders: List[int]
    """For each body the number of the one that it hangs in, or SUN."""
    spacings: List[str]
    """The spacing of each body's grid as the table has it, or nothing."""
    listing: List[int]
    """Each body after the one that it hangs in."""

    def inside(self, holder: int) -> List[int]:
        """The bodies in the grid of one, or in the Sun's, in the order of the listing."""
        return [body for body in self.listing if self.holders[body] == holder]


def read_table(data: bytes) -> Table:
    """The table of a CSV text: body, the body whose grid it hangs in or Sun, and where there is a third column the spacing. Columns
    are parted by commas, semicolons or tabs; a line that begins with #, an empty one, a first one that begins with the word body,
    and one of the Sun itself are no bodies. Where all bodies are numbers these are their order, else it is that of the lines.
    Raises `Unreadable`, or `Refused` by 21 to 23 with the names in its words."""
    rows = _rows(data)
    if rows and all(re.fullmatch("[0-9]{1,9}", name) for name in rows):
        rows = dict(sorted(rows.items(), key=lambda row: int(row[0])))
    names = list(rows)
    if not 0 < len(names) <= MAX_BODIES:
        raise Refused(21, 0, f"the table has {len(names):,} bodies, and 1 to {MAX_BODIES} can be listed")
    numbers = {name: number for number, name in enumerate(names)}
    asked = [holder for holder, _ in rows.values()]
    holders = [SUN if _is_sun(holder) else numbers.get(holder, NO_BODY) for holder in asked]
    try:
        listing = nest(np.array(holders, np.uint16)).tolist()
    except Refused as refused:
        body = names[refused.place] if refused.number in (22, 23) else ""
        if refused.number == 22:
            raise Refused(22, refused.place, f"{body} hangs in {asked[refused.place]}, which is no body of the table", "") from None
        if refused.number == 23:
            raise Refused(23, refused.place, f"{_chain(refused.place, names, holders)}, and so on: that never comes to the Sun", "") from None
        raise
    return Table(names, holders, [spacing for _, spacing in rows.values()], listing)


def _is_sun(word: str) -> bool:
    return word.lower() == SUN_NAME.lower() or word == str(SUN)


def _rows(data: bytes) -> Dict[str, tuple]:
    """For each body its holder and its spacing, in the order of the lines."""
    try:
        text = data.decode("utf-8-sig")
    except UnicodeDecodeError as error:
        raise Unreadable(f"byte {error.start} is no UTF-8 text") from None
    parting = max(",;\t", key=text.count)
    rows: Dict[str, tuple] = {}
    lines: Dict[str, int] = {}
    reader = csv.reader(io.StringIO(text, newline=""), delimiter=parting, skipinitialspace=True)
    try:
        for row in reader:
            words = [" ".join(word.split()) for word in row] + ["", "", ""]
            body, holder, spacing = words[:3]
            first = not lines
            if not "".join(words) or body.startswith("#"):
                continue
            lines.setdefault(body, reader.line_num)
            if (first and body.lower() == "body") or (_is_sun(body) and not holder):
                continue
            if not body or not holder:
                raise Unreadable(f"line {reader.line_num} has no {'body' if not body else 'body that ' + body + ' hangs in'}")
            if _is_sun(body):
                raise Unreadable(f"line {reader.line_num} has the Sun hang in {holder}")
            if body in rows:
                raise Unreadable(f"line {reader.line_num} has {body} again, which is in line {lines[body]}")
            rows[body] = (holder, spacing)
    except csv.Error as error:
        raise Unreadable(f"line {reader.line_num}: {error}") from None
    return rows


def _chain(body: int, names: List[str], holders: List[int]) -> str:
    """The chain of a body until it comes back."""
    met = [body]
    while holders[met[-1]] not in met:
        met.append(holders[met[-1]])
    steps = [f"{names[one]} hangs in {names[holders[one]]}" for one in met]
    return ", ".join(steps[:6] + ([".."] if len(steps) > 6 else []))


def told(table: Table) -> List[str]:
    """The listing, an empty line, and a picture in which each body stands under the one that it hangs in."""
    lines = [table.names[body] for body in table.listing] + ["", SUN_NAME]
    waiting = [(body, 1) for body in reversed(table.inside(SUN))]
    while waiting:
        body, depth = waiting.pop()
        lines.append("  " * depth + table.names[body] + (f": {table.spacings[body]}" if table.spacings[body] else ""))
        waiting.extend((one, depth + 1) for one in reversed(table.inside(body)))
    return lines


# ---- the drawing

DOT, GAP, LETTER, LINE = 3.0, 4.0, 6.2, 12.0
STEP, ANGLES = 12.0, 24
LARGEST = 190.0
"""How far a grid reaches in the one that it hangs in: what is larger by itself is drawn smaller there."""
TURN = math.pi * (3 - math.sqrt(5))
"""Between one orbit's body and the next, where there is room: so that no two stand in a line."""
STYLE = """text { font: 11px system-ui, "DejaVu Sans", sans-serif; text-anchor: middle; fill: #16202c }
.spacing { font-size: 9px; fill: #4a5866 } .orbit { fill: none; stroke: #9aa6b3 } .grid { stroke: none } .grid.odd { fill: #e6edf5 }
.grid.even, .ground { fill: #f7f8fa } .body { fill: #24384f } .sun { fill: #e0a100 }
@media (prefers-color-scheme: dark) { text { fill: #e6ecf3 } .spacing { fill: #a9b6c4 } .orbit { stroke: #566473 } .grid.odd { fill: #1b2530 }
.grid.even, .ground { fill: #11161d } .body { fill: #dbe6f2 } .sun { fill: #ffcf4d } }"""


def drawing(table: Table) -> bytes:
    """An SVG of the nested grids: round each body the orbits of those that hang in its grid, one inside another, with the name of
    each and its spacing."""
    inside: Dict[int, List[int]] = {holder: table.inside(holder) for holder in [SUN, *table.listing]}
    words = {body: list(filter(None, [table.names[body], table.spacings[body]])) for body in table.listing}
    words[SUN] = [SUN_NAME]
    reach: Dict[int, float] = {}
    places: Dict[int, Tuple[float, float]] = {}
    # those that hang in a grid come before the one that has it
    for holder in [*reversed(table.listing), SUN]:
        own = max(DOT + LINE * len(words[holder]), max(map(len, words[holder])) * LETTER / 2) + GAP
        reach[holder] = _placed(inside[holder], own, {body: min(reach[body], LARGEST) for body in inside[holder]}, places)
    shapes: List[str] = []
    waiting = [(SUN, 0.0, 0.0, 1.0, 0)]
    while waiting:
        holder, x, y, scale, depth = waiting.pop()
        shapes.append(f'<g transform="translate({x:.7g} {y:.7g}) scale({scale:.7g})">')
        shapes.append(_circle("grid odd" if depth % 2 else "grid even", reach[holder]))
        for body in inside[holder]:
            right, down = places[body]
            shapes.append(_circle("orbit", math.hypot(right, down)))
            waiting.append((body, x + scale * right, y + scale * down, scale * min(1, LARGEST / reach[body]), depth + 1))
        shapes.append(_circle("body" if depth else "sun", DOT if depth else 2 * DOT))
        for line, text in enumerate(words[holder]):
            shapes.append(_label(' class="spacing"' if line else "", DOT + LINE * (line + 1), text))
        shapes.append("</g>")
    left, top, width, height = (f"{number:.0f}" for number in _frame([(*places[body], min(reach[body], LARGEST)) for body in inside[SUN]]))
    whole = [f'<svg xmlns="http://www.w3.org/2000/svg" viewBox="{left} {top} {width} {height}" width="{width}" height="{height}">',
             f"<title>{len(table.names)} nested grids</title>", f"<style>{STYLE}</style>",
             f'<rect class="ground" x="{left}" y="{top}" width="100%" height="100%"/>', *shapes, "</svg>", ""]
    return "\n".join(whole).encode("utf-8")


def _frame(discs: List[Tuple[float, float, float]]) -> Tuple[float, float, float, float]:
    """What frames all orbits round the Sun and all grids on them: left, top, width and height."""
    orbits = [(0.0, 0.0, math.hypot(x, y)) for x, y, _ in discs]
    left, top = (min(disc[axis] - disc[2] for disc in discs + orbits) - 4 * GAP for axis in range(2))
    right, bottom = (max(disc[axis] + disc[2] for disc in discs + orbits) + 4 * GAP for axis in range(2))
    return left, top, right - left, bottom - top


def _placed(bodies: List[int], own: float, reach: Dict[int, float], places: Dict[int, Tuple[float, float]]) -> float:
    """Puts the grids of these bodies round a body that takes `own` for itself, each on a wider orbit than the one before and as near
    as the others let it. The answer is how far all of it reaches."""
    orbit = reached = own
    for number, body in enumerate(bodies):
        orbit = max(orbit + STEP, own + reach[body] + GAP)
        while body not in places:
            for step in range(ANGLES):
                angle = TURN * number - math.pi / 3 + 2 * math.pi * step / ANGLES
                x, y = orbit * math.cos(angle), orbit * math.sin(angle)
                if all(math.hypot(x - places[other][0], y - places[other][1]) >= reach[body] + reach[other] + GAP
                       for other in bodies[:number]):
                    places[body] = x, y
                    break
            else:
                orbit += STEP
        reached = max(reached, orbit + reach[body])
    return reached + GAP


def _circle(kind: str, radius: float) -> str:
    return f'<circle class="{kind}" r="{radius:.1f}"/>'


def _label(kind: str, down: float, words: str) -> str:
    allowed = re.sub("[^\t\x20-\ud7ff\ue000-\ufffd\U00010000-\U0010ffff]", "\ufffd", words)
    return f'<text{kind} y="{down:.1f}">{html.escape(allowed, quote=False)}</text>'
