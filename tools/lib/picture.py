"""The picture of the crates: definitions on the left, code on the right, each above all that it stands on."""
from collections import namedtuple
from html import escape

from lib.crates import TOP, below, dependencies

FILE = TOP / 'docs' / 'crates.svg'

BOX = 116
GAP = 10
HEIGHT = 24
LINE = 46
LEFT = 30
FIRST = 74

# The panels, each with its heading and the most boxes of a line.
DEFINITIONS, CODE = 'definitions', 'code'
PANELS = {DEFINITIONS: ('Definitions', 3), CODE: ('Code', 5)}
BETWEEN = 24

# What the colours of the boxes mean, by panels.
COLOURS = {DEFINITIONS: [('definition', 'code is proved against them'), ('law', 'laws that no code uses')],
           CODE: [('code', 'libraries'), ('program', 'the program')]}

# How often the boxes of all lines are put in the order of those that they are joined with.
ROUNDS = 12

STYLE = """
text{font:11px system-ui,'Segoe UI','DejaVu Sans',sans-serif;fill:#14202e;text-anchor:middle}
.said{fill:#59636e;text-anchor:start}
.heading{font-size:14px}
.height{text-anchor:end}
.line{stroke:#8c959f;stroke-opacity:.35}
rect{stroke:#59636e;stroke-width:.6}
.definition{fill:#b9d6f5}
.law{fill:#dccdf2}
.code{fill:#f3dfa6}
.program{fill:#bfe3b4}
path{fill:none;stroke-width:.9}
.use{stroke:#a8772f}
.meaning{stroke:#5b8cc7;stroke-opacity:.55}
@media(prefers-color-scheme:dark){.said{fill:#a4adb8}.use{stroke:#d2a65c}.meaning{stroke:#7fb0ea}}
"""

Place = namedtuple('Place', 'x y')


def panel_of(name):
    return DEFINITIONS if name.startswith('spec_') else CODE


def drawn_crates():
    """The definitions and the code, without the crates of cases, each with those of them that its line names."""
    return {name: names for name, names in dependencies().items() if name.startswith(('spec_', 'xt_', 'xp_'))}


def reduced(crates):
    """The crates, each with those alone of its line that none of the others there stands on."""
    return {name: [one for one in names if not any(one in below(other, crates) for other in names)]
            for name, names in crates.items()}


def heights(crates):
    """How many crates stand below each crate on the longest way down. The crates come lowest first."""
    found = {}
    for name, names in crates.items():
        found[name] = 1 + max((found[other] for other in names), default=-1)
    return found


def lines_of(crates):
    """The lines of the picture from the top down, each its height and its boxes by panels. Where a panel has more boxes
    of one height than go into a line, they take turns in several."""
    by_height = heights(crates)
    lines = []
    for height in range(max(by_height.values()), -1, -1):
        of_panels = {panel: [name for name in crates if by_height[name] == height and panel_of(name) == panel]
                     for panel in PANELS}
        number = max(-(-len(names) // PANELS[panel][1]) for panel, names in of_panels.items())
        for turn in range(number):
            lines.append((height, {panel: names[turn::number] for panel, names in of_panels.items()}))
    return lines


def places_of(lines):
    """The middle of each box: the boxes of a line share the width of their panel."""
    places, left = {}, LEFT
    for panel, (_, most) in PANELS.items():
        width = most * (BOX + GAP)
        for row, (_, of_panels) in enumerate(lines):
            names = of_panels[panel]
            # Lines stand a little to the left and to the right in turn, so that fewer boxes hide what goes straight down.
            room = (width / len(names) - BOX - GAP) / 2 if len(names) > 1 else 0
            for column, name in enumerate(names):
                x = left + (column + 0.5) * width / len(names) + (room if row % 2 else -room)
                places[name] = Place(round(x), FIRST + row * LINE)
        left += width + BETWEEN
    return places


def put_in_order(lines, edges):
    """Orders the boxes of each line by where those stand that they are joined with, some times over, so that few lines
    between boxes cross."""
    joined = {}
    for upper, lower in edges:
        joined.setdefault(upper, []).append(lower)
        joined.setdefault(lower, []).append(upper)
    for _ in range(ROUNDS):
        for _, of_panels in lines:
            places = places_of(lines)
            for names in of_panels.values():
                names.sort(key=lambda name: mean(places[other].x for other in joined.get(name, [name])))


def mean(numbers):
    numbers = list(numbers)
    return sum(numbers) / len(numbers)


def kind_of(name, crates):
    """The class of a crate's box. A definition that no code stands on is one of laws."""
    if panel_of(name) == CODE:
        return 'code' if any(name in names for names in crates.values()) else 'program'
    is_used = any(name in below(other, crates) for other in crates if panel_of(other) == CODE)
    return 'definition' if is_used else 'law'


def box(name, place, crates, names):
    """A crate's box, which tells what it stands on where a pointer is held over it."""
    told = f'{name} stands on {", ".join(names)}' if names else f'{name} stands on no other crate'
    corner = f'x="{place.x - BOX // 2}" y="{place.y - HEIGHT // 2}"'
    return (f'<g><title>{escape(told)}</title><rect class="{kind_of(name, crates)}" {corner} width="{BOX}" '
            f'height="{HEIGHT}" rx="4"/><text x="{place.x}" y="{place.y + 4}">{name}</text></g>')


def curve(upper, lower):
    """A line from the lower edge of a box to the upper edge of one below it."""
    start, end = upper.y + HEIGHT // 2, lower.y - HEIGHT // 2
    bend = (end - start) // 2
    return f'M{upper.x} {start}C{upper.x} {start + bend} {lower.x} {end - bend} {lower.x} {end}'


def curves(kind, edges, places):
    return f'<path class="{kind}" d="{"".join(curve(places[upper], places[lower]) for upper, lower in edges)}"/>'


def legend():
    """The heading of each panel, and what its colours mean."""
    left = LEFT + GAP // 2
    for panel, (heading, most) in PANELS.items():
        yield f'<text class="said heading" x="{left}" y="20">{heading}</text>'
        x = left
        for kind, meaning in COLOURS[panel]:
            yield f'<rect class="{kind}" x="{x}" y="32" width="14" height="10" rx="2"/>'
            yield f'<text class="said" x="{x + 19}" y="41">{meaning}</text>'
            x += 27 + 6 * len(meaning)
        left += most * (BOX + GAP) + BETWEEN


def rulers(lines, width):
    """The heights at the left, and a line between each two of them."""
    known = None
    for row, (height, _) in enumerate(lines):
        y = FIRST + row * LINE
        if height != known:
            yield f'<text class="said height" x="{LEFT - 6}" y="{y + 4}">{height}</text>'
            yield f'<path class="line" d="M{LEFT} {y - LINE // 2}H{width - GAP}"/>'
        known = height


def crates_picture():
    """The whole picture, as the text of an SVG file."""
    crates = drawn_crates()
    direct = reduced(crates)
    edges = [(name, other) for name, names in direct.items() for other in names]
    lines = lines_of(crates)
    put_in_order(lines, edges)
    places = places_of(lines)
    width = LEFT + sum(most * (BOX + GAP) for _, most in PANELS.values()) + BETWEEN + GAP
    height = FIRST + len(lines) * LINE - HEIGHT
    to_code = [edge for edge in edges if panel_of(edge[0]) == panel_of(edge[1]) == CODE]
    others = [edge for edge in edges if edge not in to_code]
    parts = [f'<svg xmlns="http://www.w3.org/2000/svg" viewBox="0 0 {width} {height}" width="{width}" height="{height}">',
             '<title>The crates of xt, each above all that it stands on</title>', f'<style>{STYLE}</style>',
             *legend(), *rulers(lines, width), curves('meaning', others, places), curves('use', to_code, places),
             *(box(name, places[name], crates, direct[name]) for name in crates), '</svg>']
    return '\n'.join(parts) + '\n'


def is_drawn():
    """Whether the file is the picture of crates.txt."""
    return FILE.is_file() and FILE.read_text(encoding='utf-8') == crates_picture()
