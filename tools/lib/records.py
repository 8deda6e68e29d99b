"""The picture of what an edit touches in what is kept of a run: a small session, its records, and three edits, each of
which is made alone."""
from html import escape
from typing import NamedTuple, Optional

from lib.crates import TOP

FILE = TOP / 'docs' / 'records.svg'

# What is sent before each of the edits.
START = '''module main
(xsl:stylesheet
Aversion 1.0
Axmlns:xsl http://www.w3.org/1999/XSL/Transform
(xsl:template
Amatch /
(ol
(xsl:apply-templates
Aselect list/item
)xsl:apply-templates
)ol
)xsl:template
(xsl:template
Amatch item
(li
(xsl:value-of
Aselect .
)xsl:value-of
)li
)xsl:template
)xsl:stylesheet
.
source
(list
(item
-pear
)item
(item
-fig
)item
(item
-plum
)item
)list
.'''.split('\n')

ROOT = '/'


class Edit(NamedTuple):
    """An edit, the records afterwards, and those of them that are made anew."""
    command: str
    body: Optional[list]
    items: list
    anew: set
    said: list


EDITS = [
    Edit('text source /1/2/1 date', None, ['1', '2', '3'], {'2'},
         ['Item 2 has another text, which nothing',
          'but its own template read: that is run',
          'again, and the list around it is kept.']),
    Edit('insert source /1/1', ['(item', '-lime', ')item'], ['new', '1', '2', '3'], {ROOT, 'new'},
         ['The list has an item more. The template',
          'at the root read the list: it is run',
          'again, and three of its items are kept.']),
    Edit('attr main /1/2/1/1 select name()', None, ['1', '2', '3'], {'1', '2', '3'},
         ['The template of each item has changed.',
          'That at the root is as it was, and so',
          'are the rules that it chose.']),
]

# The records of the run: what each is of, what it read, and what it wrote.
OF_ROOT = ('template / at the root', ['its template', 'the items of the list', 'which rule each item has'],
           '<ol> ① ② ③ </ol>')
OF_ITEMS = [(f'template item at item {number}', ['its template', 'the text of the item'], f'<li>{text}</li>')
            for number, text in (('1', 'pear'), ('2', 'fig'), ('3', 'plum'))]

WIDTH = 940
LINE = 17
BELOW = 262

STYLE = """
text{font:12px system-ui,'Segoe UI','DejaVu Sans',sans-serif;fill:#14202e;text-anchor:middle}
.name{font-weight:600;font-size:13px}
.sent,.wrote{font-family:ui-monospace,'DejaVu Sans Mono',Menlo,Consolas,monospace}
.said{fill:#59636e}
.start{text-anchor:start}
rect{stroke:#59636e;stroke-width:.8}
.kept{fill:#bfe3b4}
.anew{fill:#f6c48f}
.panel{fill:none;stroke:#8c959f;stroke-dasharray:5 4}
path{fill:none;stroke:#59636e;stroke-width:1.2}
@media(prefers-color-scheme:dark){.said{fill:#a4adb8}path{stroke:#a4adb8}}
"""


def text(kind, x, y, content):
    return f'<text class="{kind}" x="{x}" y="{y}">{escape(content)}</text>'


def box(kind, x, y, width, height):
    """A box, whose upper edge has its middle here."""
    return f'<rect class="{kind}" x="{x - width // 2}" y="{y}" width="{width}" height="{height}" rx="5"/>'


def branch(start, end):
    """A line from the lower edge of a record to the upper edge of one that it entered."""
    (x, y), (below, end_y) = start, end
    middle = (y + end_y) // 2
    return f'<path d="M{x} {y}C{x} {middle} {below} {middle} {below} {end_y}"/>'


def record(place, width, content):
    """A record with all that is kept in it."""
    (x, y), (name, read, wrote) = place, content
    yield box('kept', x, y, width, LINE * (len(read) + 2) + 12)
    lines = [('name', name), *(('', f'read {one}') for one in read), ('wrote', f'wrote {wrote}')]
    for number, (kind, line) in enumerate(lines, 1):
        yield text(kind, x, y + LINE * number + 2, line)


def run_picture():
    """What is kept of the run."""
    root, items = (WIDTH // 2, 30), [(at, 166) for at in (165, WIDTH // 2, WIDTH - 165)]
    lower = root[1] + LINE * (len(OF_ROOT[1]) + 2) + 12
    yield text('said start', 24, 20, 'What is kept of a run')
    for place in items:
        yield branch((root[0], lower), place)
    yield from record(root, 300, OF_ROOT)
    for place, content in zip(items, OF_ITEMS):
        yield from record(place, 250, content)


def edit_picture(edit, left, width):
    """The records after an edit."""
    middle, upper, lower = left + width // 2, BELOW + 62, BELOW + 122
    yield box('panel', middle, BELOW + 12, width, 226)
    yield text('sent said', middle, BELOW + 38, edit.command)
    step = 66
    places = [(round(middle + (at - (len(edit.items) - 1) / 2) * step), lower) for at in range(len(edit.items))]
    for place in places:
        yield branch((middle, upper + 26), place)
    for label, (x, y) in zip([ROOT, *edit.items], [(middle, upper), *places]):
        yield box('anew' if label in edit.anew else 'kept', x, y, 54, 26)
        yield text('name', x, y + 17, label)
    for number, line in enumerate(edit.said):
        yield text('said', middle, lower + 50 + LINE * number, line)
    yield text('said name', middle, lower + 58 + LINE * len(edit.said), f'ran {len(edit.anew)}')


def legend(y):
    """What the colours mean."""
    x = 24
    for kind, meaning in (('kept', 'all that it read has the same answers: what is kept serves'),
                          ('anew', 'something that it read has another answer, or it is new: it is run')):
        yield box(kind, x + 9, y - 10, 18, 12)
        yield text('said start', x + 26, y, meaning)
        x += 420


def records_picture():
    """The whole picture, as the text of an SVG file."""
    height = BELOW + 280
    width = WIDTH // len(EDITS) - 14
    parts = [f'<svg xmlns="http://www.w3.org/2000/svg" viewBox="0 0 {WIDTH} {height}" width="{WIDTH}" height="{height}">',
             '<title>What an edit touches in what is kept of a run</title>', f'<style>{STYLE}</style>', *run_picture()]
    for turn, edit in enumerate(EDITS):
        parts += edit_picture(edit, 7 + turn * (width + 14), width)
    return '\n'.join([*parts, *legend(height - 14), '</svg>']) + '\n'


def is_drawn():
    """Whether the file is this picture."""
    return FILE.is_file() and FILE.read_text(encoding='utf-8') == records_picture()


def sessions():
    """For each edit the lines of a session that ends with `stats`, and how the reply to that begins."""
    for edit in EDITS:
        body = [] if edit.body is None else [*edit.body, '.']
        yield [*START, edit.command, *body, 'stats'], f'ran {len(edit.anew)} asked '
