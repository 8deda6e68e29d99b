"""Documents that tools generate, as PYX lines, and such lines as XML."""
import random

SHEET = ['(xsl:stylesheet', 'Aversion 1.0', 'Axmlns:xsl http://www.w3.org/1999/XSL/Transform']

# How deep the elements of the shape `deep` stand, and those of random form at most.
DEPTH = 200
RANDOM_DEPTH = 20


def wide(elements):
    """The document element with elements below it, each with an attribute and a text."""
    return ['(t'] + [line for i in range(elements) for line in ('(r', f'Ax {i % 100}', f'-{i % 97}', ')r')] + [')t']


def deep(elements):
    """Chains of 200 elements side by side."""
    return ['(t'] + (['(r'] * DEPTH + [')r'] * DEPTH) * (elements // DEPTH) + [')t']


def of_random_form(elements):
    """A walk down and up by chance, which goes down a little more often."""
    chance, lines, depth = random.Random(1), ['(t'], 0
    for _ in range(elements):
        ends = min(depth, chance.choice([0] * 4 + [1] * 3 + [4]) if depth < RANDOM_DEPTH else 1)
        lines += [')r'] * ends + ['(r']
        depth += 1 - ends
    return lines + [')r'] * depth + [')t']


def escaped(text):
    return text.replace('&', '&amp;').replace('<', '&lt;').replace('"', '&quot;')


def as_xml(lines):
    """The document of PYX lines as XML."""
    text, start = [], None
    for line in lines:
        if start is not None and line[0] != 'A':
            text.append(start + '>')
            start = None
        if line[0] == '(':
            start = '<' + line[1:]
        elif line[0] == 'A':
            name, value = line[1:].split(' ', 1)
            start += f' {name}="{escaped(value)}"'
        elif line[0] == '-':
            text.append(escaped(line[1:]))
        else:
            text.append(f'</{line[1:]}>')
    return ''.join(text)
