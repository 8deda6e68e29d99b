"""Sessions by chance for `tools/fuzz`: mutations of those that are stored, and new ones."""
import re

from lib.crates import TOP
from lib.documents import SHEET
from lib.sessions import FORMS, MEBIBYTE, Command, commands_of
from lib.stylesheets import NAMES, TEXTS, Growing

# What a mutation puts somewhere: bytes and words that mean something to the program, and some that are no text.
TOKENS = [
    b'\n', b'.\n', b'\r\n', b'\r', b'\x00', b'\xff', b'\xc3', b'\xed\xa0\x80', b'\xef\xbf\xbe', b'\t', b' ', b'  ',
    b'/', b'/1', b'\\', b'\\n', b'\\q', b'(', b')', b'A', b'-', b'?', b'C', b'&', b'"', b"'", b'[', b']', b'{', b'}',
    b'$', b'xsl:', b'xmlns:p', b'xml:space', b'source\n', b'show\n', b'quit\n', b'dump source\n', b'module main\n',
    b'begin\n', b'commit\n', b'abandon\n',
    '\U0001F600'.encode(), b'9' * 19]
WORDS = [word for word in FORMS if word != b'quit']
OF_BATCHES = [b'begin', b'begin', b'commit', b'commit', b'abandon']


def bytes_of(line):
    """The bytes of a line of a case: `%` begins one with bytes in hexadecimal digits, `%.` ends one without line feed,
    and `%*N LINE` is N times LINE."""
    repeated = re.match(r'%\*(\d+) (.*)', line)
    if repeated:
        return int(repeated[1]) * bytes_of(repeated[2])
    if not line.startswith('%'):
        return line.encode() + b'\n'
    has_end = not line.endswith('%.')
    told = line[1:] if has_end else line[1:-2]
    return re.sub(rb'%([0-9A-F]{2})', lambda found: bytes([int(found[1], 16)]), told.encode()) + (b'\n' if has_end else b'')


def stored_sessions():
    """The sessions of the examples and of the cases, each once, as bytes, but those over a tenth of a MiB."""
    stored = [path.read_bytes() for path in sorted((TOP / 'examples').glob('**/*.session'))]
    inside = False
    for line in (TOP / 'crates' / 'session_cases' / 'stdin').read_text(encoding='utf-8').split('\n'):
        if line.startswith('=='):
            stored.append(b'')
        inside = line.startswith('==') or inside and not line.startswith('#')
        if inside and not line.startswith('=='):
            stored[-1] += bytes_of(line)
    return [data for data in dict.fromkeys(stored) if 0 < len(data) < MEBIBYTE // 10]


def paths_in(body):
    """The paths of the nodes of a body, as bytes, and of places behind the last ones."""
    found, positions = [b'/'], [0]
    for line in body:
        sign = line[:1]
        if sign in b'(-?C' and sign:
            positions[-1] += 1
            found.append(b''.join(b'/%d' % position for position in positions))
        if sign == b'(':
            positions.append(0)
        elif sign == b')' and len(positions) > 1:
            found.append(b''.join(b'/%d' % position for position in [*positions[:-1], positions[-1] + 1]))
            positions.pop()
    return found


class Fuzzing:
    """Makes sessions by chance, from those that are stored."""

    def __init__(self, chance, stored):
        self.chance = chance
        self.stored = stored
        self.growing = Growing(chance)

    def session(self):
        """A session of one kind, with what is asked between its commands and behind them."""
        make = self.chance.choice([self.of_bytes, self.of_lines, self.of_commands, self.of_edits, self.of_edits, self.grown,
                                   self.grown, self.grown, self.extreme, self.cut])
        return make()[:MEBIBYTE]

    # ---- Bytes, lines and commands of stored sessions

    def mutated(self, data, times):
        for _ in range(times):
            at = self.chance.randint(0, len(data))
            to = min(len(data), at + self.chance.choice([1, 1, 1, 4, 20, 100]))
            data = self.chance.choice([
                lambda: data[:at] + self.chance.choice(TOKENS) + data[at:], lambda: data[:at] + data[to:],
                lambda: data[:at] + self.chance.choice(TOKENS) + data[to:], lambda: data[:to] + data[at:to] + data[to:],
                lambda: data[:at] + bytes([self.chance.randrange(256)]) + data[at + 1:]])()
        return data

    def of_bytes(self):
        """Bytes of a stored session are put in, taken out, doubled and changed."""
        return self.mutated(self.chance.choice(self.stored), self.chance.choice([1, 2, 5, 20])) + b'\n' + self.asked_at_end()

    def of_lines(self):
        """Lines of two stored sessions are left out, doubled and exchanged."""
        lines = [line for data in self.chance.sample(self.stored, 2) for line in data.split(b'\n')]
        for _ in range(self.chance.choice([1, 3, 10])):
            at, other = self.chance.randrange(len(lines)), self.chance.randrange(len(lines))
            change = self.chance.choice(['swap', 'double', 'leave', 'put'])
            if change == 'swap':
                lines[at], lines[other] = lines[other], lines[at]
            elif change == 'leave' and len(lines) > 1:
                del lines[at]
            else:
                lines.insert(at, lines[other] if change == 'double' else self.line_of_a_body())
        return b'\n'.join(lines) + b'\n' + self.asked_at_end()

    def line_of_a_body(self):
        return self.chance.choice(['(a', ')a', 'Ax 1', '-x', 'C c', '?t', '.', '', '(p:a', 'Axmlns:p u']).encode()

    def of_commands(self):
        """Commands of several stored sessions, some with a word changed."""
        commands = [command for data in self.chance.sample(self.stored, 4) for command in commands_of(data)[0]]
        chosen = [self.chance.choice(commands) for _ in range(self.chance.randint(1, 20))] if commands else []
        return self.with_requests([self.with_other_word(command) if self.growing.may(20) else command for command in chosen])

    def with_other_word(self, command):
        words = command.line.split(b' ')
        words[self.chance.randrange(len(words))] = self.chance.choice(
            [b'', b'source', b'main', b'/1', b'/1/1', b'/0', b'/01', b'/', b'/1/2/3', b'x', b'p:x', b'9' * 18, *WORDS])
        return Command(b' '.join(words), command.body)

    def cut(self):
        """A session that ends anywhere."""
        data = self.any_session()
        return data[:self.chance.randint(0, len(data))]

    def any_session(self):
        return self.chance.choice([self.grown, self.of_edits, lambda: self.chance.choice(self.stored)])()

    # ---- Edits

    def of_edits(self):
        """The documents of a stored session, with edits at paths in them."""
        commands = commands_of(self.chance.choice(self.stored))[0][:30]
        return self.with_requests(commands + self.edits(commands, self.chance.randint(1, 30)))

    def edits(self, commands, number):
        documents = [(command.document, paths_in(command.body)) for command in commands
                     if command.word in (b'source', b'module') and command.document]
        documents = documents or [(b'source', [b'/1'])]
        return [self.edit(*self.chance.choice(documents)) for _ in range(number)]

    def edit(self, document, paths):
        word = self.chance.choice([b'insert', b'delete', b'text', b'text', b'attr', b'attr', b'unattr', b'rename', b'move',
                                   b'move', b'param'])
        if self.growing.may(6):
            return self.replacement(document)
        if self.growing.may(8):
            return Command(self.chance.choice(OF_BATCHES), [])
        path = self.near(self.chance.choice(paths))
        name = self.name()
        value = self.value()
        if word == b'param':
            return Command(b'param ' + name + b' ' + value, [])
        if word == b'insert':
            return Command(b'insert ' + document + b' ' + path, [line.encode() for line in self.growing.nodes(2)])
        more = {b'text': [value], b'attr': [name, value], b'unattr': [name], b'rename': [name],
                b'move': [self.near(self.chance.choice(paths))]}.get(word, [])
        return Command(b' '.join([word, document, path, *more]), [])

    def replacement(self, document):
        """The document goes, or another takes its place."""
        if document != b'source' and self.growing.may(50):
            return Command(b'drop ' + document, [])
        lines = self.growing.document() if document == b'source' else self.growing.stylesheet()['main']
        line = b'source' if document == b'source' else b'module ' + document
        return Command(line, [text.encode() for text in lines])

    def near(self, path):
        if self.growing.may(85):
            return path
        parent = path.rpartition(b'/')[0] or b'/'
        return self.chance.choice([path + b'/1', parent, path + b'0', path + b'/', path[:-1] + b'9'])

    def name(self):
        known = [b'x', b'select', b'match', b'test', b'name', b'xmlns:p', b'xmlns', b'xml:space', b'xsl:if', b'xsl:copy']
        return self.chance.choice(known) if self.growing.may(60) else self.chance.choice(NAMES).encode()

    def value(self):
        self.growing.scope = ['v', 'w', 'x1']
        text = self.growing.any_of(self.growing.expression, self.growing.pattern, lambda: self.chance.choice(TEXTS),
                                   lambda: self.chance.choice(['urn:p', 'urn:q', 'preserve', 'main', 'lib']))
        return text.encode()

    # ---- Grown sessions

    def grown(self):
        """New documents and stylesheets, and edits of them."""
        modules = self.growing.stylesheet(self.chance.sample(['lib', 'lib/b', 'é'], self.chance.choice([0, 0, 1, 2])))
        commands = [Command(f'module {name}'.encode(), [line.encode() for line in lines]) for name, lines in modules.items()]
        commands.append(Command(b'source', [line.encode() for line in self.growing.document()]))
        self.chance.shuffle(commands)
        return self.with_requests(commands + self.edits(commands, self.chance.randint(0, 25)))

    def extreme(self):
        """A session with one thing that is long or deep."""
        number = self.chance.choice([63, 64, 65, 255, 256, 257, 1199, 1200, 1201, 5000, 20_000, 100_000])
        many_for_source, many_for_expression = self.chance.choice([(number, 1), (1, number), (1, number), (20, 20)])
        sheet = [*SHEET, '(xsl:template', f'Amatch {self.chance.choice(["/", "*", "a"])}', '(xsl:value-of',
                 f'Aselect {self.long_expression(many_for_expression)}', ')xsl:value-of', ')xsl:template', ')xsl:stylesheet']
        path, value = b'/1' * number, b'x' * number
        line = self.chance.choice([b'delete source ' + path, b'text source ' + path + b' x', b'move source /1/1 ' + path,
                                   b'attr source /1 x ' + b'\\' * number, b' ' * number, b'param x ' + value, value])
        bodies = [(b'source', self.long_source(many_for_source)), (b'module main', sheet)]
        commands = [Command(word, [text.encode() for text in lines]) for word, lines in bodies]
        return self.with_requests([*commands, Command(line, [])])

    def long_expression(self, number):
        return self.chance.choice([
            '(' * number + '1' + ')' * number, '+'.join(['1'] * number), '-' * number + '1', 'a' + '/../a' * number,
            'a' + '[1]' * number, '//' + '/'.join(['*'] * number), '|'.join(['a'] * number), "'" + 'x' * number + "'",
            'concat(' * number + "'a', 'b'" + ", 'c')" * number, 'a' * number, f'concat({", ".join(["1"] * number)})'])

    def long_source(self, number):
        return self.chance.choice([
            ['(a'] * number + [')a'] * number, ['(a', *['(b', ')b'] * number, ')a'], ['(a', '-' + 'x' * number, ')a'],
            ['(a', *[f'Ax{turn} 1' for turn in range(min(number, 2000))], ')a'], ['(' + 'a' * number, ')' + 'a' * number],
            ['(a', *['-x'] * number, ')a'], ['(a', *['C', '-x'] * number, ')a']])

    # ---- What is asked

    def requests(self, documents):
        asked = [b'dump ' + document for document in documents] + [b'show', b'write', b'messages', b'stats']
        return [Command(line, []) for line in asked]

    def with_requests(self, commands):
        """The bytes of these commands, with all that can be asked around some of them and behind the last."""
        documents = sorted({command.document for command in commands
                            if command.document and command.word in (b'source', b'module')})
        often = self.chance.choice([0, 10, 100])
        asked = []
        for command in commands:
            asked += [command, *(self.requests(documents[:4]) if self.growing.may(often) else [])]
        return b''.join(command.data for command in asked) + self.asked_at_end(documents)

    def asked_at_end(self, documents=(b'main', b'source')):
        """All that can be asked, mostly behind what ends a batch that is open still."""
        ends = [Command(word, []) for word in self.chance.choice([[], [b'commit'], [b'commit'], [b'abandon']])]
        return b''.join(command.data for command in [*ends, *self.requests(documents)])
