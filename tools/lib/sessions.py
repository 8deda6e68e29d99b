"""What the tools share that send hostile sessions to the proved native program: the commands that bytes are, a run of
the program under limits, the replies that bytes are, and what is wrong with a reply by the manual of a session
(docs/SESSION.md)."""
import fcntl
import os
import re
import resource
import subprocess
import tempfile
from typing import NamedTuple

MEBIBYTE = 1 << 20

# What a run of the program may take: address space in bytes, and seconds of the processor.
ADDRESS_SPACE = 1024 * MEBIBYTE
SECONDS = 20

WORD = rb'[^ ]+'
PATH = rb'/(?:[1-9][0-9]{0,17}(?:/[1-9][0-9]{0,17})*)?'
MODULE = rb'(?!source\Z)[^ ]+'
REST = rb'(?: .*)?'

# The form of each command, by its word.
FORMS = {word: re.compile(b' '.join([word, *parts]) + rest, re.S) for word, parts, rest in [
    (b'source', [], b''), (b'module', [MODULE], b''), (b'drop', [MODULE], b''),
    (b'insert', [WORD, PATH], b''), (b'delete', [WORD, PATH], b''), (b'text', [WORD, PATH], REST),
    (b'attr', [WORD, PATH, WORD], REST), (b'unattr', [WORD, PATH, WORD], b''), (b'rename', [WORD, PATH, WORD], b''),
    (b'move', [WORD, PATH, PATH], b''), (b'param', [WORD], REST), (b'show', [], b''), (b'write', [], b''),
    (b'messages', [], b''), (b'stats', [], b''), (b'dump', [WORD], b''), (b'begin', [], b''), (b'commit', [], b''),
    (b'abandon', [], b''), (b'quit', [], b'(?!)')]}

# The numbers by which each command may be refused, but for 1, which any may be, and 2 to 4, which its line decides.
OF_A_BODY = {8, 9, 10, 11, 12, 14}
NUMBERS = {
    b'source': OF_A_BODY, b'module': OF_A_BODY, b'drop': {5}, b'insert': {5, 6, 7} | OF_A_BODY, b'delete': {5, 6, 7, 9},
    b'text': {5, 6, 7, 8}, b'attr': {5, 6, 7, 8, 10, 14}, b'unattr': {5, 6, 7, 10, 14}, b'rename': {5, 6, 7, 10},
    b'move': {5, 6, 7, 9, 10, 11, 12, 14, 15}, b'param': {8, 10}, b'dump': {5}, b'show': set(), b'write': set(),
    b'messages': set(), b'stats': set(), b'begin': {16}, b'commit': {17}, b'abandon': {17}}
ASKS = {b'show', b'write', b'messages', b'stats', b'dump'}
WITH_BODY = (b'source', b'module', b'insert')

REFUSAL = rb'(?:S(?:0[1-9]|1[0-9]|2[0-6])|D(?:0[1-4]|0[6-9]|1[01])) (?:-|[^ \n]+?(?:/[1-9][0-9]{0,17})+)'
NO = re.compile(rb'no ([1-9][0-9]?)\n')
OK = re.compile(rb'ok (?:done|refused ' + REFUSAL + rb')\n')
PENDING = b'ok pending\n'
DROPPED = b'ok dropped\n'
REFUSED = re.compile(rb'refused ' + REFUSAL + rb'\n')
TEXT = re.compile(rb'text (0|[1-9][0-9]*)\n')
COUNTS = re.compile(rb'ran (0|[1-9][0-9]*) asked (0|[1-9][0-9]*) did (0|[1-9][0-9]*)\n')

# A character that XML does not have, and what stands unescaped or as no escape in a line that was written.
NO_XML = re.compile('[^\t\n\r\x20-\uD7FF\uE000-\uFFFD\U00010000-\U0010FFFF]')
NOT_WRITTEN = re.compile(r'[\t\r]|(?<!\\)(?:\\\\)*\\(?![ntr\\])')


class Command(NamedTuple):
    """A command's line, and the lines of its body."""
    line: bytes
    body: list

    @property
    def word(self):
        return self.line.split(b' ', 1)[0]

    @property
    def document(self):
        """The name of the document that it speaks of, or nothing."""
        words = self.line.split(b' ')
        return b'source' if self.word == b'source' else words[1] if len(words) > 1 and self.word != b'param' else None

    @property
    def data(self):
        """Its bytes, with the line that ends its body."""
        has_end = self.word in WITH_BODY
        return b''.join(line + b'\n' for line in [self.line, *self.body, *([b'.'] if has_end else [])])


def lines_of(data):
    """The lines of bytes: one carriage return directly before a line feed is no part of a line."""
    *ended, last = data.split(b'\n')
    return [line[:-1] if line.endswith(b'\r') else line for line in ended] + ([last] if last else [])


def commands_of(data):
    """The whole commands that bytes are, up to their end or to `quit`, and the status that this end gives."""
    commands, lines = [], iter(lines_of(data))
    for line in lines:
        if line == b'quit':
            break
        if line in WITH_BODY or line[:7] in [word + b' ' for word in WITH_BODY]:
            body = []
            for inner in lines:
                if inner == b'.':
                    break
                body.append(inner)
            else:
                return commands, 4
            commands.append(Command(line, body))
        elif line:
            commands.append(Command(line, []))
    return commands, 0


# ---- Runs

class Run(NamedTuple):
    """How a run of the program ended (below 0: by that signal), what it wrote to standard output and to standard
    error, and the most memory that it had at a time, in bytes."""
    status: int
    written: bytes
    said: bytes
    peak: int


def limit():
    """Sets the limits of a run, in its process. Seconds that are over end it by the signal SIGXCPU."""
    resource.setrlimit(resource.RLIMIT_AS, (ADDRESS_SPACE, ADDRESS_SPACE))
    resource.setrlimit(resource.RLIMIT_CPU, (SECONDS, SECONDS + 5))
    resource.setrlimit(resource.RLIMIT_CORE, (0, 0))


def filled_pipe(data):
    """The end of a pipe from which this can be read, and then its end. It holds at most a MiB."""
    reading, writing = os.pipe()
    fcntl.fcntl(writing, fcntl.F_SETPIPE_SZ, MEBIBYTE)
    with os.fdopen(writing, 'wb') as file:
        file.write(data)
    return reading


def run(program, data, words=('session',), environment=None):
    """Runs the program with these bytes, at most a MiB, on a pipe as its standard input."""
    reading = filled_pipe(data)
    with tempfile.TemporaryFile() as errors:
        process = subprocess.Popen([program, *words], stdin=reading, stdout=subprocess.PIPE, stderr=errors,
                                   env=environment, preexec_fn=limit)
        os.close(reading)
        written = process.stdout.read()
        process.stdout.close()
        _, ended, usage = os.wait4(process.pid, 0)
        process.returncode = os.waitstatus_to_exitcode(ended)
        errors.seek(0)
        return Run(process.returncode, written, errors.read(), usage.ru_maxrss * 1024)


# ---- Replies

def cut(written):
    """The whole replies that bytes are, as the manual tells where each ends, and what is left behind them."""
    replies, at = [], 0
    while at < len(written):
        line_end = written.find(b'\n', at) + 1
        text = TEXT.fullmatch(written, at, line_end)
        if line_end == 0:
            break
        if text:
            end = line_end + int(text[1]) + 1
        elif written.startswith((b'ok ', b'no ', b'refused ', b'ran '), at):
            end = line_end
        else:
            end = line_end if written[at:line_end] == b'.\n' else written.find(b'\n.\n', at) + 3
        if not line_end <= end <= len(written):
            break
        replies.append(written[at:end])
        at = end
    return replies, written[at:]


def line_fault(line):
    """What is wrong with a line of a document or a result, or nothing."""
    try:
        text = line.decode()
    except UnicodeDecodeError:
        return 'is no UTF-8'
    if NO_XML.search(text):
        return 'has a character that XML does not have'
    if NOT_WRITTEN.search(text):
        return 'is not escaped as lines are written'
    if not re.match(r'\([^ ]+\Z|\)[^ ]+\Z|A[^ ]+ |-.|\?[^ ]+( .+)?\Z|C', text):
        return 'is none of PYX'
    return None


def tree_fault(lines):
    """What is wrong with the tree that the lines of a document or a result are, or nothing."""
    names, attributes, sign_before = [], set(), ''
    for line in lines:
        fault = line_fault(line)
        if fault:
            return f'the line {line[:80]!r} {fault}'
        sign, name = line[:1], line[1:].split(b' ', 1)[0]
        if sign == b'(':
            names.append(name)
            attributes = set()
        elif sign == b')' and (not names or names.pop() != name):
            return f'the line {line[:80]!r} ends no element'
        elif sign == b'A' and (sign_before not in (b'(', b'A') or name in attributes):
            return f'the line {line[:80]!r} stands behind no start, or again'
        elif sign == b'-' and sign_before == b'-':
            return 'two texts stand side by side'
        if sign == b'A':
            attributes.add(name)
        sign_before = sign
    return 'an element is not closed' if names else None


def document_fault(lines):
    """What is wrong with the lines of a document as `dump` writes it, or nothing."""
    depth = deepest = elements = 0
    for line in lines:
        if line[:1] == b'(':
            elements += depth == 0
            depth += 1
            deepest = max(deepest, depth)
        depth -= line[:1] == b')'
        if line[:1] == b'-' and depth == 0:
            return 'a document has text at the top'
    if elements != 1:
        return f'a document has {elements} document elements'
    return 'a document is deeper than 256' if deepest > 256 else None


def refusal_by_line(command):
    """The number from 2 to 4 by which a command is refused for its line and the bytes of its body, or nothing."""
    try:
        for line in (command.line, *command.body):
            line.decode()
    except UnicodeDecodeError:
        return 2
    if command.word not in FORMS:
        return 3
    return None if FORMS[command.word].fullmatch(command.line) else 4


def shown_fault(command, reply):
    """What is wrong with a reply to a request that is made of lines, or nothing."""
    lines = reply.split(b'\n')[:-2]
    if command.word == b'messages':
        bad = [line for line in lines if line[:1] != b'-' or line != b'-' and line_fault(line)]
        return f'the message {bad[0][:80]!r} is no line of a text' if bad else None
    return tree_fault(lines) or (document_fault(lines) if command.word == b'dump' else None)


def form_fault(command, reply):
    """What is wrong with the form of a reply to a command, or nothing."""
    number = NO.fullmatch(reply)
    decided = refusal_by_line(command)
    if number and int(number[1]) == 1:
        return None
    if decided and reply != b'no %d\n' % decided:
        return f'the reply is {reply[:80]!r}, and not `no {decided}`'
    if number and not decided and int(number[1]) not in NUMBERS[command.word]:
        return f'the reply {reply[:80]!r} may not come to this command'
    if number:
        return None
    if command.word not in ASKS:
        return None if OK.fullmatch(reply) or reply in (PENDING, DROPPED) else f'the reply {reply[:80]!r} is none to a change'
    if command.word in (b'show', b'write') and REFUSED.fullmatch(reply):
        return None
    if command.word == b'stats':
        return None if COUNTS.fullmatch(reply) else f'the reply {reply[:80]!r} tells no counts'
    if command.word == b'write' and TEXT.match(reply):
        return None if reply.endswith(b'\n') and is_utf8(reply) else 'the text is no UTF-8, or no line feed ends it'
    return shown_fault(command, reply) if reply == b'.\n' or reply.endswith(b'\n.\n') else f'no form: {reply[:80]!r}'


def is_utf8(data):
    try:
        data.decode()
    except UnicodeDecodeError:
        return False
    return True


class Batch(NamedTuple):
    """What was known of a session when a batch was opened: to this it goes back where the batch is dropped."""
    held: set
    dumped: dict
    parameters: list


class Seen:
    """What is known of a session by its replies so far: which documents it holds (in a batch, which are pending), what
    its last change came to, what was answered to requests since anything changed of what they ask, and the batch that
    is open."""

    def __init__(self):
        self.held = set()
        self.outcome = b'refused S01 -\n'
        self.answers = {}
        self.parameters = []
        self.batch = None

    def fault(self, command, reply):
        """What is wrong with the next reply, or nothing. It takes the reply in."""
        fault = form_fault(command, reply) or self.held_fault(command, reply) or self.batch_fault(command, reply)
        if fault:
            return fault
        if command.word in ASKS and not NO.fullmatch(reply):
            return self.answer_fault(command, reply)
        if not NO.fullmatch(reply):
            self.change(command, reply)
        return None

    def held_fault(self, command, reply):
        """`no 5` comes exactly where the document is not held."""
        asks_held = command.word in NUMBERS and 5 in NUMBERS[command.word] and not refusal_by_line(command)
        is_held = not asks_held or command.document in self.held
        if reply == b'no 1\n' or is_held == (reply != b'no 5\n'):
            return None
        return f'the reply {reply[:80]!r} does not fit that the document is {"" if is_held else "not "}held'

    def batch_fault(self, command, reply):
        """A batch is begun, committed and dropped as one is open or not, and a change is pending exactly in one."""
        if command.word in ASKS or reply == b'no 1\n' or refusal_by_line(command):
            return None
        is_open = self.batch is not None
        refused = {b'begin': is_open, b'commit': not is_open, b'abandon': not is_open}.get(command.word)
        if NO.fullmatch(reply):
            fits = refused is not False
        elif command.word == b'abandon':
            fits = not refused and reply == DROPPED
        elif command.word == b'begin' or is_open and command.word != b'commit':
            fits = not refused and reply == PENDING
        else:
            fits = not refused and OK.fullmatch(reply)
        if fits:
            return None
        return f'the reply {reply[:80]!r} does not fit that {"a" if is_open else "no"} batch is open'

    def answer_fault(self, command, reply):
        known = self.answers.setdefault(command.line, reply)
        if known != reply:
            return f'`{command.line.decode()}` was answered otherwise, and nothing has changed since'
        if command.word in (b'show', b'write') and (self.outcome or b'') != (reply if REFUSED.fullmatch(reply) else b''):
            return f'the reply {reply[:80]!r} does not fit what the last change was answered'
        return None

    def change(self, command, reply):
        """Takes in an accepted change, or what begins or ends a batch. What is pending is dumped, and else counts for
        nothing before it is present."""
        if command.word == b'begin':
            self.batch = Batch(set(self.held), self.dumped(), list(self.parameters))
        elif command.word == b'abandon':
            self.held, self.parameters = self.batch.held, self.batch.parameters
            self.answers = {line: self.answers[line] for line in self.answers if line in ASKS} | self.batch.dumped
            self.batch = None
        else:
            self.edit(command)
            if command.word == b'commit':
                self.batch = None
            if OK.fullmatch(reply):
                self.tell(reply)

    def dumped(self):
        """What is known of how documents are dumped."""
        return {line: reply for line, reply in self.answers.items() if line.startswith(b'dump ')}

    def edit(self, command):
        """Takes in what a change makes of the documents and parameters that it speaks of."""
        self.answers.pop(b'dump ' + (command.document or b''), None)
        if command.word == b'param':
            self.parameters.append(command)
        elif command.word == b'drop':
            self.held.discard(command.document)
        elif command.document:
            self.held.add(command.document)

    def tell(self, reply):
        """Takes in what a change has come to."""
        self.outcome = None if reply == b'ok done\n' else reply.removeprefix(b'ok ')
        for asked in ASKS:
            self.answers.pop(asked, None)


def session_fault(data, done):
    """What is wrong with how a session of these bytes ended and was answered, or nothing, and what is known of it."""
    commands, status = commands_of(data)
    replies, rest = cut(done.written)
    seen = Seen()
    if done.status < 0:
        return f'it ended by signal {-done.status}', seen
    if done.status != status:
        return f'it ended with status {done.status}, and not with {status}', seen
    if done.said:
        return f'it said on standard error: {done.said[:200]!r}', seen
    for turn, (command, reply) in enumerate(zip(commands, replies), 1):
        fault = seen.fault(command, reply)
        if fault:
            return f'command {turn}, `{command.line[:80].decode(errors="replace")}`: {fault}', seen
    if rest or len(replies) != len(commands):
        return f'{len(commands)} commands have {len(replies)} replies, and {len(rest)} bytes behind them', seen
    return None, seen
