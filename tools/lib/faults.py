"""The session in which each read and each write is made to fail, as the cases store it, and how a call that serves it
ends where one does.

What is said here is said by the definitions and not by the program: `Serves` of crates/spec_session/specs/Served.antt.
Where a read fails, the status is 1, and the replies to the whole commands among the bytes taken are written
(`IsCutShort`). Where a write fails, the status is 2, and a prefix of the replies is (`IsPrefixOfReplies`). A reply is
written before more is read, so where both are to fail it is the write of the reply to the last whole command."""
from typing import NamedTuple

from lib.crates import TOP
from lib.fuzzing import bytes_of
from lib.sessions import commands_of, cut

CASES = TOP / 'crates' / 'session_cases'
# The section of both files of cases, and the name of the case in which nothing fails.
SECTION = '# ---- Each read and each write fails once: tools/failing-cases makes these of the first ----'
UNDISTURBED = 'failing: nothing does'


class End(NamedTuple):
    """How a session ends: its status, and all that it wrote."""
    status: int
    written: bytes


class Script:
    """A session of whole commands with the replies to it, each as bytes."""

    def __init__(self, data, written):
        self.data = data
        self.replies, rest = cut(written)
        commands, _ = commands_of(data)
        if rest or len(commands) != len(self.replies):
            raise ValueError(f'{len(commands)} commands have {len(self.replies)} replies')
        # How many bytes are taken when a command is whole.
        self.ends = []
        for command in commands:
            self.ends.append((self.ends[-1] if self.ends else 0) + len(command.data))
        if b''.join(command.data for command in commands) != data:
            raise ValueError('the session has lines that belong to no command, or a last one without line feed')

    def replies_to(self, number):
        """The replies to so many of the first commands."""
        return b''.join(self.replies[:number])

    def undisturbed(self):
        return End(0, self.replies_to(len(self.replies)))

    def whole(self, taken):
        """How many commands are whole among so many bytes."""
        return sum(end <= taken for end in self.ends)

    def read_failed(self, taken):
        """The end where a read fails when so many bytes are taken."""
        return End(1, self.replies_to(self.whole(taken)))

    def write_failed(self, number):
        """The end where the reply of this number, from 1, cannot be written, and no byte of it was."""
        return End(2, self.replies_to(number - 1))


def section_of(lines):
    """Where the section stands among the lines of a file of cases: its first line, and the one behind its last."""
    begin = lines.index(SECTION)
    later = (at for at in range(begin + 1, len(lines)) if lines[at].startswith('# ----'))
    return begin, next(later, len(lines))


def first_case(lines):
    """The lines of the first case of the section, without the empty one behind them."""
    begin, end = section_of(lines)
    first = lines.index('', begin) + 1
    return lines[first:lines.index('', first, end)]


def lines_of_file(name):
    return (CASES / name).read_text(encoding='utf-8').split('\n')


def stored_script():
    """The script that the cases store."""
    head, *sent = first_case(lines_of_file('stdin'))
    head_again, status, *written = first_case(lines_of_file('stdout'))
    if head.split(' | ')[0] != f'== {UNDISTURBED}' or head_again != head or status != 'status 0':
        raise ValueError(f'the first case of the section is not `{UNDISTURBED}`, or does not end with status 0')
    return Script(b''.join(map(bytes_of, sent)), b''.join(map(bytes_of, written)))
