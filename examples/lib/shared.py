"""What examples/transform, examples/preview and examples/browser share: the client, their words, and how they end."""
import os
import re
import sys
from pathlib import Path

TOP = Path(__file__).resolve().parent.parent.parent
sys.path.insert(0, str(TOP / 'clients' / 'python'))
import xt  # noqa: E402


class Stop(Exception):
    """The program ends with this status, and says why."""

    def __init__(self, status, said=None):
        super().__init__(said)
        self.status = status
        self.said = said


def run(name, main):
    """Runs a program of this name, and ends with its status."""
    try:
        main(sys.argv[1:])
        sys.stdout.flush()
        status = 0
    except Stop as stop:
        say(f'{name}: {stop.said}')
        status = stop.status
    except (BrokenPipeError, KeyboardInterrupt):
        # Nobody reads what is left to be written.
        os.dup2(os.open(os.devnull, os.O_WRONLY), sys.stdout.fileno())
        status = 9
    sys.exit(status)


def say(text):
    """Writes a line to standard error."""
    write(text + '\n', sys.stderr)


def write(text, stream):
    """Writes a text in UTF-8, whatever the machine's own encoding is; a word that is no UTF-8 as it came."""
    stream.flush()
    stream.buffer.write(text.encode('utf-8', 'surrogateescape'))
    stream.buffer.flush()


def words_of(name, words):
    """The stylesheet, the source, and the parameters as pairs."""
    if len(words) < 2:
        raise Stop(1, f'usage: {name} STYLE.xsl SOURCE.xml [NAME=VALUE ..]')
    return words[0], words[1], [setting_of(word) for word in words[2:]]


def setting_of(word):
    """The name and the value of a word NAME=VALUE."""
    name, has_value, value = word.partition('=')
    if not name or not has_value or re.search('[ \n]', name):
        raise Stop(2, f"'{word}' does not have the form NAME=VALUE")
    return name, value


def modules_of(style):
    """The modules of a stylesheet, the principal one last, so that only what comes after it is a run."""
    try:
        main, *others = xt.modules_of(style, external=True)
    except xt.NotXml as error:
        say(str(error))
        raise Stop(4, f'{error.file}: this stylesheet module cannot be read as XML')
    except xt.BadHref as error:
        raise Stop(5, str(error))
    return [*others, main]


def source_of(file):
    """The lines of the source."""
    try:
        return xt.lines_of(Path(file), external=True)
    except xt.NotXml as error:
        say(str(error))
        raise Stop(6, f'{file}: this source cannot be read as XML')


def commands_of(modules, settings):
    """The commands that send these modules and parameters."""
    sent = [(f'module {module.name}', module.document.lines) for module in modules]
    return sent + [(f'param {name} {xt.escaped(value)}', None) for name, value in settings]


def xml_of(lines):
    """The lines of a result as XML, which ends with a line feed unless it is empty."""
    return xt.xml_of(lines) + '\n' if lines else ''
