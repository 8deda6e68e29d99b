"""What the benches share: the time of a session and of xsltproc, and how times at two sizes are judged and printed."""
import os
import resource
import shutil
import subprocess
import sys
import tempfile

from lib.documents import as_xml
from lib.program import PROGRAM

# How many times as long twice the size may take; about 2 is in proportion to the size.
GREATEST_RATIO = 2.5

# Seconds that are fewer cannot be told from noise, and are not judged.
FEWEST_SECONDS = 0.01


def processor_seconds():
    """What the programs that ended so far took of the processor."""
    usage = resource.getrusage(resource.RUSAGE_CHILDREN)
    return usage.ru_utime + usage.ru_stime


def seconds(run):
    """The least time of three runs, in seconds of the processor, which other work on the machine hardly changes."""
    best = None
    for _ in range(3):
        start = processor_seconds()
        run()
        spent = processor_seconds() - start
        best = spent if best is None else min(best, spent)
    return best


def session(commands):
    """The time of a session that is sent these lines."""
    data = ('\n'.join(commands) + '\n').encode()

    def run():
        done = subprocess.run([PROGRAM, 'session'], input=data, stdout=subprocess.PIPE)
        if done.returncode != 0 or b'refused D' in done.stdout:
            sys.exit(f'the program ended with status {done.returncode}: {done.stdout[-200:]!r}')
    return seconds(run)


def transformation(source, stylesheet):
    """The time of a session that sends both and shows the result, and of one that only sends the source."""
    reading = session(['source', *source, '.'])
    return session(['module main', *stylesheet, '.', 'source', *source, '.', 'show']), reading


def xsltproc(source, stylesheet):
    """The time of xsltproc on the same source and stylesheet, with its start; None where it is not installed."""
    if not shutil.which('xsltproc'):
        return None
    with tempfile.TemporaryDirectory() as folder:
        for name, part in (('s.xml', source), ('t.xsl', stylesheet)):
            with open(os.path.join(folder, name), 'w', encoding='utf-8') as file:
                file.write(as_xml(part))
        words = ['xsltproc', '--maxdepth', '100000', os.path.join(folder, 't.xsl'), os.path.join(folder, 's.xml')]
        return seconds(lambda: subprocess.run(words, stdout=subprocess.DEVNULL, check=True))


def ratio_of(one, two):
    """How many times as long the second took."""
    return max(two, 0) / max(one, 1e-9)


def is_within(one, two, greatest=GREATEST_RATIO):
    """Whether the second did not take more times as long than the greatest."""
    return two < FEWEST_SECONDS or ratio_of(one, two) <= greatest


def compared(name, size, one, two):
    """Prints what the work takes at a size and at twice that size, in seconds, and their ratio. Whether that is not
    over the greatest."""
    print(f'{name:44} {size:7} {one:8.3f} s {2 * size:7} {two:8.3f} s  ratio {ratio_of(one, two):5.2f}', flush=True)
    return is_within(one, two)


def wanted(names):
    """Those of these names that the words of the command line give, or all."""
    unknown = [word for word in sys.argv[1:] if word not in names]
    if unknown:
        sys.exit(f'no bench {unknown[0]}; there are: {", ".join(names)}')
    return sys.argv[1:] or names
