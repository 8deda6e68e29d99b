"""The proved native program: where it is built, whether it is current, and which one a tool runs."""
import os
import subprocess
import sys

from lib.crates import TOP

PROGRAM = TOP / 'crates' / 'xt_cli' / 'out' / 'xt_cli'

# The status of ./xt where the program is not built or not current, and it was told to run no unproved code.
NOT_BUILT = 69


def is_current():
    """Whether the program is built, and no file that it is made of has changed since. The script ./xt decides that, and
    is asked, so that all who run the program have one answer."""
    asked = subprocess.run([TOP / 'xt'], env={**os.environ, 'XT_UNPROVED': 'no'}, stdin=subprocess.DEVNULL,
                           stdout=subprocess.DEVNULL, stderr=subprocess.DEVNULL)
    return asked.returncode != NOT_BUILT


def want_program():
    """Ends where the program is not built. One that is not current runs too, with a word of warning: tools also measure
    what it was before a change."""
    if not os.access(PROGRAM, os.X_OK):
        sys.exit('the program is not built: run tools/build first')
    if not is_current():
        print('the program is older than a file that it is made of: tools/build builds it anew', file=sys.stderr)


def chosen_program(path=None):
    """The program at this path, or the one that is built here where none is named; ends where there is none."""
    if path is None:
        want_program()
        return os.fspath(PROGRAM)
    if not os.access(path, os.X_OK):
        sys.exit(f'no program {path}')
    return os.path.abspath(path)
